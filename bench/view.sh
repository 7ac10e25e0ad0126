#!/usr/bin/env bash
# Measures views that are kept while rows join: `ranksql view` over a table of 1,000 to 100,000 rows that is joined with itself by an
# equality, where about ten rows have each value. Behind each of 490 INSERTs of one row the view is fetched; a script has no room for
# more. In the same run sqlite3 asks the query anew behind each INSERT, with an index of the joined column; it has as many INSERTs as
# LATER says, since each costs it a whole answer. The time of an INSERT is what these add to a run over the number of them, so reading the table and making
# the view aren't in it. Each runs three times, in turn, and the shortest time counts. The calls are those of the definition: of
# `view` the combinations with the new row, and anew all combinations.
# Both have to print the same rows behind the INSERTs that both have.
# The program is the one that ./ranksql builds, or the one that the variable RANKSQL names.
# shellcheck source=bench/functions.sh
. "$(dirname "$0")/functions.sh"

RUNS=3
JOINS=490
LATER=20

needs python3 'it takes the times'
needs sqlite3 'it asks anew'
find_program

python3 - "$program" "$work" "$RUNS" "$JOINS" "$LATER" <<'PYTHON'
import random
import subprocess
import sys
import time

program, folder, runs, joins, later = sys.argv[1], sys.argv[2], int(sys.argv[3]), int(sys.argv[4]), int(sys.argv[5])

MAX = 1000
VALUES = 10  # rows of one value, about


def rows_of(count):
    drawn = random.Random(count)
    return [(drawn.randrange(max(1, count // VALUES)), drawn.randrange(MAX)) for _ in range(count + joins)]


def timed(words, text=None):
    best = None
    for _ in range(runs):
        began = time.perf_counter()
        told = subprocess.run(words, cwd=folder, input=text, capture_output=True, text=True, check=True).stdout
        took = time.perf_counter() - began
        best = took if best is None else min(best, took)
    return best, told


def script(count, rows, fetches):
    lines = [
        "CREATE TABLE t (g INT, v INT) FROM 't.csv';",
        f"CREATE PREDICATE near (a INT, b INT) MAX {MAX} AS {MAX} - ABS(a - b);",
        "DECLARE k CURSOR FOR SELECT x.g, x.v, y.v FROM t x, t y WHERE x.g = y.g AND x.v < y.v ORDER BY near(x.v, y.v) LIMIT 10;",
    ]
    for row in rows[count : count + fetches]:
        lines += [f"INSERT INTO t VALUES ({row[0]}, {row[1]});", "FETCH 10 FROM k;"]
    return "\n".join(lines)


def anew(count, rows, fetches):
    lines = ["CREATE TABLE t (g INT, v INT);", ".mode csv", ".separator ,", ".import --skip 1 t.csv t", "CREATE INDEX tg ON t (g);"]
    query = (
        f"SELECT {MAX} - ABS(x.v - y.v), x.g, x.v, y.v FROM t x, t y WHERE x.g = y.g AND x.v < y.v"
        f" ORDER BY {MAX} - ABS(x.v - y.v) DESC, x.rowid, y.rowid LIMIT 10;"
    )
    for row in rows[count : count + fetches]:
        lines += [f"INSERT INTO t VALUES ({row[0]}, {row[1]});", query]
    return "\n".join(lines)


def pairs_by_value(rows):
    """The calls: of all combinations that satisfy the condition, and of those that have the last row."""
    by_value = {}
    for group, value in rows:
        by_value.setdefault(group, []).append(value)
    whole = sum(1 for values in by_value.values() for a in values for b in values if a < b)
    group, value = rows[-1]
    return whole, sum(1 for other in by_value[group] if other != value)


print(f"{'rows':>7} {'view, an INSERT':>16} {'sqlite3 anew':>13} {'calls of a growth':>18} {'of the whole':>13}")
for count in (1_000, 10_000, 100_000):
    rows = rows_of(count)
    with open(f"{folder}/t.csv", "w", encoding="utf-8") as file:
        file.write("g,v\n" + "".join(f"{g},{v}\n" for g, v in rows[:count]))
    times = {}
    for name, inserts in (("none", 0), ("some", joins)):
        with open(f"{folder}/{name}.sql", "w", encoding="utf-8") as file:
            file.write(script(count, rows, inserts))
        times[name], told = timed([program, "view", f"{name}.sql"])
    of_view = (times["some"] - times["none"]) / joins
    base, _ = timed(["sqlite3", ":memory:"], anew(count, rows, 0))
    took, found = timed(["sqlite3", ":memory:"], anew(count, rows, later))
    of_sqlite = (took - base) / later
    printed = [line.split(",", 1)[1] for line in told.splitlines()]
    wanted = [line.strip() for line in found.splitlines()]
    if printed[: len(wanted)] != wanted:
        sys.exit(f"at {count} rows view and sqlite3 print different rows")
    calls = [pairs_by_value(rows[: count + n + 1]) for n in range(0, joins, 49)]
    growth = sum(own for _, own in calls) / len(calls)
    print(f"{count:>7} {of_view * 1e6:>13.0f} us {of_sqlite * 1e3:>10.2f} ms {growth:>18.1f} {calls[-1][0]:>13,}")
PYTHON
