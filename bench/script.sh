#!/usr/bin/env bash
# Measures `ranksql plain` on the greatest script that it reads, 1,048,576 bytes of 100,000 tokens, and on scripts of a
# half and a quarter of that: times that grow with the length alone halve each time. Beside it, in the same run, the
# SQLite of python3 prepares the same statements over an empty table. Each runs five times, in turn, and the shortest
# time counts. The statements are of the language, so the program reads all of the script before it tells that there is no
# table of the first one. The program is the one that ./ranksql builds, or the one that the variable RANKSQL names.
# shellcheck source=bench/functions.sh
. "$(dirname "$0")/functions.sh"

BYTES=1048576
STATEMENTS=800
RUNS=5
WANTED='script: bind NoTable at '

needs python3 'it makes the scripts and takes the times'

# Three kinds of queries in turn, each of 125 tokens: a long list of columns, a long condition, and a long sum. A comment
# in front of each fills it up to its share of the bytes, and one at the end fills the script. Each run makes the same
# scripts.
make_scripts() {
    python3 - "$work" "$BYTES" "$STATEMENTS" <<'PYTHON'
import sys

folder, size, statements = sys.argv[1], int(sys.argv[2]), int(sys.argv[3])
columns = ["column_%02d_of_t" % place for place in range(20)]


def column(number):
    return columns[number % len(columns)]


def listed(number):
    items = ", ".join(column(number + place) for place in range(58))
    return "SELECT %s\nFROM t ORDER BY p(%s);\n" % (items, column(number))


def filtered(number):
    tests = " AND\n".join(
        "(%s < %d OR %s = 'a ''text'' %d')" % (column(number + place), number, column(place), place)
        for place in range(11)
    )
    return "SELECT * FROM t u\nWHERE %s\nORDER BY p(%s) DESC LIMIT %d;\n" % (tests, column(number), number)


def summed(number):
    terms = " +\n".join("%s * %d" % (column(number + place), number + place) for place in range(27))
    return "SELECT * FROM t AS u WHERE 0 <= %s\nORDER BY p(%s) LIMIT %d;\n" % (terms, column(number), number)


def comment(length):
    return "-- %s\n" % ("." * (length - 4))


for name, share in (("whole", 1), ("half", 2), ("quarter", 4)):
    count, length = statements // share, size // share
    pieces = []
    for number in range(count):
        statement = (listed, filtered, summed)[number % 3](number)
        pieces.append(comment(length // count - len(statement)) + statement)
    script = "".join(pieces)
    script += comment(length - len(script))
    with open("%s/%s.sql" % (folder, name), "w") as file:
        file.write(script)
with open("%s/columns" % folder, "w") as file:
    file.write(" INT, ".join(columns) + " INT")
PYTHON
}

# Runs the program and the peer in turn, and prints their shortest times. The program's time is that of the whole
# process, and the peer's that of its calls alone. A run that doesn't end as it should ends all.
measure() {
    python3 - "$program" "$work" "$RUNS" "$WANTED" <<'PYTHON'
import subprocess
import sys
import time

program, folder, runs, wanted = sys.argv[1], sys.argv[2], int(sys.argv[3]), sys.argv[4]
names = ["whole", "half", "quarter"]
try:
    import sqlite3
except ImportError:
    sqlite3 = None
    print("python3 has no sqlite3: only ranksql is measured")


def ours(name):
    start = time.perf_counter()
    run = subprocess.run([program, "plain", "%s/%s.sql" % (folder, name)], capture_output=True)
    spent = time.perf_counter() - start
    if run.returncode != 5 or run.stdout or not run.stderr.decode().startswith(wanted):
        told = run.stderr.decode(errors="replace").strip()
        sys.exit("bench: plain %s.sql ended with %d: %s" % (name, run.returncode, told))
    return spent


def theirs(name):
    with open("%s/columns" % folder) as file:
        columns = file.read()
    with open("%s/%s.sql" % (folder, name)) as file:
        script = file.read()
    connection = sqlite3.connect(":memory:")
    connection.create_function("p", 1, lambda value: value)
    connection.execute("CREATE TABLE t (%s)" % columns)
    start = time.perf_counter()
    connection.executescript(script)
    spent = time.perf_counter() - start
    connection.close()
    return spent


sides = [("ranksql", ours)]
if sqlite3 is not None:
    sides.append(("sqlite", theirs))
best = {}
for _ in range(runs):
    for name in names:
        for side, call in sides:
            spent = call(name)
            best[side, name] = min(spent, best.get((side, name), spent))
for side, _ in sides:
    whole, half, quarter = (best[side, name] * 1000 for name in names)
    print("%-8s whole %7.1f ms, half %7.1f ms, quarter %7.1f ms; whole/half %.2f, half/quarter %.2f"
          % (side, whole, half, quarter, whole / half, half / quarter))
if sqlite3 is not None:
    ratio = best["ranksql", "whole"] / best["sqlite", "whole"]
    print("ranksql takes %.2f of the time of SQLite %s, which also plans the statements" % (ratio, sqlite3.sqlite_version))
PYTHON
}

make_scripts || exit
echo "scripts of $(wc -c <"$work/whole.sql"), $(wc -c <"$work/half.sql") and $(wc -c <"$work/quarter.sql") bytes;" \
    "125 tokens in each of $STATEMENTS statements and of a half and a quarter of them; the best of $RUNS runs"

find_program
measure
