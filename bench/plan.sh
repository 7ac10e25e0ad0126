#!/usr/bin/env bash
# Measures how long `ranksql run` takes to choose a plan: of queries over one to six tables with one to eight terms. A row of
# the printed table has the number of tables, a column the number of terms. Each neighbours are joined by an equality, each
# term speaks of one table, and the first table has rank indexes, so every kind of operator is tried. The tables have two
# rows, so the sample costs little.
# The time is what EXPLAIN adds to the time of the same script without it. Each runs five times, and the shortest time counts.
# The program is the one that ./ranksql builds, or the one that the variable RANKSQL names.
# shellcheck source=bench/functions.sh
. "$(dirname "$0")/functions.sh"

RUNS=5

needs python3 'it takes the times'
find_program
python3 - "$program" "$work" "$RUNS" <<'PYTHON'
import subprocess
import sys
import time

program, folder, runs = sys.argv[1], sys.argv[2], int(sys.argv[3])
MOST_TABLES, MOST_TERMS = 6, 8
ALIASES = "abcdef"

with open(folder + "/t.csv", "w") as file:
    file.write("x,y\n1,2\n2,1\n")


def script_of(tables, terms):
    text = "CREATE TABLE t (x INT, y INT) FROM '%s/t.csv';\n" % folder
    for term in range(1, terms + 1):
        text += "CREATE PREDICATE p%d (v INT) MAX 10 COST %d AS v;\nCREATE RANK INDEX i%d ON t (p%d(y));\n" % (term, term, term, term)
    return text


def query_of(tables, terms):
    aliases = ALIASES[:tables]
    where = " AND ".join("%s.x = %s.x" % pair for pair in zip(aliases, aliases[1:]))
    order = " + ".join("p%d(%s.%s)" % (term, aliases[(term - 1) % tables], "y" if term % 2 else "x") for term in range(1, terms + 1))
    return "EXPLAIN SELECT a.x FROM %s%s ORDER BY %s LIMIT 5;\n" % (", ".join("t " + alias for alias in aliases), " WHERE " + where if where else "", order)


def spent(text):
    with open(folder + "/plan.sql", "w") as file:
        file.write(text)
    best = float("inf")
    for _ in range(runs):
        start = time.perf_counter()
        ended = subprocess.run([program, "run", folder + "/plan.sql", "1"], stdout=subprocess.DEVNULL, stderr=subprocess.PIPE, stdin=subprocess.DEVNULL)
        best = min(best, time.perf_counter() - start)
        if ended.returncode != 0:
            sys.exit("bench: ranksql ended with %d: %s" % (ended.returncode, ended.stderr.decode(errors="replace")))
    return best


print("milliseconds of planning, the best of %d runs" % runs)
print("tables" + "".join("%9s" % ("%d term%s" % (terms, "s" if terms > 1 else "")) for terms in range(1, MOST_TERMS + 1)))
for tables in range(1, MOST_TABLES + 1):
    row = "%6d" % tables
    for terms in range(1, MOST_TERMS + 1):
        without = script_of(tables, terms)
        row += "%9.2f" % (1000 * (spent(without + query_of(tables, terms)) - spent(without)))
    print(row, flush=True)
PYTHON
