#!/usr/bin/env bash
# Measures `tools/advise` on a query whose plans call a predicate two million times: a self-join of 53,940 stones by three equal columns
# and `<`. Beside it, in the same run, is the query itself under `ranksql run`, by the first of the seeds that advise tries. Each runs
# RUNS times, in turn, and the shortest counts: the time by the clock, and the processor time with that of all that was started.
# What advise prints has to be the same each time.
# The program is the one that ./ranksql builds, or the one that the variable RANKSQL names.
# shellcheck source=bench/functions.sh
. "$(dirname "$0")/functions.sh"

RUNS=${RUNS:-3}

needs python3 'it takes the times'
find_program
RANKSQL=$program python3 - "$program" "$root/tools/advise" "$work" "$RUNS" <<'PYTHON'
import os
import sys

from measured import draw, waited

program, advise, folder, runs = sys.argv[1], sys.argv[2], sys.argv[3], int(sys.argv[4])
os.chdir(folder)
ROWS = 53940
# How many different values the columns have that are to be equal.
CARATS, COLORS, CLARITIES = 12, 7, 8

with open("stones.csv", "w") as file:
    file.write("id,carat,color,clarity,price\n")
    for row in range(ROWS):
        file.write("%d,%d,%s,C%d,%d\n" % (row + 1, 20 + draw(CARATS), "DEFGHIJ"[draw(COLORS)], draw(CLARITIES), 326 + draw(18498)))
with open("s.sql", "w") as file:
    file.write("""CREATE TABLE stones (id INT, carat INT, color TEXT, clarity TEXT, price INT) FROM 'stones.csv';
CREATE PREDICATE cheap (price INT) MAX 18823 COST 20 AS 18823 - price;
CREATE PREDICATE saved (a INT, b INT) MAX 18823 COST 100 AS ABS(a - b);
SELECT a.id, b.id FROM stones a, stones b WHERE a.carat = b.carat AND a.clarity = b.clarity AND a.color = b.color AND a.price < b.price
ORDER BY saved(a.price, b.price) + cheap(a.price) LIMIT 10;
""")

SIDES = {"advise": [advise, "--seconds", "600", "s.sql"], "run": [program, "run", "s.sql", "1"]}
best, printed = {}, {}
for _ in range(runs):
    for side, words in SIDES.items():
        taken, told, usage = waited(words)
        times = (taken, usage.ru_utime + usage.ru_stime)
        best[side] = tuple(map(min, times, best.get(side, times)))
        if printed.setdefault(side, told) != told:
            sys.exit("bench: %s prints something else a second time" % side)

print("%-14s %12s %18s" % ("", "by the clock", "processor seconds"))
for side, times in best.items():
    print("%-14s %12.2f %18.2f" % (side, *times))
print("%-14s %12.2f %18.2f" % ("ratio", *(ours / theirs for ours, theirs in zip(best["advise"], best["run"]))))
PYTHON
