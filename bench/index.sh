#!/usr/bin/env bash
# Measures how long a rank index over the greatest table takes: `ranksql plain` on a script that reads the table, makes a
# predicate and makes an index of it, beside `ranksql top` on the same column of the same file, which reads and sorts as
# many rows, and beside sqlite3, which imports the file and makes an index of the same expression. A half and a quarter of
# the rows show how time and memory grow. Each runs five times, in turn, and the shortest time counts.
# The program is the one that ./ranksql builds, or the one that the variable RANKSQL names.
# shellcheck source=bench/functions.sh
. "$(dirname "$0")/functions.sh"

ROWS=131072
MAX=99999
RUNS=5

needs python3 'it takes the times'

# A table of names, a price from 0 to MAX and a number of rooms. The numbers are those of the generator
# x -> 16807 x modulo 2^31 - 1, so each run makes the same file.
make_table() {
    awk -v rows="$1" -v max="$MAX" '
        function next_number(below) {
            seed = (seed * 16807) % 2147483647
            return int(seed / 2147483647 * below)
        }
        BEGIN {
            seed = 20260101
            print "name,price,rooms"
            for (row = 1; row <= rows; row++)
                printf "Hotel number %d,%d,%d\n", row, next_number(max + 1), 1 + next_number(400)
        }'
}

# The script of a table, without its index and with it.
make_script() {
    echo "CREATE TABLE t (name TEXT, price INT, rooms INT) FROM '$work/$1.csv';"
    echo "CREATE PREDICATE cheap (price INT) MAX $MAX AS $MAX - price;"
    if [ "$2" = indexed ]; then
        echo 'CREATE RANK INDEX by_cheap ON t (cheap(price));'
    fi
}

for share in 1 2 4; do
    make_table $((ROWS / share)) >"$work/$share.csv"
    make_script "$share" plain >"$work/$share.plain.sql"
    make_script "$share" indexed >"$work/$share.indexed.sql"
done

find_program

echo "tables of $ROWS rows ($(wc -c <"$work/1.csv") bytes) and of a half and a quarter of them; the best of $RUNS runs"
python3 - "$program" "$work" "$RUNS" "$MAX" <<'PYTHON'
import os
import shutil
import subprocess
import sys
import time

program, folder, runs, most = sys.argv[1], sys.argv[2], int(sys.argv[3]), sys.argv[4]
shares = [("whole", 1), ("half", 2), ("quarter", 4)]
# What starts a process counts towards its greatest memory. `time` is small, and Python isn't.
peak = folder + "/peak"
meter = ["/usr/bin/time", "-f", "%M", "-o", peak] if os.access("/usr/bin/time", os.X_OK) else []


# The time of a run in seconds, and the greatest memory of its process in kB.
def spent(words):
    start = time.perf_counter()
    run = subprocess.Popen(meter + words, stdout=subprocess.DEVNULL, stderr=subprocess.PIPE, stdin=subprocess.DEVNULL)
    told = run.stderr.read().decode(errors="replace").strip()
    _, status, usage = os.wait4(run.pid, 0)
    time_of_run = time.perf_counter() - start
    if status != 0:
        sys.exit("bench: %s ended with %d: %s" % (" ".join(words), os.waitstatus_to_exitcode(status), told))
    return time_of_run, int(open(peak).read().split()[-1]) if meter else usage.ru_maxrss


def indexed(share):
    return spent([program, "plain", "%s/%d.indexed.sql" % (folder, share)])


def read(share):
    return spent([program, "plain", "%s/%d.plain.sql" % (folder, share)])


def top(share):
    return spent([program, "top", "%s/%d.csv" % (folder, share), "price", most, "0"])


def sqlite(share):
    return spent(["sqlite3", "-batch", ":memory:",
                  "-cmd", "CREATE TABLE t(name TEXT, price INTEGER, rooms INTEGER);",
                  "-cmd", ".import --csv --skip 1 %s/%d.csv t" % (folder, share),
                  "CREATE INDEX by_cheap ON t (%s - price DESC);" % most])


sides = [("index", indexed), ("table", read), ("top", top)]
if shutil.which("sqlite3"):
    sides.append(("sqlite3", sqlite))
else:
    print("sqlite3 is not found (on Debian: apt-get install sqlite3): only ranksql is measured")
best, memory = {}, {}
for _ in range(runs):
    for name, share in shares:
        for side, call in sides:
            taken, held = call(share)
            best[side, name] = min(taken, best.get((side, name), taken))
            memory[side, name] = max(held, memory.get((side, name), 0))
for side, _ in sides:
    times = ", ".join("%s %7.1f ms" % (name, best[side, name] * 1000) for name, _ in shares)
    held = ", ".join("%.1f" % (memory[side, name] * 1024 / 1e6) for name, _ in shares)
    print("%-8s %s; at most %s MB of memory" % (side, times, held))
for name, _ in shares:
    extra = (memory["index", name] - memory["table", name]) * 1024 / 1e6
    print("%-8s a table with its index takes %.2f of the time of reading and sorting it (top), and %.1f MB more than the table alone"
          % (name, best["index", name] / best["top", name], extra))
if len(sides) == 4:
    print("ranksql takes %.2f of the time of sqlite3, which imports the file and makes an index of the same expression"
          % (best["index", "whole"] / best["sqlite3", "whole"]))
PYTHON
