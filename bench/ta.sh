#!/usr/bin/env bash
# Measures threshold scans: how deep `ranksql ta` goes, how many accesses it makes, and how long a query takes, over tables of 1,000 to
# 131,072 rows with 2 to 4 rank indexes, for 1 to 1,000 rows, with scores that have nothing to do with each other (apart) and with
# scores that mostly agree (alike). In the same run `ranksql run` answers the same queries over the same indexes, and sqlite3 sorts the
# sums. The time of a query is what 400 more of them add to a run, over 400, and 40 with sqlite3, so the time to read the table and to
# make the indexes isn't in it. Times are those of the processor, so other work on the machine counts little. Each runs three times, and
# the shortest time counts.
# It draws docs/depth_by_rows.svg from the depths for ten rows, which stand in docs/depth_by_rows.tsv too.
# The program is the one that ./ranksql builds, or the one that the variable RANKSQL names.
# shellcheck source=bench/functions.sh
. "$(dirname "$0")/functions.sh"

RUNS=3
MORE=400

needs python3 'it takes the times'
find_program

python3 - "$program" "$work" "$RUNS" "$MORE" "$root" <<'PYTHON'
import resource
import shutil
import subprocess
import sys

program, folder, runs, more, root = sys.argv[1], sys.argv[2], int(sys.argv[3]), int(sys.argv[4]), sys.argv[5]
sys.dont_write_bytecode = True
sys.path.insert(0, root + "/bench")
from depth_picture import draw  # noqa: E402

MOST = 9999
LETTERS = "abcd"
ROWS = (1000, 4000, 16000, 65536, 131072)


def numbers():
    seed = 20261130
    while True:
        seed = seed * 16807 % 2147483647
        yield seed


def make_table(rows, kind):
    drawn = numbers()
    with open("%s/%s%d.csv" % (folder, kind, rows), "w") as file:
        file.write("n,a,b,c,d\n")
        for row in range(1, rows + 1):
            own = [next(drawn) % (MOST + 1) for _ in LETTERS]
            if kind == "alike":
                # Three quarters of each score are the row's, and a quarter is its own.
                base = next(drawn) % (MOST + 1)
                own = [(3 * base + score) // 4 for score in own]
            file.write("%d,%d,%d,%d,%d\n" % (row, *own))


def script(rows, kind, indexes, count, queries):
    name = "%s/%s%d_%d_%d_%d.sql" % (folder, kind, rows, indexes, count, queries)
    with open(name, "w") as file:
        file.write("CREATE TABLE t (n INT, a INT, b INT, c INT, d INT) FROM '%s/%s%d.csv';\n" % (folder, kind, rows))
        file.write("CREATE PREDICATE p (v INT) MAX %d AS v;\n" % MOST)
        for letter in LETTERS[:indexes]:
            file.write("CREATE RANK INDEX i%s ON t (p(%s));\n" % (letter, letter))
        terms = " + ".join("p(%s)" % letter for letter in LETTERS[:indexes])
        file.write(("SELECT n FROM t ORDER BY %s LIMIT %d;\n" % (terms, count)) * queries)
    return name


def processor_time():
    used = resource.getrusage(resource.RUSAGE_CHILDREN)
    return used.ru_utime + used.ru_stime


def timed(words):
    before = processor_time()
    ran = subprocess.run(words, stdout=subprocess.PIPE, stderr=subprocess.PIPE)
    taken = processor_time() - before
    if ran.returncode != 0:
        sys.exit("bench: %s ended with %d: %s" % (" ".join(words), ran.returncode, ran.stderr.decode(errors="replace")))
    return taken, ran.stdout


def by_ta(queries, *what):
    return timed([program, "ta", script(*what, queries)])


def by_run(queries, *what):
    return timed([program, "run", script(*what, queries), "1"])


def by_sqlite(queries, rows, kind, indexes, count):
    total = " + ".join(LETTERS[:indexes])
    return timed(["sqlite3", "-batch", ":memory:", "-cmd", "CREATE TABLE t(n INTEGER, a INTEGER, b INTEGER, c INTEGER, d INTEGER);",
                  "-cmd", ".import --csv --skip 1 %s/%s%d.csv t" % (folder, kind, rows),
                  ("SELECT n, %s FROM t ORDER BY %s DESC, n LIMIT %d;" % (total, total, count)) * queries])


def of_a_query(call, count, *what):
    """The time of one query in microseconds."""
    few = min(call(1, *what)[0] for _ in range(runs))
    many = min(call(1 + count, *what)[0] for _ in range(runs))
    return max(0.1, (many - few) / count * 1e6)


def accesses(*what):
    _, out = by_ta(1, *what)
    return [int(part.split("=")[1]) for part in out.decode().splitlines()[-1].split(" ")]


has_sqlite = shutil.which("sqlite3") is not None
if not has_sqlite:
    print("sqlite3 is not found (on Debian: apt-get install sqlite3): only ranksql is measured")
for kind in ("apart", "alike"):
    for rows in ROWS:
        make_table(rows, kind)
cases = [(rows, kind, 2, 10) for kind in ("apart", "alike") for rows in ROWS]
cases += [(131072, kind, indexes, 10) for kind in ("apart", "alike") for indexes in (3, 4)]
cases += [(131072, kind, 2, count) for kind in ("apart", "alike") for count in (1, 100, 1000)]
print("best of %d runs; the time of one query in microseconds" % runs)
for what in cases:
    rows, kind, indexes, count = what
    depth, ordered, random = accesses(*what)
    own, plan = of_a_query(by_ta, more, *what), of_a_query(by_run, more, *what)
    line = "%6d rows, %d indexes, LIMIT %4d, %s: depth %6d sorted %6d random %6d; ta %9.1f, %.2f an access; run %9.1f (ta takes %.3f of it)" % (
        rows, indexes, count, kind, depth, ordered, random, own, own / (ordered + random), plan, own / plan)
    if has_sqlite:
        other = of_a_query(by_sqlite, more // 10, *what)
        line += "; sqlite3 %9.1f (ta takes %.3f of it)" % (other, own / other)
    print(line, flush=True)
lines = [("%d lists, %s" % (indexes, kind), [(rows, accesses(rows, kind, indexes, 10)[0]) for rows in ROWS])
         for kind in ("apart", "alike") for indexes in (2, 3, 4)]
draw(lines, root + "/docs/depth_by_rows.tsv", root + "/docs/depth_by_rows.svg")
print("docs/depth_by_rows.svg is drawn")
PYTHON
