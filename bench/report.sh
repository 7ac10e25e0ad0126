#!/usr/bin/env bash
# Measures and draws: the calls of the scorer that `ranksql run` and `ranksql plain` make, by the rows of a table, by the rows that
# are asked for, and by the number of tables; and the time and the memory of `run` beside sqlite3, by rows. The pictures are written
# to docs/ as SVG, and the numbers beside each as a file of tabs: docs/calls_by_rows.svg and docs/calls_by_rows.tsv, and so on.
# Calls are those that tools/advise counts: of `run` those of its indexes, its sample and its plan, by the seed 1. They are the same
# on each machine. Times are processor time, the shortest of five runs, the reading of the files included; memory is the most that
# a process held, as GNU time tells it. Both sides have to print the same rows. The table has the numbers of a generator, so each run makes the same files.
# `bench/report.sh calls` leaves time and memory as they are, and `bench/report.sh times` leaves the calls. It needs gnuplot and python3, and sqlite3 for the times.
# The program is the one that ./ranksql builds, or the one that the variable RANKSQL names.
# shellcheck source=bench/functions.sh
. "$(dirname "$0")/functions.sh"

needs gnuplot 'it draws (on Debian: apt-get install gnuplot-nox)'
needs python3 'it counts'
find_program
[ "${1:-}" = calls ] || needs sqlite3 'nothing is timed without it (on Debian: apt-get install sqlite3)'
[ "${1:-}" = calls ] || needs /usr/bin/time 'it tells the memory (on Debian: apt-get install time)'

RANKSQL=$program PYTHONDONTWRITEBYTECODE=1 python3 -S - "$root" "$work" "${1:-all}" <<'PYTHON' || exit 1
import os
import subprocess
import sys

root, work, wanted = sys.argv[1:]
sys.path.insert(0, root + "/tools")
from ranksql_tools.advice import Case
from ranksql_tools.queries import read_queries
from ranksql_tools.runner import Runner

SEED, SECONDS, RUNS = 1, 600, 5
ROWS = [1000, 2000, 5000, 10000, 20000, 50000, 100000, 131072]
LIMITS = [1, 3, 10, 30, 100, 300, 1000, 3000, 10000]
TABLES = [1, 2, 3, 4]
ROWS_FOR_LIMITS, ROWS_FOR_TABLES, CITIES, LIMIT = 50000, 300, 30, 10
program = os.environ["RANKSQL"]
os.chdir(work)


def films(rows):
    """Films with a rating from 0 to 999 and a year from 1950 to 2024, by the generator x -> 16807 x modulo 2^31 - 1."""
    seed, made = 20260101, []
    for _ in range(rows):
        seed = seed * 16807 % 2147483647
        rating = seed * 1000 // 2147483647
        seed = seed * 16807 % 2147483647
        made.append((rating, 1950 + seed * 75 // 2147483647))
    return made


def put_films(rows):
    with open("films.csv", "w") as file:
        file.write("title,rating,year\n")
        file.writelines("Film number %d,%d,%d\n" % (row, *film) for row, film in enumerate(films(rows), 1))


def films_script(limit):
    return """CREATE TABLE films (title TEXT, rating INT, year INT) FROM 'films.csv';
CREATE PREDICATE rated (rating INT) MAX 999 COST 2 AS rating;
CREATE PREDICATE recent (year INT) MAX 75 COST 20 AS year - 1950;
CREATE RANK INDEX by_rated ON films (rated(rating));
SELECT title FROM films ORDER BY 2 * rated(rating) + recent(year) LIMIT %d;
""" % limit


def joined_script(tables):
    """The best combinations of a place of each kind in one city. The first ones have a rank index, and the last one has none."""
    script = ""
    for place in range(tables):
        with open("t%d.csv" % place, "w") as file:
            file.write("name,city,worth\n")
            file.writelines("p%d,%d,%d\n" % (row, (3 + 2 * place) * row % CITIES, (37 + 12 * place) * row * row % 101) for row in range(ROWS_FOR_TABLES))
        script += "CREATE TABLE t%d (name TEXT, city INT, worth INT) FROM 't%d.csv';\n" % (place, place)
        script += "CREATE PREDICATE p%d (worth INT) MAX 100 COST %d AS worth;\n" % (place, 5 if place < tables - 1 else 50)
        if place < tables - 1:
            script += "CREATE RANK INDEX i%d ON t%d (p%d(worth));\n" % (place, place, place)
    names = range(tables)
    where = " AND ".join("t%d.city = t%d.city" % (place, place + 1) for place in range(tables - 1))
    return script + "SELECT %s FROM %s%s ORDER BY %s LIMIT %d;\n" % (
        ", ".join("t%d.name" % place for place in names), ", ".join("t%d" % place for place in names), where and " WHERE " + where,
        " + ".join("p%d(t%d.worth)" % (place, place) for place in names), LIMIT)


def calls(script, runner=None):
    """The calls of the indexes, of the sample, of the plan, of `run` in all, and those of the query under `plain`. Scripts over the
    same files may share what was run."""
    body = script.encode()
    case = Case(body, read_queries(body)[0], runner or Runner(program, SECONDS), [SEED])
    indexes = sum(map(case.index_calls, case.used_indexes()))
    sample, plan = case.sample().total(), case.price_of(case.trials[SEED]).total()
    return indexes, sample, plan, indexes + sample + plan, case.plain(case.combinations()).total()


def spent(words):
    """The seconds of processor time of a run, what it printed, and the most memory that it held in MB."""
    ended = subprocess.Popen(["/usr/bin/time", "-f", "%M", "-o", "held", *words], stdout=subprocess.PIPE, stdin=subprocess.DEVNULL)
    printed = ended.stdout.read().decode()
    _, status, usage = os.wait4(ended.pid, 0)
    if status != 0:
        sys.exit("bench: %s ended with %d" % (words[0], status))
    with open("held") as file:
        return usage.ru_utime + usage.ru_stime, printed, int(file.read()) * 1024 / 1000000


def timed():
    """The best time and the most memory of both sides, which have to print the same rows."""
    with open("films.sql", "w") as file:
        file.write(films_script(LIMIT))
    sides = [[program, "run", "films.sql", str(SEED)], [
        "sqlite3", "-batch", ":memory:", "-cmd", "CREATE TABLE films(title TEXT, rating INTEGER, year INTEGER);", "-cmd", ".import --csv --skip 1 films.csv films",
        "-cmd", ".mode list", "-cmd", ".separator ,",
        "SELECT 2 * rating + year - 1950 AS score, title FROM films ORDER BY score DESC, rowid LIMIT %d;" % LIMIT]]
    runs = [[spent(words) for words in sides] for _ in range(RUNS)]
    ours, theirs = runs[0][0][1], runs[0][1][1]
    if ours != "".join("%d,%s\n" % (rank, line) for rank, line in enumerate(theirs.splitlines(), 1)):
        sys.exit("bench: run and sqlite3 print other rows")
    best = [min(run[side][0] for run in runs) * 1000 for side in (0, 1)]
    most = [max(run[side][2] for run in runs) for side in (0, 1)]
    return best, most


def write(name, heads, lines):
    with open("%s/docs/%s.tsv" % (root, name), "w") as file:
        file.write("\t".join(heads) + "\n")
        file.writelines("\t".join(map(str, line)) + "\n" for line in lines)
    print(name)
    for line in [heads, *lines]:
        print("  " + "".join("%14s" % word for word in line), flush=True)


HEADS = ["indexes", "sample", "plan", "run", "plain"]
by_rows, times, memory = [], [], []
for rows in ROWS:
    put_films(rows)
    if wanted != "times":
        by_rows.append((rows, *calls(films_script(LIMIT))))
    if wanted != "calls":
        best, most = timed()
        times.append((rows, *("%.1f" % number for number in best)))
        memory.append((rows, *("%.1f" % number for number in most)))
if wanted != "times":
    write("calls_by_rows", ["rows", *HEADS], by_rows)
    put_films(ROWS_FOR_LIMITS)
    shared = Runner(program, SECONDS)
    write("calls_by_limit", ["limit", *HEADS], [(limit, *calls(films_script(limit), shared)) for limit in LIMITS])
    write("calls_by_tables", ["tables", *HEADS], [(tables, *calls(joined_script(tables))) for tables in TABLES])
if wanted != "calls":
    write("time_by_rows", ["rows", "run", "sqlite3"], times)
    write("memory_by_rows", ["rows", "run", "sqlite3"], memory)
PYTHON

# Draws a picture: draw NAME TITLE XLABEL YLABEL AXES PLOT..
draw() {
    local name=$1 title=$2 xlabel=$3 ylabel=$4 axes=$5 plot=$6
    [ -r "$root/docs/$name.tsv" ] || return 0
    gnuplot <<GNUPLOT || exit 1
set terminal svg size 640,400 dynamic font 'sans-serif,13' background '#ffffff'
set output '$root/docs/$name.svg'
set datafile separator '\t'
set title '$title'
set xlabel '$xlabel'
set ylabel '$ylabel'
set key left top
set grid
set format x '%.0f'
set format y '%.0f'
$axes
data = '$root/docs/$name.tsv'
plot $plot
GNUPLOT
    echo "docs/$name.svg is drawn"
}

calls='data using 1:6 with linespoints lw 2 pt 7 title "plain", data using 1:5 with linespoints lw 2 pt 5 title "run, its index and sample included", data using 1:($3+$4) with linespoints lw 2 pt 9 title "run behind the index: sample and plan"'
sides='data using 1:3 with linespoints lw 2 pt 7 title "sqlite3", data using 1:2 with linespoints lw 2 pt 5 title "ranksql run"'
draw calls_by_rows 'Calls of the scorer for the 10 best of one table' 'rows of the table' 'calls' 'set logscale xy; set yrange [100:1000000]' "$calls"
draw calls_by_limit 'Calls of the scorer for the K best of 50,000 rows' 'K, the rows that LIMIT asks for' 'calls' 'set logscale xy; set yrange [100:1000000]' "$calls"
draw calls_by_tables 'Calls of the scorer for the 10 best combinations, by tables' 'tables of 300 rows, joined by city' 'calls' \
    'set logscale y; set xtics 1; set xrange [0.8:4.2]' "$calls"
draw time_by_rows 'Time for the 10 best of one table, its file read' 'rows of the table' 'milliseconds of processor time' 'set yrange [0:*]' "$sides"
draw memory_by_rows 'Memory for the 10 best of one table' 'rows of the table' 'MB' 'set yrange [0:*]' "$sides"
