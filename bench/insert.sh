#!/usr/bin/env bash
# Measures INSERT: 990 statements of one row, 990 of ten and 120 of a hundred, into a table of 10,000 and one of 100,000 rows, without
# an index, with one and with two, by `ranksql run`. Beside it, in the same run, the SQLite of python3 takes the same statements, with
# an index for each of ours. More statements don't fit: a script has at most 1,000 statements and 100,000 tokens, of which a row of
# three values takes eight.
# The time is processor time, the shortest of five runs. Ours is that of the script with its INSERTs less that of the same script
# without them, so the reading of the file and the making of the indexes are left out, and the reading of the statements is in. That
# of SQLite is the time within its process that its statements take. It keeps its table in memory, and each statement is a transaction.
# At the end both are asked for the ten best rows, which have to be the same.
# The program is the one that ./ranksql builds, or the one that the variable RANKSQL names.
# shellcheck source=bench/functions.sh
. "$(dirname "$0")/functions.sh"

RUNS=${RUNS:-5}

needs python3 'it takes the times'
python3 -c 'import sqlite3' || exit 1
find_program

python3 - "$program" "$work" "$RUNS" <<'PYTHON'
import csv
import os
import sqlite3
import subprocess
import sys
import time

from measured import draw

program, folder, runs = sys.argv[1], sys.argv[2], int(sys.argv[3])
TABLES = [10_000, 100_000]
INSERTS = [(990, 1), (990, 10), (120, 100)]
INDEXES = [0, 1, 2]
LIMIT = 10

# Ratings from 0 to 999,999 and years from 1900 to 2024.
def film(row):
    return "Film number %d" % row, draw(1_000_000), 1900 + draw(125)


for rows in TABLES:
    with open("%s/%d.csv" % (folder, rows), "w") as file:
        file.write("title,rating,year\n")
        file.writelines("%s,%d,%d\n" % film(row) for row in range(1, rows + 1))


def inserts(rows, count, size):
    """The INSERTs, which both sides read."""
    number = rows
    for _ in range(count):
        values = ["('%s', %d, %d)" % film(number + place) for place in range(1, size + 1)]
        number += size
        yield "INSERT INTO films VALUES %s;\n" % ", ".join(values)


def our_script(rows, indexes, statements, name):
    with open(name, "w") as file:
        file.write("CREATE TABLE films (title TEXT, rating INT, year INT) FROM '%s/%d.csv';\n" % (folder, rows))
        file.write("CREATE PREDICATE rated (rating INT) MAX 999999 COST 2 AS rating;\n")
        file.write("CREATE PREDICATE recent (year INT) MAX 125 COST 2 AS year - 1900;\n")
        file.writelines(["CREATE RANK INDEX by_rated ON films (rated(rating));\n", "CREATE RANK INDEX by_recent ON films (recent(year));\n"][:indexes])
        file.writelines(statements)
        file.write("SELECT title FROM films ORDER BY rated(rating) LIMIT %d;\n" % LIMIT)
    return name


def spent(name):
    """The seconds of processor time of a script, and what it printed."""
    ended = subprocess.Popen([program, "run", name, "1"], stdout=subprocess.PIPE, stderr=subprocess.PIPE, stdin=subprocess.DEVNULL)
    printed, told = ended.stdout.read().decode(), ended.stderr.read().decode(errors="replace")
    _, status, usage = os.wait4(ended.pid, 0)
    if status != 0:
        sys.exit("bench: %s ended with %d: %s" % (program, status, told))
    return usage.ru_utime + usage.ru_stime, printed


def spent_by_sqlite(rows, indexes, statements):
    """The same of SQLite, of the statements alone."""
    connection = sqlite3.connect(":memory:", isolation_level=None)
    connection.execute("CREATE TABLE films(title TEXT, rating INTEGER, year INTEGER)")
    with open("%s/%d.csv" % (folder, rows)) as file:
        connection.executemany("INSERT INTO films VALUES (?, ?, ?)", list(csv.reader(file))[1:])
    for index in ["CREATE INDEX by_rated ON films (rating DESC)", "CREATE INDEX by_recent ON films (year DESC)"][:indexes]:
        connection.execute(index)
    start = time.process_time()
    connection.executescript("".join(statements))
    taken = time.process_time() - start
    found = connection.execute("SELECT title FROM films ORDER BY rating DESC, rowid LIMIT %d" % LIMIT).fetchall()
    connection.close()
    return taken, [title for title, in found]


cases = {}
for rows in TABLES:
    for count, size in INSERTS:
        statements = list(inserts(rows, count, size))
        for indexes in INDEXES:
            stem = "%s/%d-%d-%d" % (folder, rows, size, indexes)
            cases[rows, count, size, indexes] = (
                our_script(rows, indexes, statements, stem + ".sql"), our_script(rows, indexes, [], stem + "-front.sql"), statements)

best = {}
for _ in range(runs):
    for case, (with_inserts, without, statements) in cases.items():
        rows, _, _, indexes = case
        whole, ours = spent(with_inserts)
        front, _ = spent(without)
        sqlite, theirs = spent_by_sqlite(rows, indexes, statements)
        best[case] = list(map(min, (whole, front, sqlite), best.get(case, (whole, front, sqlite))))
        if [line.split(",", 2)[2] for line in ours.splitlines()] != theirs:
            sys.exit("bench: ranksql and SQLite give other rows")

print("microseconds of processor time of an INSERT, the best of %d runs; SQLite %s" % (runs, sqlite3.sqlite_version))
print("%-42s %10s %10s %10s" % ("", "ranksql", "SQLite", "ratio"))
for (rows, count, size, indexes), (whole, front, sqlite) in best.items():
    ours, theirs = (whole - front) / count * 1e6, sqlite / count * 1e6
    print("%6d rows, %d indexes, %3d times %3d rows %12.1f %10.1f %10.2f" % (rows, indexes, count, size, ours, theirs, ours / theirs))
PYTHON
