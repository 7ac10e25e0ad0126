#!/usr/bin/env bash
# Measures 64 cursors over one table of the greatest size, of which 10 rows each are fetched in turn, ten times over. Beside it, in
# the same run: the same script with one cursor, and with none. It tells the time, the calls of the scorer and the memory of each.
# Each runs five times, in turn, and the shortest time counts. The memory that cursors hold is what the script with them adds to that
# without: it has to grow with the rows that were drawn, not with the table.
# All cursors are over one query, so each has to print the rows that one alone prints.
# The programs are those that ./ranksql and `rt run` build, or those that the variables RANKSQL and COUNT_CALLS name.
# shellcheck source=bench/functions.sh
. "$(dirname "$0")/functions.sh"

ROWS=131072
RUNS=5

needs python3 'it takes the times'
find_program
find_counter

python3 - "$program" "$counter" "$work" "$ROWS" "$RUNS" <<'PYTHON'
import sys

from measured import calls_of, draw, waited

program, counter, folder, rows, runs = *sys.argv[1:4], int(sys.argv[4]), int(sys.argv[5])
COUNTS = [0, 1, 64]
FETCHES, WANTED = [1, 10], 10

# Films with a rating from 0 to 999 and a year from 1950 to 2024.
with open(folder + "/films.csv", "w") as file:
    file.write("title,rating,year\n")
    file.writelines("Film number %d,%d,%d\n" % (row, draw(1000), 1950 + draw(75)) for row in range(1, rows + 1))


def script_of(cursors, fetches):
    name = "%s/%d-%d.sql" % (folder, cursors, fetches)
    with open(name, "w") as file:
        file.write("""CREATE TABLE films (title TEXT, rating INT, year INT) FROM '%s/films.csv';
CREATE PREDICATE rated (rating INT) MAX 999 AS rating;
CREATE PREDICATE recent (year INT) MAX 75 COST 20 AS year - 1950;
CREATE RANK INDEX by_rated ON films (rated(rating));
""" % folder)
        names = ["c%d" % number for number in range(1, cursors + 1)]
        file.writelines("DECLARE %s CURSOR FOR SELECT title FROM films ORDER BY 2 * rated(rating) + recent(year);\n" % name for name in names)
        for _ in range(fetches):
            file.writelines("FETCH %d FROM %s;\n" % (WANTED, name) for name in names)
    return name


def spent(words):
    """The seconds of a run, what it printed, and the most memory that it held in kB."""
    taken, printed, usage = waited(words)
    return taken, printed.decode(), usage.ru_maxrss


cases = [(cursors, fetches) for fetches in FETCHES for cursors in COUNTS]
scripts = {case: script_of(*case) for case in cases}
best, printed, memory = {}, {}, {}
for _ in range(runs):
    for case in cases:
        taken, printed[case], held = spent([program, "run", scripts[case], "1"])
        best[case], memory[case] = min(taken, best.get(case, taken)), max(held, memory.get(case, 0))
print("a table of %d rows; the best of %d runs" % (rows, runs))
for fetches in FETCHES:
    alone = printed[1, fetches].splitlines()
    turns = [alone[start:start + WANTED] for start in range(0, len(alone), WANTED)]
    if printed[64, fetches].splitlines() != [line for turn in turns for _ in range(64) for line in turn]:
        sys.exit("bench: 64 cursors print other rows than one alone")
    for cursors in COUNTS:
        case = cursors, fetches
        calls = calls_of(counter, ["run", scripts[case], "1"]) - calls_of(counter, ["run", scripts[0, fetches], "1"])
        print("%2d cursors, %2d times FETCH %d each: %6d calls, their samples included; %6.1f ms and %6d kB more than without"
              % (cursors, fetches, WANTED, calls, (best[case] - best[0, fetches]) * 1000, memory[case] - memory[0, fetches]))
PYTHON
