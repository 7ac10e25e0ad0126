#!/usr/bin/env bash
# Measures `ranksql run` on a query over the greatest table, with an index of its first predicate, for the first 1, 10, 100
# and 1,000 rows. Beside it, in the same run: `ranksql plain` on the same script, and sqlite3, which imports the file and
# orders by the expression. All three have to print the same rows. Each runs five times, in turn, and the shortest time
# counts. The time of the query is what it adds to the time of the same script without it, which reads the file and makes
# the index.
# The calls of the scorer are counted by the program count_calls, less those of the index. They have to be what the
# definition says: `plain` calls each predicate once for each row; `run` calls both on each row of its sample, and then the
# second one for each row of the index whose bound comes before the score of the last row that is printed, and for one more.
# At the end the second predicate has a MAX of ten times its scores, and an index too, whose first score bounds it. Beside the
# calls stands how many that plan would make if MAX bounded it.
# The programs are those that ./ranksql and `rt run` build, or those that the variables RANKSQL and COUNT_CALLS name.
# shellcheck source=bench/functions.sh
. "$(dirname "$0")/functions.sh"

ROWS=131072
RUNS=5

needs sqlite3 'nothing is measured without it (on Debian: apt-get install sqlite3)'
needs python3 'it takes the times'
find_program
find_counter

cd "$root" || exit
python3 - "$program" "$counter" "$work" "$ROWS" "$RUNS" <<'PYTHON'
import itertools
import sys

from measured import calls_of, draw, spent

program, counter, folder, rows, runs = *sys.argv[1:4], int(sys.argv[4]), int(sys.argv[5])
LIMITS = [1, 10, 100, 1000]
NO_QUERY = 0
# Of one table so many rows are sampled, and each of both terms is scored on them.
SAMPLED = 2 * 256
MOST_RATED, MOST_RECENT = 999, 75
# The same far above the scores, of which the greatest is that of 2024.
FAR_RECENT, TOP_RECENT = 750, 74

def script_of(limit, most):
    return "%s/%d_%d.sql" % (folder, limit, most)


# Films with a rating from 0 to 999 and a year from 1950 to 2024.
films = [(draw(1000), 1950 + draw(75)) for _ in range(rows)]
with open(folder + "/films.csv", "w") as file:
    file.write("title,rating,year\n")
    file.writelines("Film number %d,%d,%d\n" % (row, *film) for row, film in enumerate(films, 1))
for most, limit in itertools.product([MOST_RECENT, FAR_RECENT], [NO_QUERY, *LIMITS]):
    with open(script_of(limit, most), "w") as file:
        file.write("""CREATE TABLE films (title TEXT, rating INT, year INT) FROM '%s/films.csv';
CREATE PREDICATE rated (rating INT) MAX %d AS rating;
CREATE PREDICATE recent (year INT) MAX %d COST 20 AS year - 1950;
CREATE RANK INDEX by_rated ON films (rated(rating));
""" % (folder, MOST_RATED, most))
        if most == FAR_RECENT:
            file.write("CREATE RANK INDEX by_recent ON films (recent(year));\n")
        if limit != NO_QUERY:
            file.write("SELECT title FROM films ORDER BY 2 * rated(rating) + recent(year) LIMIT %d;\n" % limit)


def words_of(side, limit, most=MOST_RECENT):
    script = script_of(limit, most)
    if side == "run":
        return [program, "run", script, "1"]
    if side == "plain":
        return [program, "plain", script]
    query = "SELECT 2 * rating + year - 1950 AS score, title FROM films ORDER BY score DESC, rowid LIMIT %d;" % limit
    return ["sqlite3", "-batch", ":memory:",
            "-cmd", "CREATE TABLE films(title TEXT, rating INTEGER, year INTEGER);",
            "-cmd", ".import --csv --skip 1 %s/films.csv films" % folder,
            "-cmd", "CREATE INDEX by_rated ON films (rating DESC);",
            "-cmd", ".mode list", "-cmd", ".separator ,",
            query if limit != NO_QUERY else ""]


# The calls that the definition has for the first rows of `run`.
scores = sorted((-2 * rating - (year - 1950), row) for row, (rating, year) in enumerate(films, 1))


def calls_needed(limit, top):
    bounds = [(-2 * rating - top, row) for row, (rating, _) in enumerate(films, 1)]
    return SAMPLED + min(rows, 1 + sum(bound < scores[limit - 1] for bound in bounds))


sides = ["run", "plain", "sqlite3"]
best, printed = {}, {}
for _ in range(runs):
    for limit in [NO_QUERY, *LIMITS]:
        for side in sides:
            taken, printed[side, limit] = spent(words_of(side, limit))
            best[side, limit] = min(taken, best.get((side, limit), taken))
print("a table of %d rows; the best of %d runs" % (rows, runs))
for limit in LIMITS:
    wanted = "".join("%d,%s\n" % (rank, line) for rank, line in enumerate(printed["sqlite3", limit].splitlines(), 1))
    for side in ["run", "plain"]:
        if printed[side, limit] != wanted:
            sys.exit("bench: %s and sqlite3 print other rows at LIMIT %d" % (side, limit))
print("all print the same rows")


# The example of the repository: its script, and the part before its query, whose calls are those of the index.
with open("examples/films/best.sql") as file:
    text = file.read()
with open(folder + "/before.sql", "w") as file:
    file.write(text[:text.index("SELECT")])
before = calls_of(counter, ["plain", folder + "/before.sql"])
run, plain = (calls_of(counter, [*words]) - before for words in [("run", "examples/films/best.sql", "1"), ("plain", "examples/films/best.sql")])
print("examples/films: calls of run %d, of plain %d" % (run, plain))
for limit in LIMITS:
    run, plain = (calls_of(counter, words_of(word, limit)[1:]) - calls_of(counter, words_of(word, NO_QUERY)[1:]) for word in ["run", "plain"])
    if (run, plain) != (calls_needed(limit, MOST_RECENT), 2 * rows):
        sys.exit("bench: %d and %d calls at LIMIT %d, where the definitions have %d and %d" % (run, plain, limit, calls_needed(limit, MOST_RECENT), 2 * rows))
    query = {side: best[side, limit] - best[side, NO_QUERY] for side in sides}
    print("LIMIT %4d: calls of run %6d, of plain %6d; the query takes run %8.2f ms, plain %8.2f ms, sqlite3 %8.2f ms; the whole of run %.2f of that of plain, %.2f of that of sqlite3"
          % (limit, run, plain, *(query[side] * 1000 for side in sides), best["run", limit] / best["plain", limit], best["run", limit] / best["sqlite3", limit]))
print("recent has a MAX of %d and an index too" % FAR_RECENT)
for limit in LIMITS:
    words = words_of("run", limit, FAR_RECENT)
    if spent(words)[1] != printed["run", limit]:
        sys.exit("bench: other rows at LIMIT %d" % limit)
    run = calls_of(counter, words[1:]) - calls_of(counter, words_of("run", NO_QUERY, FAR_RECENT)[1:])
    if run != calls_needed(limit, TOP_RECENT):
        sys.exit("bench: %d calls at LIMIT %d, where the definitions have %d" % (run, limit, calls_needed(limit, TOP_RECENT)))
    print("LIMIT %4d: calls of run %6d; bounded by MAX %6d" % (limit, run, calls_needed(limit, FAR_RECENT)))
PYTHON
