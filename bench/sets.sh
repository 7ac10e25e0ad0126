#!/usr/bin/env bash
# Measures the four set operators under `ranksql run` over two tables of the greatest size, each with an index of the predicate, for
# the ten best rows. Beside them, in the same run, sqlite3 imports the same files and orders the same rows. Both have to print the
# same rows. Each runs five times, in turn, and the shortest time counts; the time of a query is what it adds to the time of the
# same script without it, which reads the files and makes the indexes.
# The calls of the scorer are counted by the program count_calls, less those of the indexes: they are those of the samples. How far
# each side was drawn is told by EXPLAIN ANALYZE. Both have to be what the definitions say, reckoned here over the whole lists.
# The programs are those that ./ranksql and `rt run` build, or those that the variables RANKSQL and COUNT_CALLS name.
# shellcheck source=bench/functions.sh
. "$(dirname "$0")/functions.sh"

ROWS=131072
RUNS=5

needs sqlite3 'nothing is measured without it (on Debian: apt-get install sqlite3)'
needs python3 'it takes the times'
find_program
find_counter

python3 - "$program" "$counter" "$work" "$ROWS" "$RUNS" <<'PYTHON'
import re
import sys

from measured import calls_of, draw, spent

program, counter, folder, rows, runs = *sys.argv[1:4], int(sys.argv[4]), int(sys.argv[5])
LIMIT = 10
# Of each of two tables so many rows are sampled, and the term is scored on them.
SAMPLED = 2 * 256
MOST = 999999
OPERATORS = {"UNION": "Union", "UNION ALL": "UnionAll", "INTERSECT": "Intersect", "EXCEPT": "Except"}

# Two guides, each with a number and a year of every film in it.
# Every third film of the second guide is one of the first.
def films(count):
    return list(dict.fromkeys((draw(MOST + 1), 1950 + draw(75)) for _ in range(2 * count)))[:count]


first = films(rows)
second = [first[draw(rows)] if place % 3 == 0 else film for place, film in enumerate(films(rows))]
for name, table in (("first", first), ("second", second)):
    with open("%s/%s.csv" % (folder, name), "w") as file:
        file.write("rating,year\n")
        file.writelines("%d,%d\n" % film for film in table)
FRONT = "".join("CREATE TABLE %s (rating INT, year INT) FROM '%s/%s.csv';\n" % (name, folder, name) for name in ("first", "second"))
FRONT += "CREATE PREDICATE rated (v INT) MAX %d COST 20 AS v;\n" % MOST
FRONT += "".join("CREATE RANK INDEX of_%s ON %s (rated(rating));\n" % (name, name) for name in ("first", "second"))


def query_of(operator):
    return "SELECT rating, year FROM first %s SELECT rating, year FROM second ORDER BY rated(rating) LIMIT %d;\n" % (operator, LIMIT)


for operator in [None, *OPERATORS]:
    for explain in ["", "EXPLAIN ANALYZE "]:
        with open("%s/%s%s.sql" % (folder, "explain" if explain else "", OPERATORS.get(operator, "none")), "w") as file:
            file.write(FRONT + (explain + query_of(operator) if operator else ""))


def words_of(side, operator):
    if side == "run":
        return [program, "run", "%s/%s.sql" % (folder, OPERATORS.get(operator, "none")), "1"]
    words = ["sqlite3", "-batch", ":memory:"]
    for name in ("first", "second"):
        words += ["-cmd", "CREATE TABLE %s(rating INTEGER, year INTEGER);" % name]
        words += ["-cmd", ".import --csv --skip 1 %s/%s.csv %s" % (folder, name, name)]
        words += ["-cmd", "CREATE INDEX of_%s ON %s (rating DESC, year);" % (name, name)]
    both = "SELECT rating, year FROM first %s SELECT rating, year FROM second" % operator
    return words + ["-cmd", ".mode list", "-cmd", ".separator ,",
                    "SELECT rating, rating, year FROM (%s) ORDER BY rating DESC LIMIT %d;" % (both, LIMIT) if operator else ""]


# The time of a run in seconds, and what it printed.
# The lists of both sides: the key of a row is its bound, its block and its number.
lists = [sorted((-film[0], block, row, film) for row, film in enumerate(table, 1)) for block, table in ((1, first), (2, second))]


def answers(operator):
    """The rows of a query in the order of their keys."""
    seen, made, there = set(), [], set(second)
    for key in sorted(lists[0] + lists[1]) if operator.startswith("UNION") else lists[0]:
        film = key[3]
        if operator != "UNION ALL" and film in seen or operator == "INTERSECT" and film not in there or operator == "EXCEPT" and film in there:
            continue
        seen.add(film)
        made.append(key)
    return made


def draws_needed(operator, last):
    """How often each side is asked once the row with this key is given."""
    if operator.startswith("UNION"):
        return [1 + sum(key < last for key in side) for side in lists]
    lefts = 1 + sum(key < last for key in lists[0])
    return [lefts, 1 + sum(key[0] <= lists[0][lefts - 1][0] for key in lists[1])]


sides = ["run", "sqlite3"]
best, printed = {}, {}
for _ in range(runs):
    for operator in [None, *OPERATORS]:
        for side in sides:
            taken, printed[side, operator] = spent(words_of(side, operator))
            best[side, operator] = min(taken, best.get((side, operator), taken))
print("two tables of %d rows, the %d best; the best of %d runs" % (rows, LIMIT, runs))
for operator, name in OPERATORS.items():
    wanted = "".join("%d,%s\n" % (rank, line) for rank, line in enumerate(printed["sqlite3", operator].splitlines(), 1))
    if printed["run", operator] != wanted:
        sys.exit("bench: run and sqlite3 print other rows for %s" % operator)
    told = spent([program, "run", "%s/explain%s.sql" % (folder, name), "1"])[1]
    drawn = [int(count) for count in re.findall(r"RankScan .* drawn=(\d+)", told)]
    needed = draws_needed(operator, answers(operator)[LIMIT - 1])
    calls = calls_of(counter, words_of("run", operator)[1:]) - calls_of(counter, words_of("run", None)[1:])
    if drawn != needed or calls != SAMPLED:
        sys.exit("bench: %s drew %s with %d calls, where the definitions have %s and %d:\n%s" % (operator, drawn, calls, needed, SAMPLED, told))
    query = {side: best[side, operator] - best[side, None] for side in sides}
    print("%-9s: %d calls, all of the samples; drawn %5d and %5d; the query takes run %7.2f ms, sqlite3 %7.2f ms; the whole of run %.2f of that of sqlite3"
          % (operator, calls, *drawn, *(query[side] * 1000 for side in sides), best["run", operator] / best["sqlite3", operator]))
PYTHON
