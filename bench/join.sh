#!/usr/bin/env bash
# Measures rank joins of three tables of 150, 600 and 2,000 rows, for the first 1, 10 and 100 rows, by plans of hash joins and
# of nested joins; one join of two tables of 2,000 rows, for more and more rows; and these two by plans that score restaurants
# where they were joined, with predicates whose MAX is ten times as great as their scores. Beside them, in the same run, sqlite3
# joins and sorts all. The plans are given to the program cases_plans, which is told the tables and the query line by line. It
# and sqlite3 have to print the same rows. How often a plan calls the scorer and how many rows it draws has to be what the
# definitions say, which checks/model/queries.py reckons over finished lists. Of the last plans it also reckons what they would do
# if MAX bounded a term in the place of the first score of its index.
# Each query runs five times, in turn, more often where it takes less than 50 ms, and once where it takes more than a second;
# the shortest time counts. The time of a plan is what the rows that are asked for add to the time of the same line with none.
# Starting it and telling rows and calls are part of it, reading the tables isn't. That of sqlite3 is the time of the query
# alone: its tables are in memory, each with an index for its city.
# A hash join works for each row that is drawn and each pair that is found, a nested one for each pair that is tested. So
# these are told, and the time for each of them. README.md says what grows how.
# The program is the one that `rt run` builds, or the one that the variable PLAN_CASES names.
# shellcheck source=bench/functions.sh
. "$(dirname "$0")/functions.sh"

needs sqlite3 'nothing is measured without it (on Debian: apt-get install sqlite3)'
needs python3 'it takes the times, and reckons what the definitions say'
if [ -n "${PLAN_CASES:-}" ]; then
    program=$PLAN_CASES
else
    (cd "$root/crates/cases_plans" && rt run </dev/null) >"$work/built" 2>&1
    program=$root/crates/cases_plans/out/cases_plans
    [ -x "$program" ] || { cat "$work/built" >&2; exit 1; }
fi

cd "$root" || exit
python3 - "$program" "$work" <<'PYTHON'
import collections
import copy
import functools
import itertools
import re
import subprocess
import sys
import time

sys.dont_write_bytecode = True
sys.path[:0] = ["checks/model", "checks/cases"]
from executor import counts
from front import Front
from queries import HashJoin, IndexScan, NestedJoin, Rank, Scan

program, folder = sys.argv[1:]
NUMBER = 7
RUNS = 5
# Seconds: less time than LEAST can't be told from none, a query of less than QUICK runs more often, one of SLOW runs once.
LEAST, QUICK, SLOW = 0.0001, 0.05, 1
TABLES = ["hotel", "restaurant", "museum"]
# What a query of the first tables has of each.
ENTRIES = ["hotel h", "restaurant r", "museum m"]
CONDITIONS = ["h.city = r.city", "r.city = m.city"]
TERMS = ["cheap(h.price)", "3 * tasty(r.rating)", "2 * famous(m.fame)"]
SCORES = ["340 - h.price", "3 * r.rating", "2 * m.fame"]
NAMES = ["h.name", "r.name", "m.name"]
PLACES = ["h.rowid", "r.rowid", "m.rowid"]


def rows_of(size):
    """The rows of hotels, restaurants and museums, each of a name, a city and a number. There is a city for each ten rows."""
    cities = max(1, size // 10)
    numbers = range(1, size + 1)
    hotels = [("h%d" % row, (row + NUMBER) % cities, 40 + (37 * row + 11 * NUMBER) % 300) for row in numbers]
    restaurants = [("r%d" % row, (3 * row + NUMBER) % cities, (13 * row + 5 * NUMBER) % 101) for row in numbers]
    museums = [("m%d" % row, (7 * row + NUMBER) % cities, (29 * row + 3 * NUMBER) % 201) for row in numbers]
    return [hotels, restaurants, museums]


class Visit:
    """The query of these tables. What its plans ask and count is that of checks/model/queries.py; its combinations are found city by
    city, since the whole product would be too large."""

    def __init__(self, rows, times):
        self.tables = rows
        select = "SELECT %s %s ORDER BY %s" % (", ".join(NAMES[: len(rows)]), self.source(), " + ".join(TERMS[: len(rows)]))
        self.query = Front(script_of(rows, times)).query(select)
        self.query.combinations = self.combinations
        self.by_city = [collections.defaultdict(list) for _ in rows]
        for table, found in zip(rows, self.by_city):
            for number, (_, city, _) in enumerate(table, 1):
                found[city].append(number)

    def by_greatest_scores(self):
        """The same, where each term is bounded by MAX."""
        other = copy.copy(self)
        other.query = copy.copy(self.query)
        other.query.tops = [other.query.most(term) for term in other.query.every]
        return other

    def source(self):
        """What it reads and which rows match."""
        count = len(self.tables)
        return "FROM %s WHERE %s" % (", ".join(ENTRIES[:count]), " AND ".join(CONDITIONS[: count - 1]))

    def combinations(self, entries):
        """The rows of some entries that are in one city."""
        for city in set().union(*self.by_city):
            yield from itertools.product(*(found[city] if entry in entries else [0] for entry, found in enumerate(self.by_city)))

    def city(self, row):
        return next(table[number - 1][1] for table, number in zip(self.tables, row) if number)

    def counts(self, word, asks):
        return counts(self.plan(word), asks)

    @functools.cache
    def plan(self, word):
        """The plan of a word of cases_plans."""
        return planned(self.query, word)[0]

    def pairs(self, plan, asks):
        """How many pairs of drawn rows the joins of a plan have, and how many of them match."""
        tested = found = 0
        for child, asked in zip(plan.children, plan.asked_below(asks)):
            pairs = self.pairs(child, asked)
            tested, found = tested + pairs[0], found + pairs[1]
        if len(plan.children) == 2:
            drawn = [child.rows[:asked] for child, asked in zip(plan.children, plan.asked_below(asks))]
            cities = [collections.Counter(map(self.city, rows)) for rows in drawn]
            tested += len(drawn[0]) * len(drawn[1])
            found += sum(count * cities[1][city] for city, count in cities[0].items())
        return tested, found


def planned(query, word):
    """The plan that a word begins with, and the rest of the word."""
    if word[0] == "S":
        return Scan(query, int(word[1]) - 1), word[2:]
    if word[0] == "I":
        entry, term = int(word[1]) - 1, int(word[3]) - 1
        return IndexScan(query, entry, term), word[6:]
    if word[0] == "R":
        below, rest = planned(query, word[3:])
        return Rank(query, int(word[1]) - 1, below), rest[1:]
    left, rest = planned(query, word[2:])
    right, rest = planned(query, rest[1:])
    return (HashJoin if word[0] == "H" else NestedJoin)(query, left, right), rest[1:]


def rank(term, below):
    return "R%d(%s)" % (term, below)


def join(kind, left, right):
    return "%s(%s,%s)" % (kind, left, right)


def scan(entry):
    return "S%d" % entry


def index_scan(entry):
    return "I%d:%d:%d" % (entry, entry, entry - 1)


# Hotels and restaurants come from their indexes, and museums are scored as they are drawn, or where they were joined.
def below(kind):
    return join(kind, join(kind, index_scan(1), index_scan(2)), rank(3, scan(3)))


def above(kind):
    return rank(3, join(kind, join(kind, index_scan(1), index_scan(2)), scan(3)))


PLANS = {
    "hash, museums scored below": below("H"),
    "nested, museums scored below": below("N"),
    "hash, museums scored above": above("H"),
    "nested, museums scored above": above("N"),
}
# This one scans all tables, and scores nothing below the joins. It takes too long for more rows.
WHOLE = {"nested, all scored above": rank(3, rank(2, rank(1, join("N", join("N", scan(1), scan(2)), scan(3)))))}
WHOLE_ROWS = 600
PAIRS = {kind: join(kind[0].upper(), index_scan(1), index_scan(2)) for kind in ("hash", "nested")}
SCORED_ABOVE = {"%s, scored above" % kind: rank(2, join(kind[0].upper(), index_scan(1), scan(2))) for kind in ("hash", "nested")}


class Program:
    """A program that is told lines and answers them."""

    def __init__(self, words):
        self.process = subprocess.Popen(words, stdin=subprocess.PIPE, stdout=subprocess.PIPE, text=True)

    def tell(self, line, last):
        """The seconds until the line that begins with the last words, and the lines that were answered, that one included."""
        start = time.perf_counter()
        self.process.stdin.write(line + "\n")
        self.process.stdin.flush()
        lines = []
        while not lines or not lines[-1].startswith(last):
            lines.append(self.process.stdout.readline())
            if not lines[-1]:
                sys.exit("bench: %s ended at the line %s" % (self.process.args[0], line[:300]))
        return time.perf_counter() - start, lines

    def peak(self):
        """The most memory that it held so far, in MB, where the system tells it."""
        try:
            with open("/proc/%d/status" % self.process.pid) as file:
                return next(int(line.split()[1]) for line in file if line.startswith("VmHWM")) * 1024 / 1000000
        except (OSError, StopIteration):
            return float("nan")

    def end(self):
        self.process.stdin.close()
        self.process.stdout.close()
        self.process.wait()


def script_of(rows, times):
    heads = ["name TEXT, city INT, price INT", "name TEXT, city INT, rating INT", "name TEXT, city INT, fame INT"]
    statements = []
    for name, head, of_table in zip(TABLES, heads, rows):
        header = head.replace(" TEXT", "").replace(" INT", "").replace(" ", "")
        text = "".join("\\n%s,%d,%d" % row for row in of_table)
        statements.append("CREATE TABLE %s (%s) FROM '%s%s'" % (name, head, header, text))
    statements.append("CREATE PREDICATE cheap (price INT) MAX %d COST 2 AS 340 - price" % (300 * times))
    statements.append("CREATE PREDICATE tasty (rating INT) MAX %d AS rating" % (100 * times))
    statements.append("CREATE PREDICATE famous (fame INT) MAX %d COST 50 AS fame" % (200 * times))
    statements.append("CREATE RANK INDEX hotel_cheap ON hotel (cheap(price))")
    statements.append("CREATE RANK INDEX restaurant_tasty ON restaurant (tasty(rating))")
    return "; ".join(statements) + ";"


def start_program(rows, times):
    ours = Program([program])
    ours.tell("front " + script_of(rows, times), "front")
    return ours


def ask(ours, query, plan, count, limit):
    tables = len(query.tables)
    select = "SELECT %s %s ORDER BY %s LIMIT %d" % (", ".join(NAMES[:tables]), query.source(), " + ".join(TERMS[:tables]), limit)
    return ours.tell("ask %s %d %s" % (plan, count, select), "  counts ")


def start_sqlite(rows):
    theirs = Program(["sqlite3", "-batch", ":memory:"])
    for name, number, of_table in zip(TABLES, ["price", "rating", "fame"], rows):
        with open("%s/%s.csv" % (folder, name), "w") as file:
            file.writelines("%s,%d,%d\n" % row for row in of_table)
        theirs.tell("CREATE TABLE %s(name TEXT, city INTEGER, %s INTEGER);\n.import --csv %s/%s.csv %s\nCREATE INDEX %s_city ON %s(city);\n.print end"
                    % (name, number, folder, name, name, name, name), "end")
    theirs.tell(".mode list\n.separator ,\nANALYZE;\n.print end", "end")
    return theirs


def select(theirs, query, limit):
    tables = len(query.tables)
    text = "SELECT %s AS score, %s %s ORDER BY score DESC, %s LIMIT %d;" % (
        " + ".join(SCORES[:tables]), ", ".join(NAMES[:tables]), query.source(), ", ".join(PLACES[:tables]), limit)
    return theirs.tell(text + "\n.print end", "end")


def told_rows(lines):
    """The rows that cases_plans told, as sqlite3 prints them."""
    rows = []
    for line in lines[1:-1]:
        score = re.match(r"  1 \d+ \[[^]]*\] (\d+) ", line)
        rows.append(",".join([score.group(1), *re.findall(r'chars: "([^"]*)"', line)]) + "\n" if score else line)
    return rows


def run_once(query, name, plan, ours, limit, rows, counts):
    """The seconds of a plan, without rows and with them. The rows, the calls and the draws have to be those that are wanted."""
    idle = ask(ours, query, plan, 0, limit)[0]
    taken, lines = ask(ours, query, plan, limit, limit)
    if told_rows(lines) != rows:
        sys.exit("bench: %s and sqlite3 print other rows at LIMIT %d" % (name, limit))
    if lines[-1] != "  counts %s; limit Some(%d)\n" % (", ".join(counts), limit):
        sys.exit("bench: %s at LIMIT %d tells%s, where the definitions have %s" % (name, limit, lines[-1], counts))
    return idle, taken


def calls_and_draws(counts):
    return [sum(int(node.split()[place]) for node in counts) for place in (2, 3)]


def report(query, name, plan, limit, counts, taken, peer, peak):
    calls, drawn = calls_and_draws(counts)
    tested, found = query.pairs(query.plan(plan), limit)
    work, pairs = (drawn + found, "%7d found " % found) if "H" in plan else (tested, "%7d tested" % tested)
    time_of_it = "%8.2f ms, %7.3f of sqlite3, %6.3f us for each" % (taken * 1000, taken / peer, taken * 1e6 / work)
    if taken < LEAST:
        time_of_it = "less than %.1f ms" % (LEAST * 1000)
    print("    %-28s %6d calls, %4d rows drawn, pairs %s: %s; at most %.1f MB" % (name, calls, drawn, pairs, time_of_it, peak), flush=True)


def measure(rows, plans, limits, times=1):
    query = Visit(rows, times)
    print("%d tables of %d rows, and %d combinations" % (len(rows), len(rows[0]), len(query.plan(next(iter(plans.values()))).rows)))
    theirs = start_sqlite(rows)
    ours = {name: start_program(rows, times) for name in plans}
    for limit in limits:
        counts = {name: query.counts(plan, limit) for name, plan in plans.items()}
        taken = collections.defaultdict(list)
        for _ in range(RUNS):
            time_of_theirs, lines = select(theirs, query, limit)
            taken["sqlite3"].append(time_of_theirs)
            for name, plan in plans.items():
                last = taken[name][-1][1] if taken[name] else QUICK
                for _ in range(5 if last < QUICK else 1 if last < SLOW else 0):
                    taken[name].append(run_once(query, name, plan, ours[name], limit, lines[:-1], counts[name]))
        peer = min(taken["sqlite3"])
        print("  LIMIT %d: sqlite3 takes %.2f ms and holds at most %.1f MB" % (limit, peer * 1000, theirs.peak()))
        for name, plan in plans.items():
            idle, whole = map(min, zip(*taken[name]))
            report(query, name, plan, limit, counts[name], whole - idle, peer, ours[name].peak())
            if times > 1:
                print("      bounded by MAX: %6d calls, %4d rows drawn" % tuple(calls_and_draws(query.by_greatest_scores().counts(plan, limit))))
    for one in [*ours.values(), theirs]:
        one.end()


for size in [150, 600, 2000]:
    measure(rows_of(size), PLANS | WHOLE if size <= WHOLE_ROWS else PLANS, [1, 10, 100])
measure(rows_of(2000)[:2], PAIRS, [10, 100, 1000, 10000])
print("MAX is ten times as great as the scores, and restaurants are scored where they were joined")
measure(rows_of(2000)[:2], SCORED_ABOVE, [1, 10, 100], times=10)
PYTHON
