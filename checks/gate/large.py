#!/usr/bin/env python3
"""Runs the built program on tables that are larger than those of the other checks, by ways that small ones don't reach: pieces of
combinations, the rows that are kept up to LIMIT and cut, lists of the rows that are equal in several columns, and more new rows of
a view than are looked for one by one.

Each answer is worked out here: all combinations in the order of their rows, filtered, scored, stably sorted and cut. The words
`plain` and `run` have to print it, and `view` what it prints for rows that join. The program is crates/ranksql/out/ranksql, or the one
that the variable RANKSQL names. It prints a line `ok` for each case, or what differs, and ends with 1 where one fails.
"""

import itertools
import os
import random
import subprocess
import sys
import tempfile

ROOT = os.path.dirname(os.path.dirname(os.path.dirname(os.path.abspath(__file__))))
PROGRAM = os.environ.get("RANKSQL") or f"{ROOT}/crates/ranksql/out/ranksql"
SECONDS = 120
TEXTS = ["Aachen", "Bonn", "Celle", "Dresden", "Erfurt", "Fulda", "Gera"]

FRONT = """\
CREATE TABLE t (name TEXT, size INT, kind INT, v INT) FROM 't.csv';
CREATE TABLE u (name TEXT, size INT, kind INT, v INT) FROM 'u.csv';
CREATE PREDICATE p (v INT) MAX 1000 AS v;
CREATE PREDICATE near (a INT, b INT) MAX 1000 COST 20 AS 1000 - ABS(a - b);
"""

failures = 0


def tell(name, differs):
    """Prints whether a case is as it must be: `differs` is empty then."""
    global failures
    if differs:
        failures += 1
        print(f"FAILED  {name}: {differs}", flush=True)
    else:
        print(f"ok      {name}", flush=True)


def drawn_rows(drawn, count):
    """Rows of few different texts and numbers, so that many are equal in some columns, and some in all."""
    return [(drawn.choice(TEXTS), drawn.randrange(9), drawn.randrange(4), drawn.randrange(1001)) for _ in range(count)]


def write_table(name, rows):
    with open(name, "w", encoding="utf-8", newline="") as file:
        file.write("name,size,kind,v\n" + "".join(f"{name},{size},{kind},{v}\n" for name, size, kind, v in rows))


def answer(tables, holds, scores, shows, limit):
    """The lines of a query: its combinations in the order of their rows, by their scores, the greatest first."""
    scored = [(-scores(*rows), rows) for rows in itertools.product(*tables) if holds(*rows)]
    scored.sort(key=lambda entry: entry[0])
    return "".join(
        f"{rank},{-score},{','.join(str(cell) for cell in shows(*rows))}\n" for rank, (score, rows) in enumerate(scored[:limit], 1)
    )


def printed(words, script):
    """What a run prints, or how it ended where that is not with 0."""
    with open("s.sql", "w", encoding="utf-8") as file:
        file.write(script)
    ran = subprocess.run([PROGRAM, *words], capture_output=True, text=True, timeout=SECONDS, check=False)
    return ran.stdout if ran.returncode == 0 else f"status {ran.returncode}: {ran.stderr}"


def differs(said, want):
    if said == want:
        return ""
    lines = itertools.zip_longest(said.splitlines(), want.splitlines())
    return next((f"line {place} is {a!r} in place of {b!r}" for place, (a, b) in enumerate(lines, 1) if a != b), "it differs in its end")


def near(a, b):
    return 1000 - abs(a - b)


# Each query with what it means: its condition, its score and its columns, over rows (name, size, kind, v).
QUERIES = {
    "all pairs": (
        "SELECT t.v, u.v FROM t, u ORDER BY near(t.v, u.v) + p(u.v)",
        "tu",
        lambda a, b: True,
        lambda a, b: near(a[3], b[3]) + b[3],
        lambda a, b: (a[3], b[3]),
    ),
    "pairs by <": (
        "SELECT t.v, u.name FROM t, u WHERE t.v < u.v ORDER BY near(t.v, u.v)",
        "tu",
        lambda a, b: a[3] < b[3],
        lambda a, b: near(a[3], b[3]),
        lambda a, b: (a[3], b[0]),
    ),
    "two equal columns, a number and a text": (
        "SELECT t.name, t.v, u.v FROM t, u WHERE t.size = u.size AND t.name = u.name ORDER BY near(t.v, u.v) + p(t.v)",
        "tu",
        lambda a, b: a[1] == b[1] and a[0] == b[0],
        lambda a, b: near(a[3], b[3]) + a[3],
        lambda a, b: (a[0], a[3], b[3]),
    ),
    "three equal columns of a table with itself": (
        "SELECT a.name, a.v, b.v FROM t a, t b WHERE a.kind = b.kind AND a.name = b.name AND a.size = b.size AND a.v < b.v"
        " ORDER BY p(a.v) + 2 * near(a.v, b.v)",
        "tt",
        lambda a, b: a[2] == b[2] and a[0] == b[0] and a[1] == b[1] and a[3] < b[3],
        lambda a, b: a[3] + 2 * near(a[3], b[3]),
        lambda a, b: (a[0], a[3], b[3]),
    ),
    "two columns equal to one": (
        "SELECT t.size, u.v FROM t, u WHERE t.size = u.size AND t.kind = u.size ORDER BY p(u.v) + p(t.v)",
        "tu",
        lambda a, b: a[1] == b[1] and a[2] == b[1],
        lambda a, b: b[3] + a[3],
        lambda a, b: (a[1], b[3]),
    ),
}


def plain_case(drawn, name, sizes, limit):
    """A query under `plain` and under `run`."""
    query, over, holds, scores, shows = QUERIES[name]
    tables = {"t": drawn_rows(drawn, sizes[0]), "u": drawn_rows(drawn, sizes[1])}
    for table, rows in tables.items():
        write_table(f"{table}.csv", rows)
    want = answer([tables[table] for table in over], holds, scores, shows, limit)
    script = f"{FRONT}{query} LIMIT {limit};\n"
    for words in (["plain", "s.sql"], ["run", "s.sql", "1"]):
        tell(f"{name}, {sizes[0]} and {sizes[1]} rows, LIMIT {limit}, {words[0]}", differs(printed(words, script), want))


def value_of(row):
    return f"('{row[0]}', {row[1]}, {row[2]}, {row[3]})"


def view_case(drawn, name, sizes, joins, limit):
    """A view of a query that grows by so many rows at once, first of the one table and then of the other."""
    query, over, holds, scores, shows = QUERIES[name]
    tables = {"t": drawn_rows(drawn, sizes[0]), "u": drawn_rows(drawn, sizes[1])}
    for table, rows in tables.items():
        write_table(f"{table}.csv", rows)
    script, want = f"{FRONT}DECLARE c CURSOR FOR {query} LIMIT {limit};\n", ""
    for table in dict.fromkeys(over):
        more = drawn_rows(drawn, joins)
        tables[table] += more
        script += f"INSERT INTO {table} VALUES {', '.join(map(value_of, more))};\nFETCH {limit} FROM c;\n"
        want += answer([tables[table] for table in over], holds, scores, shows, limit)
    tell(f"{name}, a view that grows by {joins} rows, LIMIT {limit}", differs(printed(["view", "s.sql"], script), want))


def main():
    drawn = random.Random(1)
    with tempfile.TemporaryDirectory() as folder:
        os.chdir(folder)
        for name in QUERIES:
            for sizes, limit in [((300, 400), 5), ((70, 1000), 700), ((65, 66), 100_000)]:
                plain_case(drawn, name, sizes, limit)
            for joins in (1, 64, 65, 200):
                view_case(drawn, name, (150, 130), joins, 20)
            view_case(drawn, name, (120, 90), 3, 100_000)
        # More than two pieces of one row of the first entry each, and LIMIT 0.
        plain_case(drawn, "all pairs", (3, 70_000), 4)
        plain_case(drawn, "all pairs", (300, 300), 0)
    sys.exit(1 if failures else 0)


if __name__ == "__main__":
    main()
