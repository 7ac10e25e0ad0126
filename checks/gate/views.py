#!/usr/bin/env python3
"""Runs the built program on scripts of the word `view` that are drawn by numbers: views with conditions, with joins and of a table
with itself, among which rows join, views are closed and others are made. What each prints has to be what runs.py works out from the
definitions, and what the word `plain` prints where each FETCH is the query asked anew. Calls are counted by the program count_calls,
where it is built; it is crates/count_calls/out/count_calls, or the one that the variable COUNT_CALLS names. It has to count as many
as runs.py makes.

    python3 checks/gate/views.py 300

It prints a line for each script that fails, and ends with 1 where one does. Without a number there are 100 scripts.
"""

import os
import random
import subprocess
import sys
import tempfile

sys.dont_write_bytecode = True
sys.path.insert(0, os.path.join(os.path.dirname(os.path.abspath(__file__)), "..", "model"))
import runs

ROOT = os.path.dirname(os.path.dirname(os.path.dirname(os.path.abspath(__file__))))
PROGRAM = os.environ.get("RANKSQL") or f"{ROOT}/crates/ranksql/out/ranksql"
COUNTER = os.environ.get("COUNT_CALLS") or f"{ROOT}/crates/count_calls/out/count_calls"

FRONT = """CREATE TABLE h (name TEXT, price INT, city INT) FROM 'h.csv';
CREATE TABLE t (x INT, y INT) FROM 't.csv';
CREATE PREDICATE p (v INT) MAX 10 AS v;
CREATE PREDICATE c (v INT) MAX 100 COST 3 AS 100 - v;
CREATE PREDICATE near (a INT, b INT) MAX 100 COST 20 AS 100 - ABS(a - b);
CREATE RANK INDEX px ON t (p(x));
"""

QUERIES = [
    "SELECT x, y FROM t ORDER BY p(x) + p(y)",
    "SELECT x FROM t WHERE x < 6 ORDER BY p(y)",
    "SELECT y FROM t WHERE x <> y AND y > 2 ORDER BY 2 * near(x, y) + p(x)",
    "SELECT name FROM h ORDER BY c(price)",
    "SELECT h.name, t.x FROM h, t WHERE h.city = t.y ORDER BY near(h.price, t.x) + p(t.x)",
    "SELECT t.y, h.name FROM t, h WHERE t.x = h.city AND h.price > 20 ORDER BY c(h.price) + p(t.y)",
    "SELECT a.x, b.y FROM t a, t b WHERE a.x < b.y ORDER BY p(a.x) + 2 * p(b.y)",
    "SELECT a.name, b.name FROM h a, h b WHERE a.city = b.city ORDER BY near(a.price, b.price)",
    "SELECT a.x, b.x, g.name FROM t a, h g, t b WHERE a.y = b.y AND a.x = g.city ORDER BY near(a.x, b.x) + c(g.price)",
]


def drawn_row(drawn, table):
    if table == "t":
        return f"({drawn.randrange(11)}, {drawn.randrange(11)})"
    return f"('{drawn.choice('abcde')}{drawn.randrange(10)}', {drawn.randrange(101)}, {drawn.randrange(4)})"


def drawn_file(drawn, table, header):
    rows = [drawn_row(drawn, table)[1:-1].replace("'", "").replace(", ", ",") for _ in range(drawn.randrange(5))]
    return "\n".join([header, *rows]) + "\n"


def drawn_scripts(number):
    """The files of a script, the script, and another one that asks anew."""
    drawn = random.Random(number)
    files = {"h.csv": drawn_file(drawn, "h", "name,price,city"), "t.csv": drawn_file(drawn, "t", "x,y")}
    views, script, anew = {}, [FRONT], [FRONT]
    for step in range(drawn.randrange(3, 14)):
        what = drawn.choice(["declare", "insert", "insert", "fetch", "fetch", "close"]) if views else "declare"
        if what == "declare":
            name, query, most = f"k{step}", drawn.choice(QUERIES), drawn.choice([None, 0, 1, 2, 3, 7])
            views[name] = query, 10 if most is None else most
            script.append(f"DECLARE {name} CURSOR FOR {query}{'' if most is None else f' LIMIT {most}'};")
        elif what == "insert":
            table = drawn.choice("ht")
            joins = f"INSERT INTO {table} VALUES {', '.join(drawn_row(drawn, table) for _ in range(drawn.randrange(1, 4)))};"
            script.append(joins)
            anew.append(joins)
        elif what == "fetch":
            name, count = drawn.choice(list(views)), drawn.choice([0, 1, 2, 5, 20])
            query, most = views[name]
            script.append(f"FETCH {count} FROM {name};")
            anew.append(f"{query} LIMIT {min(count, most)};")
        else:
            name = drawn.choice(list(views))
            del views[name]
            script.append(f"CLOSE {name};")
    return files, "\n".join(script), "\n".join(anew)


def printed_by(words, folder):
    told = subprocess.run(words, cwd=folder, capture_output=True, text=True, timeout=60, check=False)
    return told.returncode, told.stdout, told.stderr


def main():
    count = int(sys.argv[1]) if len(sys.argv) > 1 else 100
    counts_calls = os.access(COUNTER, os.X_OK)
    failed = 0
    with tempfile.TemporaryDirectory() as folder:
        for number in range(count):
            files, script, anew = drawn_scripts(number)
            for name, text in {**files, "s.sql": script, "anew.sql": anew}.items():
                with open(f"{folder}/{name}", "w", encoding="utf-8") as file:
                    file.write(text)
            run = runs.Views({**files, "s.sql": script}, {}, {})
            run.script("s.sql")
            wanted = 0, run.put, ""
            got, by_plain = printed_by([PROGRAM, "view", "s.sql"], folder), printed_by([PROGRAM, "plain", "anew.sql"], folder)
            if got != wanted or by_plain != wanted:
                failed += 1
                print(f"FAILED  script {number}: wanted {wanted}, view {got}, plain asked anew {by_plain}\n{script}")
            if counts_calls:
                calls = printed_by([COUNTER, "view", "s.sql"], folder)[2]
                if str(len(run.made)) not in calls.split():
                    failed += 1
                    print(f"FAILED  script {number}: wanted {len(run.made)} calls, {calls}")
    print(f"{count} scripts, {failed} failed")
    return 1 if failed else 0


if __name__ == "__main__":
    sys.exit(main())
