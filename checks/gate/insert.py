#!/usr/bin/env python3
"""Runs the built program on scripts with INSERT, each plainly and by plans: rows of each kind and of none, rows up to the limits of
a statement and of a table and one more, indexes whose calls fail one after another, and rows that join while 64 cursors are open.
Each script has to end and print the same under both words. The program is
crates/ranksql/out/ranksql, or the one that the variable RANKSQL names.

What is wanted was worked out by hand, or by sorting rows here. Calls are counted by the program count_calls, where it is built; it is
crates/count_calls/out/count_calls, or the one that the variable COUNT_CALLS names. It prints a line `ok` for each case, or what differs, and ends
with 1 where one fails.
"""

import os
import random
import subprocess
import sys
import tempfile

ROOT = os.path.dirname(os.path.dirname(os.path.dirname(os.path.abspath(__file__))))
PROGRAM = os.environ.get("RANKSQL") or f"{ROOT}/crates/ranksql/out/ranksql"
COUNTER = os.environ.get("COUNT_CALLS") or f"{ROOT}/crates/count_calls/out/count_calls"
SECONDS = 120
SEEDS = ["1", "2", "18446744073709551615"]
MOST_ROWS = 131_072
MOST_NUMBER = 4 * 10**18

# Four pairs: their sums p(x) + q(y) are 13, 17, 6 and 12.
FRONT = """\
CREATE TABLE t (x INT, y INT) FROM 't.csv';
CREATE PREDICATE p (v INT) MAX 10 AS v;
CREATE PREDICATE q (v INT) MAX 10 COST 100 AS v;
CREATE RANK INDEX px ON t (p(x));
"""
BEST = "SELECT x, y FROM t ORDER BY p(x) + q(y)"
TEXTS = """\
CREATE TABLE n (name TEXT, v INT) FROM 'n.csv';
CREATE PREDICATE p (v INT) MAX 10 AS MAX(0, MIN(v, 10));
CREATE PREDICATE is_b (s TEXT) MAX 1 AS CASE WHEN s = 'b' THEN 1 ELSE 0 END;
"""
NAMES = "SELECT name, v FROM n ORDER BY p(v)"

failures = 0


def tell(name, differs):
    """Prints whether a case is as it must be: `differs` is empty then."""
    global failures
    if differs:
        failures += 1
        print(f"FAILED  {name}: {differs}", flush=True)
    else:
        print(f"ok      {name}", flush=True)


def write(name, content):
    with open(name, "w", encoding="utf-8", newline="") as file:
        file.write(content)


def run(words, program=PROGRAM):
    """The status of a run, what it put, and its line on standard error."""
    try:
        done = subprocess.run([program, *words], stdin=subprocess.DEVNULL, capture_output=True, timeout=SECONDS, check=False)
    except subprocess.TimeoutExpired:
        return "no end", "", ""
    return done.returncode, done.stdout.decode(), done.stderr.decode()


def shortened(told):
    return tuple(it[:200] + "..." if isinstance(it, str) and len(it) > 200 else it for it in told)


def counts(name, script, calls):
    """A script of which every run makes so many calls."""
    if os.access(COUNTER, os.X_OK):
        write("s.sql", script)
        told = [run(words, COUNTER) for words in (["plain", "s.sql"], ["run", "s.sql", "1"])]
        tell(name, "" if {(status, line) for status, _, line in told} == {(0, f"calls {calls}\n")} else f"got {told}")


def difference(script, wanted, words=None):
    """What differs from what is wanted in a run of a script by each word, or nothing."""
    write("s.sql", script)
    for words in words or [["plain", "s.sql"]] + [["run", "s.sql", seed] for seed in SEEDS]:
        got = run(words)
        if got != wanted:
            return f"{' '.join(words)}: got {shortened(got)}, wanted {shortened(wanted)}"
    return ""


def prints(name, script, *lines):
    tell(name, difference(script, (0, "".join(line + "\n" for line in lines), "")))


def ends(name, script, status, line, *lines):
    tell(name, difference(script, (status, "".join(row + "\n" for row in lines), line + "\n")))


def refused(name, front, back, rule):
    """A script that is refused at the place between its two parts."""
    ends(name, front + back, 5, f"script: {rule} at {len(front.encode())}")


# ---- rows that join


def joining():
    prints("two rows, of which one is the best", f"{FRONT}INSERT INTO t VALUES (9, 10), (1, 1); {BEST} LIMIT 1;", "1,19,9,10")
    prints("rows behind those of the file", f"{FRONT}INSERT INTO t VALUES (9, 10), (1, 1); {BEST};", "1,19,9,10", "2,17,8,9", "3,13,10,3", "4,12,2,10", "5,6,5,1", "6,2,1,1")
    prints("an INSERT prints nothing", f"{FRONT}INSERT INTO t VALUES (9, 10);")
    prints("no index", "CREATE TABLE t (x INT, y INT) FROM 't.csv'; CREATE PREDICATE p (v INT) MAX 10 AS v; INSERT INTO t VALUES (10, 7); SELECT y FROM t ORDER BY p(x) LIMIT 3;", "1,10,3", "2,10,7", "3,8,9")
    prints("a row of the same score stands behind older ones", f"{FRONT}INSERT INTO t VALUES (10, 3), (10, 4); SELECT y FROM t ORDER BY p(x) LIMIT 3;", "1,10,3", "2,10,3", "3,10,4")
    prints("one after another", FRONT + "".join(f"INSERT INTO t VALUES (9, {n});" for n in (1, 2, 3)) + "SELECT y FROM t ORDER BY p(x) LIMIT 4;", "1,10,3", "2,9,1", "3,9,2", "4,9,3")
    prints("an index that is made behind them", f"{FRONT}INSERT INTO t VALUES (1, 9); CREATE RANK INDEX qy ON t (q(y)); SELECT x FROM t ORDER BY q(y) LIMIT 3;", "1,10,2", "2,9,8", "3,9,1")
    prints("a table without rows", "CREATE TABLE o (v INT) FROM 'o.csv'; CREATE PREDICATE p (v INT) MAX 10 AS v; CREATE RANK INDEX i ON o (p(v)); SELECT v FROM o ORDER BY p(v); INSERT INTO o VALUES (3), (4); SELECT v FROM o ORDER BY p(v);", "1,4,4", "2,3,3")
    prints("of two tables of one file only one grows", f"{FRONT}CREATE TABLE u (x INT, y INT) FROM 't.csv'; INSERT INTO u VALUES (9, 10); {BEST} LIMIT 1; {BEST.replace('FROM t', 'FROM u')} LIMIT 1;", "1,17,8,9", "1,19,9,10")
    tell("the file stays as it is", "" if open("t.csv", encoding="utf-8").read() == "x,y\n10,3\n8,9\n5,1\n2,10\n" else "it was changed")
    prints("a table that is joined with itself", f"{FRONT}INSERT INTO t VALUES (3, 8); SELECT a.y, b.x FROM t a, t b WHERE a.y = b.x ORDER BY p(a.x) + p(b.x) LIMIT 3;", "1,13,3,3", "2,12,10,10", "3,11,8,8")
    prints("the sides of a set operator", f"{FRONT}INSERT INTO t VALUES (3, 8); SELECT x FROM t INTERSECT SELECT y FROM t ORDER BY p(x); SELECT x FROM t EXCEPT SELECT y FROM t ORDER BY p(x);", "1,10,10", "2,8,8", "3,3,3", "1,5,5", "2,2,2")
    prints("DISTINCT", f"{FRONT}INSERT INTO t VALUES (5, 7), (6, 6); SELECT DISTINCT x FROM t ORDER BY p(x);", "1,10,10", "2,8,8", "3,6,6", "4,5,5", "5,2,2")
    prints("an index of two arguments and a number", "CREATE TABLE t (x INT, y INT) FROM 't.csv'; CREATE PREDICATE near (a INT, b INT) MAX 100 COST 9 AS 100 - ABS(a - b); CREATE RANK INDEX n ON t (near(y, -7)); CREATE RANK INDEX m ON t (near(x, y)); INSERT INTO t VALUES (-7, -7), (0, -8); SELECT x, y FROM t ORDER BY near(y, -7) LIMIT 3; SELECT x, y FROM t ORDER BY near(x, y) LIMIT 3;", "1,100,-7,-7", "2,99,0,-8", "3,92,5,1", "1,100,-7,-7", "2,99,8,9", "3,96,5,1")
    tell("its estimates count them", difference(f"{FRONT}INSERT INTO t VALUES (9, 10); EXPLAIN SELECT x FROM t ORDER BY q(y);", (0, "Rank term 1 est=5 cost=505\n  SeqScan t t est=5 cost=5\n", ""), [["run", "s.sql", "1"]]))
    text = read_example("two_users.out")
    script = read_example("two_users.sql").replace("examples/offers/", "")
    write("offers.csv", read_example("offers.csv"))
    tell("the example of two users", difference(script, (0, text, "")))


def read_example(name):
    with open(f"{ROOT}/examples/offers/{name}", encoding="utf-8") as file:
        return file.read()


# ---- values


def values():
    prints("numbers", f"{TEXTS}INSERT INTO n VALUES ('a', 4000000000000000000), ('b', -4000000000000000000), ('c', -0), ('d', 007), ('e', - 5); {NAMES};",
        "1,10,a,4000000000000000000", "2,7,d,7", "3,3,b,3", "4,1,a,1", "5,0,b,-4000000000000000000", "6,0,c,0", "7,0,e,-5")
    prints("texts", f"{TEXTS}INSERT INTO n VALUES ('it''s', 9), ('', 8), ('a, b', 7), ('say \"x\"', 6), ('two\nlines', 5), ('\u00e9\u4e16', 4); {NAMES} LIMIT 6;",
        "1,9,it's,9", "2,8,,8", '3,7,"a, b",7', '4,6,"say ""x""",6', '5,5,"two\nlines",5', "6,4,\u00e9\u4e16,4")
    prints("a text of 100,000 bytes", f"{TEXTS}INSERT INTO n VALUES ('{'x' * 100_000}', 9); {NAMES} LIMIT 1;", f"1,9,{'x' * 100_000},9")
    prints("texts that the file has too are equal to them", f"{TEXTS}CREATE RANK INDEX b ON n (is_b(name)); INSERT INTO n VALUES ('b', 9), ('c', 8), ('c', 7); SELECT name, v FROM n ORDER BY is_b(name) LIMIT 3; SELECT DISTINCT name FROM n ORDER BY is_b(name); SELECT a.v, b.v FROM n a, n b WHERE a.name = b.name AND a.v < b.v ORDER BY p(b.v);",
        "1,1,b,3", "2,1,b,9", "3,0,a,1", "1,1,b", "2,0,a", "3,0,c", "1,9,3,9", "2,8,7,8")
    prints("a text that looks like the end of a statement", f"{TEXTS}INSERT INTO n VALUES ('); -- '';', 9); {NAMES} LIMIT 1;", "1,9,); -- ';,9")
    prints("words in any case, comments and lines between them", f"{TEXTS}insert\n-- rows\nInto n vAlUeS\n(\n'z' -- a text\n, 9\n)\n,('y',8);{NAMES} LIMIT 2;", "1,9,z,9", "2,8,y,8")
    prints("names that are words of the language", "CREATE TABLE into (values INT, \"insert\" INT, table INT) FROM 'w.csv'; CREATE PREDICATE p (v INT) MAX 10 AS v; INSERT INTO into VALUES (1, 2, 3); INSERT INTO \"into\" VALUES (4, 5, 6); SELECT values, \"insert\", table FROM into ORDER BY p(\"insert\");", "1,5,4,5,6", "2,2,1,2,3")
    prints("the last statement without its sign", f"{TEXTS}INSERT INTO n VALUES ('z', 9)")
    columns, ones = ", ".join(f"c{n} INT" for n in range(1, 65)), ", ".join(map(str, range(1, 65)))
    write("w64.csv", ",".join(f"c{n}" for n in range(1, 65)) + "\n")
    wide = f"CREATE TABLE w ({columns}) FROM 'w64.csv'; CREATE PREDICATE p (v INT) MAX 64 AS v; INSERT INTO w VALUES ({ones}), ({ones}); SELECT c1, c64 FROM w ORDER BY p(c64);"
    prints("64 columns", wide, "1,64,1,64", "2,64,1,64")


# ---- what is refused


def refusals():
    for name, text, at in [
        ("a list of columns", "INSERT INTO t (x, y) VALUES (1, 2)", "(x, y)"),
        ("no table", "INSERT INTO VALUES (1, 2)", "(1, 2)"),
        ("no VALUES", "INSERT INTO t (1, 2)", "(1, 2)"),
        ("no row", "INSERT INTO t VALUES ;", ";"),
        ("a row without values", "INSERT INTO t VALUES ()", ")"),
        ("a row that isn't closed", "INSERT INTO t VALUES (1, 2;", ";"),
        ("rows without a comma", "INSERT INTO t VALUES (1, 2) (3, 4)", "(3, 4)"),
        ("a comma behind the last row", "INSERT INTO t VALUES (1, 2), ;", ";"),
        ("a comma behind the last value", "INSERT INTO t VALUES (1, )", ")"),
        ("a plus sign", "INSERT INTO t VALUES (+1, 2)", "+1"),
        ("two minus signs", "INSERT INTO t VALUES (- -1, 2)", "-1"),
        ("a sign before a text", "INSERT INTO t VALUES (-'a', 2)", "'a'"),
        ("a sum", "INSERT INTO t VALUES (1 + 1, 2)", "+ 1"),
        ("brackets in a row", "INSERT INTO t VALUES ((1), 2)", "(1)"),
        ("a column as a value", "INSERT INTO t VALUES (x, 2)", "x,"),
        ("a number with a point", "INSERT INTO t VALUES (1.5, 2)", ".5"),
        ("a query in the place of rows", "INSERT INTO t SELECT x, y FROM t ORDER BY p(x)", "SELECT"),
        ("INTO is left out", "INSERT t VALUES (1, 2)", "t VALUES"),
        ("a table with a dot", "INSERT INTO t.x VALUES (1, 2)", ".x"),
        ("a reserved word as a table", "INSERT INTO select VALUES (1, 2)", "select"),
        ("EXPLAIN of an INSERT", "EXPLAIN INSERT INTO t VALUES (1, 2)", "INSERT"),
        ("a name between marks as a value", 'INSERT INTO t VALUES ("a", 2)', '"a"'),
        ("INSERT as a column", "SELECT insert FROM t ORDER BY p(x)", "insert"),
    ]:
        front, _, back = text.partition(at)
        refused(name, FRONT + front, at + back, "parse Expected")
    refused("NULL as a value", f"{FRONT}INSERT INTO t VALUES (", "NULL, 2)", "parse NotInProfile")
    refused("a number that is too great", f"{FRONT}INSERT INTO t VALUES (", "4000000000000000001, 2)", "lex NumberTooWide")
    refused("a text that isn't closed", f"{FRONT}INSERT INTO t VALUES (1, ", "'2)", "lex OpenText")
    for name, front, back, rule in [
        ("a table that isn't there", "INSERT INTO ", "nope VALUES (1, 2)", "NoTable"),
        ("a table in other letters", "INSERT INTO ", "T VALUES (1, 2)", "NoTable"),
        ("a predicate in the place of a table", "INSERT INTO ", "p VALUES (1, 2)", "NoTable"),
        ("no table comes before a wrong row", "INSERT INTO ", "nope VALUES (1), ('a')", "NoTable"),
        ("a value too few", "INSERT INTO t VALUES ", "(1)", "WrongCount"),
        ("a value too many", "INSERT INTO t VALUES ", "(1, 2, 3)", "WrongCount"),
        ("the number of values comes before their kinds", "INSERT INTO t VALUES ", "('a')", "WrongCount"),
        ("the second row has a value too few", "INSERT INTO t VALUES (1, 2), ", "(3), ('a', 'b')", "WrongCount"),
        ("a text for a number", "INSERT INTO t VALUES (1, ", "'2')", "WrongKind"),
        ("the first wrong value", "INSERT INTO t VALUES (", "'1', 'b')", "WrongKind"),
        ("the values of a row come before the next row", "INSERT INTO t VALUES (1, ", "'x'), (3)", "WrongKind"),
        ("kinds come before the calls", "INSERT INTO t VALUES (11, 2), (1, ", "'x')", "WrongKind"),
    ]:
        refused(name, FRONT + front, back + ";", "bind " + rule)
    refused("a number for a text", f"{TEXTS}INSERT INTO n VALUES ('a', 1), (", "2, 2);", "bind WrongKind")
    refused("a negative number for a text, from its sign", f"{TEXTS}INSERT INTO n VALUES (", "- 2, 2);", "bind WrongKind")
    front = f"{FRONT}{BEST} LIMIT 1; INSERT INTO t VALUES "
    ends("rows of statements in front stay", front + "(1);", 5, f"script: bind WrongCount at {len(front)}", "1,17,8,9")


# ---- limits


def limits():
    rows = [f"({n % 11}, {n % 7})" for n in range(1, 258)]
    best = sorted([10, 8, 5, 2] + [n % 11 for n in range(1, 257)], reverse=True)
    script = f"{FRONT}INSERT INTO t VALUES {', '.join(rows[:256])}; SELECT x FROM t ORDER BY p(x);"
    prints("256 rows", script, *(f"{rank},{x},{x}" for rank, x in enumerate(best, 1)))
    refused("257 rows", f"{FRONT}INSERT INTO t VALUES {', '.join(rows[:256])}, ", f"{rows[256]};", "parse TooDeep")
    signed = ["(1, -1)"] * 129
    prints("128 rows with a minus sign each", f"{FRONT}INSERT INTO t VALUES {', '.join(signed[:128])}; SELECT x FROM t ORDER BY p(x) LIMIT 1;", "1,10,10")
    refused("129 of them", f"{FRONT}INSERT INTO t VALUES {', '.join(signed[:128])}, ", f"{signed[128]};", "parse TooDeep")
    refused("a minus sign behind 256 brackets", f"{FRONT}INSERT INTO t VALUES {', '.join(rows[:255])}, (1, ", "-1);", "parse TooDeep")
    prints("996 INSERTs of a row", FRONT.replace("CREATE RANK INDEX px ON t (p(x));\n", "") + "INSERT INTO t VALUES (9, 9);" * 996 + f"{BEST} LIMIT 1;", "1,18,9,9")
    # Two columns, of which one has its index: the last rows of a full table, and one more.
    number = MOST_ROWS - 2
    write("f.csv", "x,name\n" + "".join(f"{n % 1000},r{n % 500}\n" for n in range(1, number + 1)))
    full = "CREATE TABLE f (x INT, name TEXT) FROM 'f.csv'; CREATE PREDICATE p (v INT) MAX 1000 COST 9 AS v; CREATE RANK INDEX i ON f (p(x)); "
    best = "SELECT x, name FROM f ORDER BY p(x) LIMIT 3;"
    prints("the last two rows of a table", full + "INSERT INTO f VALUES (1000, 'last but one'), (999, 'last'); " + best, "1,1000,1000,last but one", "2,999,999,r499", "3,999,999,r499")
    prints("one by one", full + "INSERT INTO f VALUES (1000, 'last but one'); INSERT INTO f VALUES (1000, 'last'); " + best, "1,1000,1000,last but one", "2,1000,1000,last", "3,999,999,r499")
    front = full + "INSERT INTO f VALUES (1000, 'last but one'), (1000, 'last'), "
    refused("a row more than a table may have", front, "(1, 'a');", "bind LimitOf")
    refused("the limit comes before the number of values", front, "(1);", "bind LimitOf")
    refused("and a row in front before the limit", full + "INSERT INTO f VALUES (1000, 'last but one'), ", "(1000), (1, 'a');", "bind WrongCount")
    front = full + "INSERT INTO f VALUES (1, 'b'), (2, 'c'); " + best + "INSERT INTO f VALUES "
    ends("no row joins a full table", front + "(1, 'a');", 5, f"script: bind LimitOf at {len(front)}", "1,999,999,r499", "2,999,999,r499", "3,999,999,r499")
    ends("a bad score of its last row", full + "INSERT INTO f VALUES (1, 'a'), (1001, 'b');", 7, f"score: p rows {MOST_ROWS}: 1001 is not in 0..1000")


# ---- calls of indexes


def calls():
    front = f"{FRONT}CREATE RANK INDEX qy ON t (q(y)); {BEST} LIMIT 1; INSERT INTO t VALUES "
    ends("a bad score tells the number that the row would have", front + "(11, 0);", 7, "score: p rows 5: 11 is not in 0..10", "1,17,8,9")
    ends("the calls go index by index", front + "(1, 99), (11, 2);", 7, "score: p rows 6: 11 is not in 0..10", "1,17,8,9")
    ends("a score below 0", front + "(1, 2), (1, -2);", 7, "score: q rows 6: -2 is not in 0..10", "1,17,8,9")
    prints("no bad score where no index is, and no query asks for it", f"{FRONT}INSERT INTO t VALUES (10, 99); SELECT y FROM t WHERE y < 11 ORDER BY q(y) LIMIT 1;", "1,10,10")
    prints("another table's index isn't asked", f"{FRONT}CREATE TABLE u (x INT, y INT) FROM 't.csv'; INSERT INTO u VALUES (11, 1); SELECT y FROM u WHERE x < 11 ORDER BY p(x) LIMIT 1;", "1,10,3")
    # The index of the front takes four calls, and so does one of y.
    counts("an INSERT calls each index once a row", f"{FRONT}INSERT INTO t VALUES (9, 10), (1, 1);", 6)
    counts("two indexes", f"{FRONT}CREATE RANK INDEX qy ON t (q(y)); INSERT INTO t VALUES (9, 10), (1, 1), (2, 2);", 14)
    counts("two indexes of the same scores", f"{FRONT}CREATE RANK INDEX px2 ON t (p(x)); INSERT INTO t VALUES (9, 10);", 10)
    counts("no index of the table", f"{FRONT}CREATE TABLE u (x INT, y INT) FROM 't.csv'; INSERT INTO u VALUES (9, 10);", 4)
    # Each of the ten calls of an INSERT of five rows fails in turn, and then each pair of them.
    differs = ""
    for first in range(10):
        for second in range(first, 10):
            rows = [[1, 2], [3, 4], [5, 6], [7, 8], [9, 10]]
            for place in (first, second):
                rows[place % 5][place // 5] = 11 + place
            script = front + ", ".join(f"({x}, {y})" for x, y in rows) + ";"
            line = f"score: {'pq'[first // 5]} rows {5 + first % 5}: {11 + first} is not in 0..10\n"
            differs = differs or difference(script, (7, "1,17,8,9\n", line), [["plain", "s.sql"], ["run", "s.sql", "1"]])
    tell("each call of an INSERT with two indexes fails, alone and before another one", differs)


# ---- cursors


def cursors():
    prints("a cursor doesn't see new rows", f"{FRONT}DECLARE k CURSOR FOR {BEST}; FETCH 1 FROM k; INSERT INTO t VALUES (9, 10); FETCH 5 FROM k;", "1,17,8,9", "2,13,10,3", "3,12,2,10", "4,6,5,1")
    prints("a cursor over an index goes on behind its last row", f"{FRONT}DECLARE k CURSOR FOR SELECT x FROM t ORDER BY p(x); FETCH 2 FROM k; INSERT INTO t VALUES (9, 1), (10, 2); FETCH 9 FROM k; SELECT x FROM t ORDER BY p(x) LIMIT 3;",
        "1,10,10", "2,8,8", "3,5,5", "4,2,2", "1,10,10", "2,10,10", "3,9,9")
    prints("a cursor that wasn't fetched before", f"{FRONT}DECLARE k CURSOR FOR {BEST}; INSERT INTO t VALUES (9, 10); FETCH 2 FROM k;", "1,17,8,9", "2,13,10,3")
    prints("a cursor that was at its end", f"{FRONT}DECLARE k CURSOR FOR {BEST}; FETCH 9 FROM k; INSERT INTO t VALUES (1, 0); FETCH 9 FROM k; CLOSE k; DECLARE k CURSOR FOR {BEST}; FETCH 9 FROM k;",
        "1,17,8,9", "2,13,10,3", "3,12,2,10", "4,6,5,1", "1,17,8,9", "2,13,10,3", "3,12,2,10", "4,6,5,1", "5,1,1,0")
    prints("a cursor over a table without rows", "CREATE TABLE o (v INT) FROM 'o.csv'; CREATE PREDICATE p (v INT) MAX 10 AS v; CREATE RANK INDEX i ON o (p(v)); DECLARE k CURSOR FOR SELECT v FROM o ORDER BY p(v); DECLARE l CURSOR FOR SELECT a.v FROM o a, o b ORDER BY p(a.v); FETCH 1 FROM k; INSERT INTO o VALUES (3); FETCH 1 FROM k; FETCH 1 FROM l;")
    later = f"{FRONT}DECLARE k CURSOR FOR {BEST}; FETCH 1 FROM k; "
    pages = ["1,17,8,9", "2,13,10,3", "3,12,2,10", "4,6,5,1"]
    prints("an index that is made behind its DECLARE", later + "CREATE RANK INDEX qy ON t (q(y)); FETCH 1 FROM k; INSERT INTO t VALUES (9, 10), (10, 10); FETCH 9 FROM k;", *pages)
    prints("an index that is made behind the INSERT", later + "INSERT INTO t VALUES (9, 10), (10, 10); CREATE RANK INDEX qy ON t (q(y)); FETCH 9 FROM k; SELECT x FROM t ORDER BY q(y) LIMIT 3;", *pages, "1,10,2", "2,10,9", "3,10,10")
    ends("a cursor over no index sees no bad score of a new row", f"{FRONT}DECLARE k CURSOR FOR {BEST}; INSERT INTO t VALUES (10, 99); FETCH 1 FROM k; {BEST};", 7, "score: q rows 5: 99 is not in 0..10", "1,17,8,9")
    # By the plan of its DECLARE p is called on both rows, and q on the best one then. By an index of q the bad score isn't needed.
    write("far.csv", "x,y\n10,9\n-5,0\n")
    front = FRONT.replace("t.csv", "far.csv").replace("CREATE RANK INDEX px ON t (p(x));\n", "")
    script = f"{front}DECLARE k CURSOR FOR {BEST} LIMIT 1; CREATE RANK INDEX qy ON t (q(y)); {BEST} LIMIT 1; FETCH 1 FROM k;"
    tell("an index that is made behind its DECLARE changes no call of a cursor", difference(script, (7, "1,19,10,9\n", "score: p rows 2: -5 is not in 0..10\n"), [["run", "s.sql", "1"]]))
    write("k.csv", "x,y,z\n10,10,5\n9,1,5\n8,1,5\n1,1,5\n0,1,99\n")
    script = """CREATE TABLE g (x INT, y INT, z INT) FROM 'k.csv'; CREATE PREDICATE p (v INT) MAX 10 COST 100 AS v; CREATE PREDICATE r (v INT) MAX 10 AS v;
CREATE PREDICATE s (v INT) MAX 100 COST 20 AS v; CREATE RANK INDEX gx ON g (p(x)); CREATE RANK INDEX gy ON g (s(y));
DECLARE k CURSOR FOR SELECT x, y, z FROM g ORDER BY p(x) + r(z) + s(y) LIMIT 1; INSERT INTO g VALUES (0, 60, 0); FETCH 1 FROM k;"""
    tell("a great score that joins makes a cursor look no further", difference(script, (0, "1,25,10,10,5\n", ""), [["run", "s.sql", seed] for seed in SEEDS]))
    ends("a bad score ends the run with its cursors", later + "INSERT INTO t VALUES (11, 1); FETCH 1 FROM k;", 7, "score: p rows 5: 11 is not in 0..10", "1,17,8,9")


def many_cursors(seed):
    """Scripts of 64 cursors with INSERTs between their DECLAREs and their FETCHes. Rows are sorted here."""
    draw = random.Random(seed)
    rows = [(draw.randrange(101), draw.randrange(101)) for _ in range(draw.choice([0, 40, 400]))]
    write("m.csv", "x,y\n" + "".join(f"{x},{y}\n" for x, y in rows))
    script = ["CREATE TABLE t (x INT, y INT) FROM 'm.csv';", "CREATE PREDICATE p (v INT) MAX 100 COST 3 AS v;", "CREATE PREDICATE q (v INT) MAX 100 COST 50 AS v;"]
    script += [f"CREATE RANK INDEX {index};" for index in ["px ON t (p(x))", "qy ON t (q(y))"] if draw.random() < 0.7]
    orders = {"p(x)": lambda x, y: x, "q(y)": lambda x, y: y, "p(x) + q(y)": lambda x, y: x + y, "2 * p(x) + q(x) + q(y)": lambda x, y: 3 * x + y}
    lists, wanted, places = [], [], [0] * 64

    def insert():
        new = [(draw.randrange(101), draw.randrange(101)) for _ in range(draw.choice([1, 2, 30]))]
        rows.extend(new)
        script.append(f"INSERT INTO t VALUES {', '.join(map(str, new))};")

    for number in range(64):
        order = draw.choice(list(orders))
        most = draw.choice([101, 101, 50])
        script.append(f"DECLARE c{number} CURSOR FOR SELECT x, y FROM t WHERE x < {most} ORDER BY {order};")
        scored = [(orders[order](*row), *row) for row in rows if row[0] < most]
        lists.append(sorted(scored, key=lambda row: -row[0]))
        if draw.random() < 0.3:
            insert()
    for _ in range(400):
        number, count = draw.randrange(64), draw.choice([1, 2, 5, 1000])
        script.append(f"FETCH {count} FROM c{number};")
        came = lists[number][places[number] : places[number] + count]
        wanted += [f"{rank},{','.join(map(str, row))}\n" for rank, row in enumerate(came, places[number] + 1)]
        places[number] += len(came)
        if draw.random() < 0.3:
            insert()
    return "\n".join(script) + "\n", "".join(wanted)


def main():
    if not os.access(PROGRAM, os.X_OK):
        print(f"there is no program {PROGRAM}: ./ranksql builds it", file=sys.stderr)
        return 1
    with tempfile.TemporaryDirectory() as folder:
        os.chdir(folder)
        write("t.csv", "x,y\n10,3\n8,9\n5,1\n2,10\n")
        write("n.csv", "name,v\na,1\nb,3\n")
        write("o.csv", "v\n")
        write("w.csv", "values,insert,table\n")
        joining()
        values()
        refusals()
        limits()
        calls()
        cursors()
        for seed in range(20):
            script, wanted = many_cursors(seed)
            tell(f"64 cursors, and rows that join between their FETCHes: script {seed}", difference(script, (0, wanted, "")))
        os.chdir("/")
    print(f"{failures} cases failed" if failures else "every case passed")
    return min(failures, 1)


if __name__ == "__main__":
    sys.exit(main())
