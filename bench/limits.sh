#!/usr/bin/env bash
# Measures `ranksql` on the deepest and the largest of each form that it takes, and on smaller ones, so that it shows how each grows:
# seconds of processor time, the greatest memory where it is more than that of the process that starts the runs (about 10 MB), and
# the least stack with which it runs, in steps of two. The last column is the power by which the time grows from a row to the next
# one, where the times are long enough to tell.
# Crafted tables stand beside ordinary ones of the same size: keys of which a hash with a known seed makes the same number, and long
# texts that differ in their last bytes alone. Where a crafted table takes more than four times as long as the ordinary one, the
# script ends with 1.
# The twins are what grows more than it has to: each beside itself at half the size, in the same run, so that a ratio is printed. 2 is
# a cost that grows as the size, 1 one that doesn't grow. Some have another program beside them too.
# The forms can be named: bench/limits.sh FORM.., and with none all are measured. The program is the one that ./ranksql builds, or
# the one that the variable RANKSQL names.
# shellcheck source=bench/functions.sh
. "$(dirname "$0")/functions.sh"

needs python3 'it makes the tables and takes the measures'
find_program
python3 - "$program" "$work" "$@" <<'PYTHON'
import csv
import json
import math
import os
import random
import resource
import sqlite3
import subprocess
import sys
import time

program, folder, wanted = sys.argv[1], sys.argv[2], sys.argv[3:]
os.chdir(folder)
MOST_ROWS = 131072
SECONDS = 600
draw = random.Random(1)
failures = 0


def write(name, content):
    with open(name, "wb") as file:
        file.write(content if isinstance(content, bytes) else content.encode())


def ended(words, stack):
    """Runs a command, and gives its status, its seconds of processor time and its greatest memory in kB."""

    def before():
        resource.setrlimit(resource.RLIMIT_CPU, (SECONDS, SECONDS))
        if stack:
            resource.setrlimit(resource.RLIMIT_STACK, (stack << 10, stack << 10))

    with open("out", "wb") as out, open("err", "wb") as err:
        child = subprocess.Popen(words, stdin=subprocess.DEVNULL, stdout=out, stderr=err, preexec_fn=before)
        _, status, used = os.wait4(child.pid, 0)
        child.returncode = os.waitstatus_to_exitcode(status)
    return child.returncode, used.ru_utime + used.ru_stime, used.ru_maxrss


def starter():
    """A process that starts the runs. The greatest memory of a run is at least that of the process that started it, and the
    tables are made in this one."""
    ask_out, ask_in = os.pipe()
    tell_out, tell_in = os.pipe()
    if os.fork() == 0:
        os.close(ask_in)
        os.close(tell_out)
        with open(ask_out) as asked, open(tell_in, "w") as tell:
            for line in asked:
                print(json.dumps(ended(*json.loads(line))), file=tell, flush=True)
        os._exit(0)
    os.close(ask_out)
    os.close(tell_in)
    return open(ask_in, "w"), open(tell_out)


asked, told = starter()


def started(words, stack=None):
    print(json.dumps([words, stack]), file=asked, flush=True)
    return json.loads(told.readline())


def run(words, stack=None):
    return started([program, *words], stack)


LEAST_MEMORY = started(["true"])[2]


def least_stack(words, status):
    """The least stack in kB, of powers of two from 64 on, with which a run ends as it did."""
    size = 64
    while size < 8192 and run(words, size)[0] != status:
        size *= 2
    return size


HEAD = "%-46s %10s %7s %9s %8s %8s %6s"
print(HEAD % ("form", "size", "status", "seconds", "MB", "stack kB", "power"), flush=True)


def measure(form, size, words, before=None, has_stack=True):
    """Prints a row, and gives its size and its time."""
    status, seconds, memory = run(words)
    stack = least_stack(words, status) if has_stack and seconds < 1 else "-"
    power = "-"
    if before and seconds > 0.05 and before[1] > 0.02:
        power = "%.1f" % (math.log(seconds / before[1]) / math.log(size / before[0]))
    held = "%.1f" % (memory / 1024) if memory > LEAST_MEMORY * 1.02 else "-"
    print(HEAD % (form, size, status, "%.2f" % seconds, held, stack, power), flush=True)
    return size, seconds


def grows(form, sizes, make):
    before = None
    for size in sizes:
        write("s.sql", make(size))
        before = measure(form, size, ["run", "s.sql", "1"], before)


def numbers(name, columns, rows, cell=lambda row, column: row):
    lines = [",".join("c%d" % column for column in range(columns))]
    lines += (",".join(str(cell(row, column)) for column in range(columns)) for row in range(1, rows + 1))
    write(name, "\n".join(lines) + "\n")


def table(name, columns, kind="INT"):
    return "CREATE TABLE %s (%s) FROM '%s.csv';\n" % (name, ", ".join("c%d %s" % (column, kind) for column in range(columns)), name)


def greatest(values=1000):
    """The greatest table of one column, of so many values."""
    numbers("o.csv", 1, MOST_ROWS, lambda row, column: row % values)
    return table("o", 1) + P


P = "CREATE PREDICATE p (v INT) MAX 4294967295 AS v;\n"
SIX = "abcdef"


def listed(name, count):
    return ", ".join("%s %s" % (name, alias) for alias in SIX[:count])


def summed(count):
    return " + ".join("p(%s.c0)" % SIX[number % 6] for number in range(count))


# ---- forms


def entries():
    # Of few values, so that the sample has rows of the joins. Where it has none, nothing is known of what plans cost.
    front = greatest(2) + "CREATE RANK INDEX i ON o (p(c0));\n"

    def joined(count):
        where = " AND ".join("%s.c0 = %s.c0" % pair for pair in zip(SIX, SIX[1:count]))
        return front + "SELECT a.c0 FROM %s%s ORDER BY %s LIMIT 10;\n" % (listed("o", count), " WHERE " * bool(where) + where, summed(count))

    grows("entries of the greatest table, joined", range(1, 7), joined)
    grows("entries of the greatest table, not joined", range(1, 7), lambda count: front + "SELECT a.c0 FROM %s ORDER BY %s LIMIT 10;\n" % (listed("o", count), summed(count)))


def terms():
    front = greatest()
    grows("terms over the greatest table", [1, 2, 4, 8], lambda count: front + "SELECT c0 FROM o ORDER BY %s LIMIT 10;\n" % " + ".join(["p(c0)"] * count))
    numbers("o.csv", 1, 2)
    grows("terms over six entries", [1, 2, 4, 8], lambda count: front + "SELECT a.c0 FROM %s ORDER BY %s LIMIT 10;\n" % (listed("o", 6), summed(count)))


def conjuncts():
    front = greatest()
    tests = lambda count: " AND ".join("c0 < %d" % (100000 + number) for number in range(count))
    grows("conjuncts over the greatest table", [1, 8, 32], lambda count: front + "SELECT c0 FROM o WHERE %s ORDER BY p(c0) LIMIT 10;\n" % tests(count))
    numbers("o.csv", 1, 2)
    pairs = lambda count: " AND ".join("%s.c0 = %s.c0" % (SIX[number % 6], SIX[(number * 7 + 1) % 6]) for number in range(count))
    grows("conjuncts over six entries", [1, 8, 32], lambda count: front + "SELECT a.c0 FROM %s WHERE %s ORDER BY p(a.c0) LIMIT 10;\n" % (listed("o", 6), pairs(count)))


def outputs():
    numbers("w.csv", 64, 2000)
    front = table("w", 64) + P
    columns = (["c%d" % column for column in range(64)] * 6)
    one = lambda count: front + "SELECT %s FROM w ORDER BY p(c0);\n" % ", ".join(columns[:count])
    grows("output columns of 2,000 rows", [1, 96, 384], one)
    grows("output columns of 2,000 rows, DISTINCT", [1, 96, 384], lambda count: one(count).replace("SELECT", "SELECT DISTINCT"))
    numbers("w.csv", 64, 3)
    all_six = ["%s.c%d" % (alias, column) for column in range(64) for alias in SIX]
    grows("output columns of six entries", [6, 96, 384], lambda count: front + "SELECT %s FROM %s ORDER BY p(a.c0);\n" % (", ".join(all_six[:count]), listed("w", 6)))


def cursors():
    front = greatest()

    def script(count):
        names = ["k%d" % number for number in range(count)]
        return front + "".join("DECLARE %s CURSOR FOR SELECT c0 FROM o ORDER BY p(c0);\n" % name for name in names) + "".join("FETCH 1 FROM %s;\n" % name for name in names)

    grows("cursors over the greatest table", [1, 8, 64], script)


def statements():
    numbers("o.csv", 1, 100)
    front = table("o", 1) + P
    grows("statements, each a query of a row", [10, 100, 998], lambda count: front + "SELECT c0 FROM o ORDER BY p(c0) LIMIT 1;\n" * count)
    grows("statements that open and close a cursor", [10, 100, 998], lambda count: front + "DECLARE k CURSOR FOR SELECT c0 FROM o ORDER BY p(c0); CLOSE k;\n" * (count // 2))


def explains():
    numbers("o.csv", 1, 2)
    front = table("o", 1) + P + "CREATE RANK INDEX i ON o (p(c0));\n"
    where = " AND ".join("%s.c0 = %s.c0" % pair for pair in zip(SIX, SIX[1:]))
    query = "EXPLAIN SELECT a.c0 FROM %s WHERE %s ORDER BY %s;" % (listed("o", 6), where, summed(8))
    # With this comment behind each, 800 of them are a script of a megabyte.
    grows("EXPLAINs of six entries and eight terms", [10, 100, 800], lambda count: front + (query + "\n--%s\n" % ("." * (1300 - len(query)))) * count)


def depth():
    numbers("o.csv", 1, 2)
    formula = "CREATE PREDICATE d (v INT) MAX 10 AS %s;\n"
    grows("brackets in each other", [8, 64, 255], lambda count: formula % ("(" * count + "v" + ")" * count))
    grows("minus signs in front of each other", [8, 64, 255], lambda count: formula % ("- " * count + "v"))
    grows("sums in each other, to the right", [8, 64, 127], lambda count: formula % ("(v + " * count + "v" + ")" * count))
    grows("sums in each other, to the left", [8, 64, 255], lambda count: formula % ("v" + " + v" * count))
    grows("CASE in CASE", [4, 32, 255], lambda count: formula % ("CASE WHEN v = 1 THEN 1 ELSE " * count + "v" + " END" * count))
    grows("NOT in front of each other", [8, 64, 250], lambda count: table("o", 1) + P + "SELECT c0 FROM o WHERE %s c0 = 1 ORDER BY p(c0);\n" % ("NOT " * count))
    front = greatest()
    grows("sums in each other over the greatest table", [8, 64, 127], lambda count: front + formula % ("(0 + " * count + "v" + ")" * count) + "SELECT c0 FROM o WHERE c0 < 10 ORDER BY d(c0) LIMIT 1;\n")


def tables():
    for columns in (1, 16, 64):
        numbers("w.csv", columns, MOST_ROWS, lambda row, column: row % 1000)
        write("s.sql", table("w", columns) + P + "SELECT c0 FROM w ORDER BY p(c0) LIMIT 1;\n")
        measure("columns of numbers of the greatest table", columns, ["run", "s.sql", "1"], has_stack=False)
    for columns in (1, 16, 64):
        lines = [",".join("c%d" % column for column in range(columns))] + [",".join(["%d" % row] + ["t%d" % (row % 7)] * (columns - 1)) for row in range(MOST_ROWS)]
        write("w.csv", "\n".join(lines) + "\n")
        kinds = ", ".join("c%d %s" % (column, "TEXT" if column else "INT") for column in range(columns))
        write("s.sql", "CREATE TABLE w (%s) FROM 'w.csv';\n" % kinds + P + "SELECT c0 FROM w ORDER BY p(c0) LIMIT 1;\n")
        measure("columns of texts of the greatest table", columns, ["run", "s.sql", "1"], has_stack=False)
    sizes = (1 << 20, 1 << 23, (1 << 25) - 16)
    files = {
        "bytes of one text": lambda size: b"c0,c1\n1," + b"x" * size + b"\n",
        "commas of a header": lambda size: b"," * size + b"\n",
        "commas of a row": lambda size: b"c0\n1\n" + b"," * size + b"\n",
        "blank lines": lambda size: b"c0\n1\n" + b"\n" * size,
        "quotes of a field that is never closed": lambda size: b'c0\n"' + b'"' * (size & ~1),
    }
    for form, content in files.items():
        for size in sizes:
            write("w.csv", content(size))
            measure(form + ", under top", size, ["top", "w.csv", "c0", "9", "1"], has_stack=False)


# ---- crafted tables beside ordinary ones

MULTIPLIER, STATE, WORD = 0x9E3779B97F4A7C15, 0x243F6A8885A308D3, (1 << 64) - 1


def folded(a, b):
    product = a * b
    return (product & WORD) ^ (product >> 64)


def fed(state, number):
    return folded(state ^ (number & WORD), MULTIPLIER ^ 16)


def equal_hashes(rows):
    """Pairs of numbers whose lists have one hash: the second one takes away what the first one left."""
    made, number = [], 0
    while len(made) < rows:
        number += 1
        state = fed(fed(fed(fed(STATE, 2), 0), number), 0)
        second = state - (1 << 64) if state >> 63 else state
        if abs(second) <= 4 * 10**18:
            made.append((number, second))
    return made


def equal_text_hashes(rows):
    """The same of texts: the first eight bytes of the second one take away what the first one left."""
    made, number = [], 0
    while len(made) < rows:
        number += 1
        text = b"%d" % number
        short = text[0] | text[len(text) // 2] << 8 | text[-1] << 16
        if len(text) > 3:
            short = int.from_bytes(text[:4], "little") | int.from_bytes(text[-4:], "little") << 32
        state = folded(fed(fed(STATE, 2), 1) ^ short, MULTIPLIER ^ 2 * len(text))
        state = fed(folded(state ^ 0xFFFFFF, MULTIPLIER ^ 2), 1)
        front = (state + 16 & WORD).to_bytes(8, "little")
        try:
            front.decode()
        except UnicodeDecodeError:
            continue
        if not set(front) & set(b'",\r\n'):
            made.append((text, front + b"behind.."))
    return made


QUERIES = {
    "DISTINCT": "SELECT DISTINCT c0, c1 FROM n ORDER BY one(c0) LIMIT 1000000;\n",
    "UNION": "SELECT c0, c1 FROM n UNION SELECT c0, c1 FROM n ORDER BY one(c0) LIMIT 1000000;\n",
    "INTERSECT": "SELECT c0, c1 FROM n INTERSECT SELECT c0, c1 FROM n ORDER BY one(c0) LIMIT 1000000;\n",
    "EXCEPT": "SELECT c0, c1 FROM n EXCEPT SELECT c0, c1 FROM n ORDER BY one(c0) LIMIT 1000000;\n",
    "hash join": "SELECT a.c0 FROM n a, n b WHERE a.c0 = b.c0 AND a.c1 = b.c1 ORDER BY one(a.c0) + one(b.c0) LIMIT 1000000;\n",
}


def beside(name, kind, ordinary, crafted, sizes):
    global failures
    one = "CREATE PREDICATE one (v %s) MAX 1 AS 1;\n" % kind
    for query, text in QUERIES.items():
        before = {}
        for size in sizes:
            for word, rows in (("ordinary", ordinary), ("crafted", crafted)):
                write("n.csv", b"c0,c1\n" + b"".join(b"%s,%s\n" % row for row in rows[:size]))
                write("s.sql", table("n", 2, kind) + one + text)
                before[word] = measure("%s %s, %s" % (word, name, query), size, ["run", "s.sql", "1"], before.get(word), has_stack=False)
            if before["crafted"][1] > 4 * before["ordinary"][1] + 0.2:
                failures += 1
                print("FAILED  the crafted table takes %.1f times as long" % (before["crafted"][1] / before["ordinary"][1]))


def crafted():
    rows = MOST_ROWS
    as_bytes = lambda pairs: [(b"%d" % a, b"%d" % b) for a, b in pairs]
    ordinary = ((row, draw.randrange(-4 * 10**18, 4 * 10**18)) for row in range(1, rows + 1))
    beside("numbers", "INT", as_bytes(ordinary), as_bytes(equal_hashes(rows)), [rows // 16, rows // 4, rows])
    texts = equal_text_hashes(rows // 8)
    beside("texts", "TEXT", [(text, b"%016x" % draw.getrandbits(64)) for text, _ in texts], texts, [rows // 32, rows // 8])
    long = [(b"%d" % (row % 2), b"a" * 200 + b"%06d" % row) for row in range(rows)]
    draw.shuffle(long)
    beside("texts of 206 bytes", "TEXT", [(a, b[200:] + b[:200]) for a, b in long], long, [rows // 16, rows])


# ---- what grows more than it has to, beside half the size

TWIN = "%-50s %9s %11s %11s %6s %8s %8s %6s"
PERSONS = "CREATE PREDICATE rated (v INT) MAX 999999 AS v;\nCREATE PREDICATE near (a INT, b INT) MAX 1000000 AS 1000000 - ABS(a - b);\n"
shown_twins = False


def twin(form, size, figure):
    """Prints seconds and memory of a size and of its half, and how the one compares with the other. `figure` gives the seconds and
    the MB of a size."""
    global shown_twins
    if not shown_twins:
        print(TWIN % ("twin", "size", "seconds", "of half", "ratio", "MB", "of half", "ratio"), flush=True)
        shown_twins = True
    (seconds, held), (half, half_held) = figure(size), figure(size // 2)
    ratio = lambda whole, part: "%.2f" % (whole / part) if min(whole, part) > 0 else "-"
    small = max(held, half_held) * 1024 < LEAST_MEMORY * 1.02
    memory = ("-", "-", "-") if small else ("%.1f" % held, "%.1f" % half_held, ratio(held, half_held))
    print(TWIN % (form, size, "%.6f" % seconds, "%.6f" % half, ratio(seconds, half), *memory), flush=True)


def used(word, script, turns=1):
    """The seconds and the MB of a script, the best of some runs."""
    write("s.sql", script)
    runs = [run([word, "s.sql"] + ["1"] * (word == "run")) for _ in range(turns)]
    if any(status != 0 for status, _, _ in runs):
        with open("err") as file:
            sys.exit("bench: %s ended with %d: %s" % (word, runs[-1][0], file.read()))
    return min(seconds for _, seconds, _ in runs), min(memory for _, _, memory in runs) / 1024


def added(word, front, statements, turns=5):
    """The seconds that one of some statements adds to a script, and the MB of all."""
    seconds, memory = used(word, front + "".join(statements), turns)
    return (seconds - used(word, front, turns)[0]) / len(statements), memory


def persons(rows, groups=None):
    """A table of a group and a value, of which about ten rows have each group."""
    numbers("t.csv", 2, rows, lambda row, column: draw.randrange(10**6) if column else draw.randrange(groups or max(1, rows // 10)))
    return "CREATE TABLE t (c0 INT, c1 INT) FROM 't.csv';\n" + PERSONS


def inserted(count, size=1):
    """So many INSERTs of so many rows."""
    row = lambda: "(%d, %d)" % (draw.randrange(10**4), draw.randrange(10**6))
    return ["INSERT INTO t VALUES %s;\n" % ", ".join(row() for _ in range(size)) for _ in range(count)]


def inserts():
    indexes = lambda count: "".join("CREATE RANK INDEX i%d ON t (near(c%d, %d));\n" % (number, number % 2, number) for number in range(count))
    twin("INSERT of a row, no index", 100000, lambda size: added("run", persons(size), inserted(900)))
    twin("INSERT of a row, two indexes", 100000, lambda size: added("run", persons(size) + indexes(2), inserted(400), 3))
    twin("INSERT of a row, 64 indexes", 130000, lambda size: added("run", persons(size) + indexes(64), inserted(40), 1))


def views():
    declare = "DECLARE k CURSOR FOR SELECT c0, c1 FROM t ORDER BY rated(c1) LIMIT %d;\n"
    twin("view of LIMIT 10, an INSERT", 120000, lambda size: added("view", persons(size) + declare % 10, inserted(900)))
    twin("view of LIMIT 1,000,000, an INSERT", 120000, lambda size: added("view", persons(size) + declare % 10**6, inserted(40), 3))
    joined = "DECLARE k CURSOR FOR SELECT x.c0 FROM t x, t y WHERE x.c0 = y.c0 AND x.c1 < y.c1 ORDER BY near(x.c1, y.c1) LIMIT 10;\n"
    for rows in (1, 16, 64, 65):
        twin("view of a self-join, an INSERT of %d" % rows, 100000, lambda size, rows=rows: added("view", persons(size) + joined, inserted(400 // rows, rows), 3))
    third = joined.replace("t y WHERE", "t y, t z WHERE z.c0 = y.c0 AND")
    twin("view of three entries, an INSERT of 1", 100000, lambda size: added("view", persons(size) + third, inserted(20), 1))
    columns = ", ".join(["c0", "c1"] * 192)
    twin("view of LIMIT 1,000,000, two columns", 131000, lambda size: used("view", persons(size) + declare % 10**6))
    twin("view of LIMIT 1,000,000, 384 columns", 131000, lambda size: used("view", persons(size) + declare.replace("c0, c1", columns) % 10**6))


def products():
    """All pairs of two tables, of which one is asked for. The size is that of a table, so half of it has a quarter of the pairs."""
    query = "SELECT x.c0 FROM t x, t y ORDER BY near(x.c1, y.c1) LIMIT 1;\n"
    twin("pairs of two tables, LIMIT 1, run", 4000, lambda size: used("run", persons(size) + query))
    twin("pairs of two tables, LIMIT 1, plain", 4000, lambda size: used("plain", persons(size) + query))
    twin("pairs of two tables, LIMIT 1, view", 4000, lambda size: used("view", persons(size) + "DECLARE k CURSOR FOR " + query))


def equalities():
    """A self-join by three equal columns and `<`: of each column alone many rows are equal, and few of all three."""
    def stones(rows):
        values = (10**6, 60, 7, 8)
        numbers("t.csv", 4, rows, lambda row, column: draw.randrange(values[column]))
        return table("t", 4) + PERSONS

    where = " AND ".join(["x.c%d = y.c%d" % (column, column) for column in (1, 2, 3)] + ["x.c0 < y.c0"])
    query = "SELECT x.c0, y.c0 FROM t x, t y WHERE %s ORDER BY near(x.c0, y.c0) LIMIT 10;\n" % where
    size = 26970
    twin("self-join by three equalities, run", size, lambda size: used("run", stones(size) + query))
    twin("self-join by three equalities, plain", size, lambda size: used("plain", stones(size) + query))
    twin("self-join by three equalities, view", size, lambda size: used("view", stones(size) + "DECLARE k CURSOR FOR " + query))
    stones(size)
    start = time.process_time()
    connection = sqlite3.connect(":memory:")
    connection.create_function("near", 2, lambda a, b: 1000000 - abs(a - b), deterministic=True)
    connection.execute("CREATE TABLE t(c0 INTEGER, c1 INTEGER, c2 INTEGER, c3 INTEGER)")
    with open("t.csv") as file:
        connection.executemany("INSERT INTO t VALUES (?, ?, ?, ?)", list(csv.reader(file))[1:])
    connection.execute("CREATE INDEX i ON t (c1, c2, c3)")
    connection.execute("SELECT x.c0, y.c0, near(x.c0, y.c0) AS s FROM t x, t y WHERE %s ORDER BY s DESC, x.rowid, y.rowid LIMIT 10" % where).fetchall()
    print(TWIN % ("the same by SQLite with a function of Python", size, "%.6f" % (time.process_time() - start), *["-"] * 5), flush=True)


def texts():
    """Cells of few different texts beside numbers of as many bytes, in a table of four columns under top."""
    def top_of(cell):
        def figure(size):
            numbers("t.csv", 4, size, cell)
            status, seconds, memory = run(["top", "t.csv", "c0", "999999", "10"])
            return seconds, memory / 1024

        return figure

    number = lambda row, column: (row * 7919 + column * 31) % 1000000
    few = lambda row, column: "text%d" % (row % 20) if column else number(row, 0)
    many = lambda row, column: "t%d" % number(row, column) if column else number(row, 0)
    twin("top, four columns of numbers", MOST_ROWS, top_of(number))
    twin("top, three of them 20 different texts", MOST_ROWS, top_of(few))
    twin("top, three of them different texts", MOST_ROWS, top_of(many))


FORMS = [entries, terms, conjuncts, outputs, cursors, statements, explains, depth, tables, crafted, inserts, views, products, equalities, texts]
names = [form.__name__ for form in FORMS]
if any(name not in names for name in wanted):
    sys.exit("bench: the forms are " + ", ".join(names))
for form in FORMS:
    if not wanted or form.__name__ in wanted:
        form()
sys.exit(min(failures, 1))
PYTHON
