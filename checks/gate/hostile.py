#!/usr/bin/env python3
"""Runs the built program under what a machine or hostile input may do to it: outputs that end, closed streams, pipes and folders in
the place of files, files that change while they are read, the greatest inputs and one byte more, and odd bytes at each place.
No run may crash, print a wrong line, or tell another fault than the right one. The program is
crates/ranksql/out/ranksql, or the one that the variable RANKSQL names.

What is wanted was worked out by hand, or is said by runs.py. It prints a line `ok` for each case, or what differs, and ends
with 1 where one fails.
"""

import os
import re
import resource
import shutil
import signal
import subprocess
import sys
import tempfile
import threading

sys.dont_write_bytecode = True
sys.path.insert(0, os.path.join(os.path.dirname(os.path.abspath(__file__)), "..", "model"))
import runs

ROOT = os.path.dirname(os.path.dirname(os.path.dirname(os.path.abspath(__file__))))
BUILT = f"{ROOT}/crates/ranksql/out/ranksql"
PROGRAM = os.environ.get("RANKSQL") or BUILT
SECONDS = 120

FRONT = """\
CREATE TABLE h (name TEXT, price INT, city INT) FROM 'h.csv';
CREATE TABLE t (x INT, y INT) FROM 't.csv';
CREATE PREDICATE p (v INT) MAX 10 AS v;
CREATE PREDICATE q (v INT) MAX 10 COST 100 AS v;
CREATE RANK INDEX px ON t (p(x));
"""
CURSORS = FRONT + """\
DECLARE k CURSOR FOR SELECT x FROM t ORDER BY p(x) + q(y); DECLARE d CURSOR FOR SELECT x FROM t ORDER BY q(y);
FETCH 2 FROM k; FETCH 1 FROM d; FETCH 2 FROM k; FETCH 5 FROM k; CLOSE k;
"""
CURSOR_ROWS = b"1,17,8\n2,13,10\n1,10,2\n3,12,2\n4,6,5\n"
HOTELS = b"name,price,city\na,40,1\nb,90,1\nc,40,2\n"
PAIRS = b"x,y\n10,3\n8,9\n5,1\n2,10\n"
TOP = ["top", "h.csv", "price", "100", "2"]
TOP_ROWS = b"1,90,b,90,1\n2,40,a,40,1\n"
RUN = ["run", "s.sql", "1"]

failures = 0


def tell(name, differs):
    """Prints whether a case is as it must be: `differs` is empty then."""
    global failures
    if differs:
        failures += 1
        print(f"FAILED  {name}: {differs}", flush=True)
    else:
        print(f"ok      {name}", flush=True)


def write(name, content):
    with open(name, "wb") as file:
        file.write(content if isinstance(content, bytes) else content.encode())


def run(words, stdout=subprocess.PIPE, stderr=subprocess.PIPE, stdin=subprocess.DEVNULL, before=None, **more):
    """The status of a run, what it put, and its line on standard error."""
    try:
        done = subprocess.run([PROGRAM, *words], stdin=stdin, stdout=stdout, stderr=stderr, timeout=SECONDS, preexec_fn=before, check=False, **more)
    except subprocess.TimeoutExpired:
        return "no end", b"", b""
    return done.returncode, done.stdout or b"", done.stderr or b""


def difference(got, wanted):
    """What differs between two runs' statuses, outputs and lines, or nothing."""
    if got == wanted:
        return ""
    return f"got {shortened(got)}, wanted {shortened(wanted)}"


def shortened(told):
    return tuple(it[:120] if isinstance(it, bytes) else it for it in told)


def expect(name, words, wanted, **more):
    tell(name, difference(run(words, **more), wanted))


# ---- outputs that end


def cut_by_pipe(length):
    """A run whose reader takes so many bytes and leaves. The program may have written all before."""
    reader, writer = os.pipe()
    if length == 0:
        os.close(reader)
    program = subprocess.Popen([PROGRAM, *RUN], stdin=subprocess.DEVNULL, stdout=writer, stderr=subprocess.PIPE)
    os.close(writer)
    got = b""
    while len(got) < length:
        got += os.read(reader, length - len(got))
    if length:
        os.close(reader)
    error = program.communicate(timeout=SECONDS)[1]
    wanted = [(4, CURSOR_ROWS[:length], b"write\n")] + [(0, CURSOR_ROWS[:length], b"")] * (length > 0)
    return "" if (program.returncode, got, error) in wanted else f"behind {length} bytes {(program.returncode, got, error)}"


def file_limit(length, is_ignored=True):
    def before():
        resource.setrlimit(resource.RLIMIT_FSIZE, (length, length))
        signal.signal(signal.SIGXFSZ, signal.SIG_IGN if is_ignored else signal.SIG_DFL)

    return before


def cut_by_limit(length):
    """A run into a file that may have so many bytes."""
    with open("limited", "wb") as file:
        status, _, error = run(RUN, stdout=file, before=file_limit(length))
    with open("limited", "rb") as file:
        got = status, file.read(), error
    ends = length >= len(CURSOR_ROWS)
    return difference(got, (0 if ends else 4, CURSOR_ROWS[:length], b"" if ends else b"write\n"))


def first(differences):
    return next(filter(None, differences), "")


def outputs():
    write("s.sql", CURSORS)
    lengths = range(len(CURSOR_ROWS) + 1)
    tell(f"a reader that leaves behind each of {len(CURSOR_ROWS)} bytes", first(map(cut_by_pipe, lengths)))
    tell(f"a file that may have each of 0 to {len(CURSOR_ROWS)} bytes", first(map(cut_by_limit, lengths)))
    with open("limited", "wb") as file:
        status, _, error = run(RUN, stdout=file, before=file_limit(9, is_ignored=False))
    with open("limited", "rb") as file:
        tell("the same where the system's signal ends the program", difference((status, file.read(), error), (-signal.SIGXFSZ, CURSOR_ROWS[:9], b"")))
    # (a folder of its own, whose program is newer than all else, so that the script builds nothing)
    os.makedirs("top/crates/ranksql/out")
    os.makedirs("top/tools")
    for name in ("crates.txt", "ranksql", "tools/build_and_run"):
        shutil.copy(f"{ROOT}/{name}", f"top/{name}")
    shutil.copy(PROGRAM, "top/crates/ranksql/out/ranksql")
    with open("limited", "wb") as file:
        done = subprocess.run(["top/ranksql", *RUN], stdout=file, stderr=subprocess.PIPE, preexec_fn=file_limit(9, is_ignored=False), check=False)
    with open("limited", "rb") as file:
        tell("the same by the script at the top, which ignores that signal", difference((done.returncode, file.read(), done.stderr), (4, CURSOR_ROWS[:9], b"write\n")))
    with open("/dev/full", "wb") as full:
        expect("a full device under a script", RUN, (4, b"", b"write\n"), stdout=full)
        expect("a full device under top", TOP, (4, b"", b"write\n"), stdout=full)
        expect("a full device under generated tables", ["gen", "7", "20"], (4, b"", b"write\n"), stdout=full)
        expect("a full device for a fault", ["plain", "nope.sql"], (3, b"", b""), stderr=full)
        expect("a full device for both", RUN, (4, b"", b""), stdout=full, stderr=full)
        expect("a full device for a faulty command line", ["--help"], (2, b"", b""), stderr=full)
    closed = {"close_fds": False}
    expect("closed standard error under a fault", ["plain", "nope.sql"], (3, b"", b""), stderr=None, before=lambda: os.close(2), **closed)
    expect("closed standard error and no fault", RUN, (0, CURSOR_ROWS, b""), stderr=None, before=lambda: os.close(2), **closed)
    expect("closed standard output", RUN, (4, b"", b"write\n"), stdout=None, before=lambda: os.close(1), **closed)
    expect("both closed", RUN, (4, b"", b""), stdout=None, stderr=None, before=lambda: (os.close(1), os.close(2)), **closed)
    expect("all three closed", RUN, (4, b"", b""), stdin=None, stdout=None, stderr=None, before=lambda: os.closerange(0, 3), **closed)
    expect("all three closed and no row", ["top", "h.csv", "price", "100", "0"], (0, b"", b""), stdin=None, stdout=None, stderr=None, before=lambda: os.closerange(0, 3), **closed)
    with open("t.csv", "rb") as file:
        expect("standard output that is open for reading alone", RUN, (4, b"", b"write\n"), stdout=file)
    write("only", b"")
    with open("only", "r+b") as file:
        expect("both outputs in one file", RUN, (0, b"", b""), stdout=file, stderr=file)
    with open("only", "rb") as file:
        tell("what is in that file", difference((file.read(),), (CURSOR_ROWS,)))


# ---- what stands in the place of a file


class Pipe:
    """A named pipe into which a thread writes."""

    def __init__(self, name, content):
        self.name, self.content = name, content
        os.mkfifo(name)

    def __enter__(self):
        self.thread = threading.Thread(target=self.fill, daemon=True)
        self.thread.start()

    def fill(self):
        try:
            with open(self.name, "wb") as file:
                file.write(self.content)
        except BrokenPipeError:
            pass

    def __exit__(self, *_):
        if self.thread.is_alive():
            os.close(os.open(self.name, os.O_RDONLY | os.O_NONBLOCK))
        self.thread.join(SECONDS)
        os.remove(self.name)


def files():
    write("s.sql", CURSORS)
    with Pipe("pipe.sql", CURSORS.encode()):
        expect("a named pipe as script", ["run", "pipe.sql", "1"], (0, CURSOR_ROWS, b""))
    with Pipe("pipe.csv", PAIRS):
        write("s.sql", CURSORS.replace("'t.csv'", "'pipe.csv'"))
        expect("a named pipe as table", RUN, (0, CURSOR_ROWS, b""))
    with Pipe("pipe.csv", b""):
        expect("a named pipe without a byte as table", RUN, (6, b"", b"table: pipe.csv: NoHeader\n"))
    with Pipe("long", b"v\n" + b"1\n" * (runs.MOST_OF_A_FILE // 2)):
        expect("a named pipe with too many bytes", ["top", "long", "v", "1", "1"], (3, b"", b"read: long: too long\n"))
    write("s.sql", CURSORS)
    with open("s.sql", "rb") as file:
        expect("standard input as script, from a file", ["run", "/dev/stdin", "1"], (0, CURSOR_ROWS, b""), stdin=file)
    for name, content in ("script", CURSORS), ("table", PAIRS.decode()):
        words = ["run", "/dev/stdin", "1"] if name == "script" else RUN
        write("s.sql", CURSORS.replace("'t.csv'", "'/dev/stdin'"))
        done = subprocess.run([PROGRAM, *words], input=content.encode(), capture_output=True, timeout=SECONDS, check=False)
        tell(f"standard input as {name}, from a pipe", difference((done.returncode, done.stdout, done.stderr), (0, CURSOR_ROWS, b"")))
    both = CURSORS.replace("'t.csv'", "'/dev/stdin'").encode()
    done = subprocess.run([PROGRAM, "run", "/dev/stdin", "1"], input=both, capture_output=True, timeout=SECONDS, check=False)
    tell("standard input as script and table, from one pipe", difference((done.returncode, done.stdout, done.stderr), (6, b"", b"table: /dev/stdin: NoHeader\n")))
    write("both.sql", both)
    with open("both.sql", "rb") as file:
        expect("standard input as script and table, from one file", ["run", "/dev/stdin", "1"], (6, b"", b"table: /dev/stdin: HeaderDiffers column 1\n"), stdin=file)
    os.mkdir("FOLDER")
    os.symlink("loop", "loop")
    os.symlink("nothing", "dangling")
    odd = [("a folder", "FOLDER", "failed"), ("a path below a file", "t.csv/x", "failed"), ("a link to itself", "loop", "failed"), ("a link to nothing", "dangling", "missing"),
           ("a name that is too long", "x" * 300, "failed"), ("a device with no end", "/dev/zero", "too long"), ("no name", "", "missing"), ("a name with a byte 0", "t\0.csv", "failed"),
           ("a name with a line feed", "t\n.csv", "missing"), ("memory that can't be read", "/proc/self/mem", "failed")]
    for name, path, fault in odd:
        line = f"read: {path}: {fault}\n".encode()
        if "\0" not in path:
            expect(f"{name} as script", ["run", path, "1"], (3, b"", line))
            expect(f"{name} under top", ["top", path, "x", "1", "1"], (3, b"", line))
        write("s.sql", f"CREATE TABLE t (x INT) FROM '{path}';")
        expect(f"{name} as table", RUN, (3, b"", line))
    write("s.sql", CURSORS)
    expect("one file may be open at a time", RUN, (0, CURSOR_ROWS, b""), before=lambda: resource.setrlimit(resource.RLIMIT_NOFILE, (4, 4)))


# ---- files that change


def numbered(first, count):
    return b"".join(b"%d\n" % number for number in range(first, first + count))


def growing():
    """A file to which whole rows are added while it is read: the rows that were read are the first ones."""
    for _ in range(20):
        write("grows.csv", b"v\n" + numbered(1, 60_000))
        program = subprocess.Popen([PROGRAM, "top", "grows.csv", "v", "1000000", "1"], stdin=subprocess.DEVNULL, stdout=subprocess.PIPE, stderr=subprocess.PIPE)
        count = 60_000
        with open("grows.csv", "ab", buffering=0) as file:
            while program.poll() is None and count < 120_000:
                file.write(numbered(count + 1, 1))
                count += 1
        out, error = program.communicate(timeout=SECONDS)
        row = re.fullmatch(rb"1,(\d+),(\d+)\n", out)
        if program.returncode or error or not row or row[1] != row[2] or not 60_000 <= int(row[1]) <= count:
            return f"with {count} rows at the end {(program.returncode, out, error)}"
    return ""


def shrinking():
    """A file that is cut while it is read: what was read are its first bytes, of which the last row may be cut."""
    for turn in range(20):
        write("shrinks.csv", b"v,w\n" + b"".join(b"%d,%d\n" % (number, number) for number in range(100_001, 160_001)))
        program = subprocess.Popen([PROGRAM, "top", "shrinks.csv", "v", "1000000", "1"], stdin=subprocess.DEVNULL, stdout=subprocess.PIPE, stderr=subprocess.PIPE)
        size = os.path.getsize("shrinks.csv")
        while program.poll() is None and size > 4:
            size = max(4, size - 50_000 - turn)
            os.truncate("shrinks.csv", size)
        out, error = program.communicate(timeout=SECONDS)
        row = re.fullmatch(rb"1,(\d+),(\d+),(\d*)\n", out)
        whole = row and row[1] == row[2] and row[2].startswith(row[3])
        cut = re.fullmatch(rb"table: shrinks.csv: (FieldCount row \d+ found 1|NotInt row \d+ column 1)\n", error)
        none = (out, error) == (b"", b"")
        if (program.returncode, bool(whole or none), bool(cut)) not in [(0, True, False), (6, False, True), (6, True, True)]:
            return f"cut to {size} bytes {(program.returncode, out, error)}"
    return ""


# ---- the greatest inputs


def greatest():
    table = "CREATE TABLE g (v INT) FROM 'g.csv'; CREATE PREDICATE p (v INT) MAX 999 AS v; CREATE RANK INDEX i ON g (p(v)); SELECT v FROM g ORDER BY p(v) LIMIT 1;"
    write("s.sql", table)
    rows = b"".join(b"%d\n" % (number % 1000) for number in range(1, 131_073))
    write("g.csv", b"v\n" + rows)
    expect("131,072 rows", RUN, (0, b"1,999,999\n", b""))
    write("g.csv", b"v\n" + rows + b"1\n")
    expect("131,073 rows", RUN, (6, b"", b"table: g.csv: TooManyRows\n"))
    write("g.csv", b"v\n7\n".ljust(1 << 25, b"\n"))
    expect("a table of 33,554,432 bytes", RUN, (0, b"1,7,7\n", b""))
    write("g.csv", b"v\n7\n".ljust((1 << 25) + 1, b"\n"))
    expect("a table of one byte more", RUN, (3, b"", b"read: g.csv: too long\n"))
    write("g.csv", b"\xef\xbb\xbf" + b"v\n7\n".ljust((1 << 25) - 3, b"\n"))
    expect("the same with a byte order mark, which counts", RUN, (0, b"1,7,7\n", b""))
    write("g.csv", b"v\n7\n")
    write("s.sql", table.ljust(1 << 20))
    expect("a script of 1,048,576 bytes", RUN, (0, b"1,7,7\n", b""))
    write("s.sql", table.ljust((1 << 20) + 1))
    expect("a script of one byte more", RUN, (3, b"", b"read: s.sql: too long\n"))
    write("s.sql", table + "--".ljust((1 << 20) - len(table), "-"))
    expect("a script with a comment up to its end", RUN, (0, b"1,7,7\n", b""))
    write("s.sql", ";" * 100_001)
    expect("100,001 tokens", RUN, (5, b"", b"script: lex TooManyTokens at 100000\n"))
    write("s.sql", ";" * 100_000)
    expect("100,000 tokens that are no statement", RUN, (5, b"", b"script: parse Expected at 0\n"))
    write("s.sql", "CLOSE a;" * 1001)
    expect("1,001 statements", RUN, (5, b"", b"script: parse TooManyStatements at 8000\n"))
    deep = "CREATE PREDICATE p (v INT) MAX 10 AS {}v{};"
    write("s.sql", deep.format("(" * 255, ")" * 255))
    expect("255 brackets in each other", RUN, (0, b"", b""))
    write("s.sql", deep.format("(" * 256, ")" * 256))
    expect("256 brackets in each other", RUN, (5, b"", b"script: parse TooDeep at 292\n"))
    write("s.sql", "4000000000000000001")
    expect("a number that is too wide", RUN, (5, b"", b"script: lex NumberTooWide at 0\n"))
    write("e.csv", b"v\n")
    write("s.sql", "".join(f"CREATE TABLE a{number:02} (v INT) FROM 'e.csv';\n" for number in range(1, 18)))
    expect("17 tables", RUN, (5, b"", b"script: catalogue Full at 637\n"))
    write("s.sql", FRONT + "".join(f"DECLARE c{number} CURSOR FOR SELECT x FROM t ORDER BY p(x);" for number in range(1, 66)))
    expect("65 cursors", RUN, (9, b"", b"session: Full c65\n"))
    write("f.csv", ",".join(["c"] * 65) + "\n")
    expect("65 columns", ["top", "f.csv", "c", "1", "1"], (6, b"", b"table: f.csv: TooManyColumns found 65\n"))
    write("f.csv", b"," * ((1 << 25) - 1) + b"\n")
    expect("33,554,432 columns", ["top", "f.csv", "c", "1", "1"], (6, b"", b"table: f.csv: TooManyColumns found 33554432\n"))
    usage = subprocess.run([PROGRAM], capture_output=True, timeout=60).stderr
    expect("10,000 words", ["top"] * 10_000, (2, b"", usage))
    expect("a word of 100,000 bytes", ["top", "h.csv", "x" * 100_000, "1", "1"], (6, b"", b"table: h.csv: NoColumn\n"))


# ---- odd bytes at each place

SCRIPT = b"""-- the best\nCREATE TABLE t (x INT, n TEXT) FROM 'o.csv';
CREATE PREDICATE p (v INT) MAX 10 AS v; SELECT n FROM t WHERE n <> 'b' ORDER BY p(x) LIMIT 2;
"""
TABLE = b"n,x\na,7\nb,9\n,8\n"
NO_UTF8 = [b"\xff", b"\xc3", b"\xed\xa0\x80", b"\xc0\x80", b"\xf4\x90\x80\x80"]
MARK = b"\xef\xbb\xbf"


def region(place):
    """What a byte is in that is put at this place of the script: a comment, the name of a file, a text, or none of these."""
    front = SCRIPT[:place]
    if b"\n" not in front and place >= 2:
        return "comment"
    if front.count(b"'") % 2:
        return "file" if front.count(b"'") == 1 else "text"
    return "none"


def wanted_of(place, odd):
    """How the script ends with odd bytes at a place."""
    rows, all_rows = b"1,8,\n2,7,a\n", b"1,9,b\n2,8,\n"
    if odd in NO_UTF8:
        return 5, b"", b"script: NotUtf8 at %d\n" % place
    where = region(place)
    if where == "comment" or odd == MARK and place == 0:
        return 0, rows, b""
    if where == "file":
        start = SCRIPT.index(b"'") + 1
        name = SCRIPT[start:place] + odd + SCRIPT[place : SCRIPT.index(b"'", start)]
        return 3, b"", b"read: %s: %s\n" % (name, b"failed" if b"\0" in odd else b"missing")
    if where == "text":
        return 0, all_rows, b""
    if odd == b"\r":
        return with_bytes(place, b" ")
    return 5, b"", b"script: lex BadByte at %d\n" % place


def with_bytes(place, odd):
    write("odd.sql", SCRIPT[:place] + odd + SCRIPT[place:])
    return run(["run", "odd.sql", "1"])


def odd_scripts(odd):
    for place in range(len(SCRIPT) + 1):
        differs = difference(with_bytes(place, odd), wanted_of(place, odd))
        if differs:
            return f"at {place}: {differs}"
    return ""


def odd_tables(odd):
    for place in range(len(TABLE) + 1):
        table = TABLE[:place] + odd + TABLE[place:]
        write("odd.csv", table)
        for column in "n", "x":
            told = runs.Run({"odd.csv": table.decode(errors="surrogateescape")}, {}, {}, None)
            status, *lines = told.told(told.top, "odd.csv", column, 9, 9)
            kept = {line[2:5]: line[6:] for line in lines}
            wanted = runs.STATUSES.index(status.strip()), *(runs.bytes_of(runs.written(kept.get(word, ""))) for word in ("out", "err"))
            differs = difference(run(["top", "odd.csv", column, "9", "9"]), wanted)
            if differs:
                return f"at {place}, column {column}: {differs}"
    return ""


def places():
    write("o.csv", b"x,n\n7,a\n9,b\n8,\n")
    tell("the script without an odd byte", difference(with_bytes(0, b""), wanted_of(0, MARK)))
    names = {b"\0": "a byte 0", b"\r": "a CR alone", MARK: "a byte order mark"}
    for odd in [b"\0", b"\r", MARK, *NO_UTF8]:
        name = names.get(odd) or "the bytes " + odd.hex(" ")
        tell(f"{name} at each of {len(SCRIPT) + 1} places of a script", odd_scripts(odd))
        tell(f"{name} at each of {len(TABLE) + 1} places of a table", odd_tables(odd))


# ---- what surrounds a run


def surroundings():
    write("s.sql", CURSORS)
    expect("no environment", RUN, (0, CURSOR_ROWS, b""), env={})
    expect("a stack of 256 kB", RUN, (0, CURSOR_ROWS, b""), before=lambda: resource.setrlimit(resource.RLIMIT_STACK, (1 << 18, 1 << 18)))
    expect("a folder that is gone", ["run", "s.sql", "1"], (3, b"", b"read: s.sql: missing\n"), before=leave)
    for signals, name in ((signal.SIG_DFL, "as the system has it"), (signal.SIG_IGN, "ignored")):
        reader, writer = os.pipe()
        os.close(reader)
        expect(f"a pipe that nobody reads, with SIGPIPE {name}", RUN, (4, b"", b"write\n"), stdout=writer, before=lambda kind=signals: signal.signal(signal.SIGPIPE, kind), restore_signals=False)
        os.close(writer)
    write("q.csv", b"v\n" + b"1\n" * 1000)
    write("s.sql", "CREATE TABLE q (v INT) FROM 'q.csv'; CREATE PREDICATE p (v INT) MAX 9 AS v; SELECT v FROM q ORDER BY p(v);")
    few = [run(RUN, before=lambda size=size: resource.setrlimit(resource.RLIMIT_AS, (size, size))) for size in range(3 << 20, 8 << 20, 1 << 16)]
    whole = b"".join(b"%d,1,1\n" % rank for rank in range(1, 1001))
    right = [it for it in few if is_first_part(it, whole)]
    tell(f"an address space of 3 to 8 MB, {len(few)} sizes", "" if len(right) == len(few) and (0, whole, b"") in few else f"{[shortened(it) for it in few if it not in right][:1]}")


def is_first_part(got, whole):
    """Whether a run did all, or put whole lines of it and told of memory; or whether the system didn't start it."""
    status, out, error = got
    if status in (127, -signal.SIGSEGV, -signal.SIGKILL) and not out:
        return status == 127 or error != b"memory\n"
    return status == 0 and out == whole or status == 1 and whole.startswith(out) and out[-1:] in (b"", b"\n") and error in (b"memory\n", b"")


def leave():
    os.mkdir("gone")
    os.chdir("gone")
    os.rmdir("../gone")


def main():
    if not os.access(PROGRAM, os.X_OK):
        print(f"there is no program {PROGRAM}: ./ranksql builds it", file=sys.stderr)
        return 1
    with tempfile.TemporaryDirectory() as folder:
        os.chdir(folder)
        write("h.csv", HOTELS)
        write("t.csv", PAIRS)
        outputs()
        files()
        tell("a file that grows while it is read", growing())
        tell("a file that shrinks while it is read", shrinking())
        greatest()
        places()
        surroundings()
        os.chdir("/")
    print(f"{failures} cases failed" if failures else "every case passed")
    return min(failures, 1)


if __name__ == "__main__":
    sys.exit(main())
