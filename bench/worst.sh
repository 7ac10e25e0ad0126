#!/usr/bin/env bash
# Looks for what costs most: for each word of the program it makes files of at most 33,554,432 bytes in all, and scripts as large as
# they may be, and measures what each run takes. It prints status, seconds of processor time and the greatest memory, and beside them
# those of an ordinary input, which is the same to the word and has as many bytes in its files or as many rows, so that a ratio is
# printed. A run has at most SECONDS_OF_A_RUN seconds of processor time (120) and
# MEMORY_OF_A_RUN MB (4,000): what takes more ends by a signal, or with status 1 of want of memory, and its row says so.
# The inputs can be named: bench/worst.sh NAME.., and with none all are measured. The program is the one that ./ranksql builds, or
# the one that the variable RANKSQL names.
# shellcheck source=bench/functions.sh
. "$(dirname "$0")/functions.sh"

needs python3 'it makes the files and takes the measures'
find_program
SECONDS_OF_A_RUN=${SECONDS_OF_A_RUN:-120} MEMORY_OF_A_RUN=${MEMORY_OF_A_RUN:-4000}
python3 - "$program" "$work" "$SECONDS_OF_A_RUN" "$MEMORY_OF_A_RUN" "$@" <<'PYTHON'
import os
import resource
import signal
import subprocess
import sys

from measured import draw

program, folder, seconds, memory, wanted = sys.argv[1], sys.argv[2], int(sys.argv[3]), int(sys.argv[4]), sys.argv[5:]
os.chdir(folder)
MOST_BYTES, MOST_ROWS = 1 << 25, 131072
LETTERS = "0123456789abcdefghijklmnopqrstuvwxyzABCDEFGHIJKLMNOPQRSTUVWXYZ_."


def write(name, content):
    with open(name, "wb") as file:
        file.write(content if isinstance(content, bytes) else content.encode())


def limits():
    resource.setrlimit(resource.RLIMIT_CPU, (seconds, seconds + 1))
    resource.setrlimit(resource.RLIMIT_AS, (memory << 20, memory << 20))


def measured(words):
    """The end of a run, its seconds and its MB."""
    with open("err", "wb") as err:
        run = subprocess.Popen([program, *words], stdin=subprocess.DEVNULL, stdout=subprocess.DEVNULL, stderr=err, preexec_fn=limits)
        _, status, used = os.wait4(run.pid, 0)
    run.returncode = os.waitstatus_to_exitcode(status)
    ended = signal.Signals(-run.returncode).name if run.returncode < 0 else str(run.returncode)
    return ended, used.ru_utime + used.ru_stime, used.ru_maxrss / 1024


def short(number):
    """A text of three bytes, another one for each number below 262,144."""
    return LETTERS[number % 64] + LETTERS[number // 64 % 64] + LETTERS[number // 4096 % 64]


def rows_of(name, columns, rows, cell):
    lines = [",".join("c%d" % column for column in range(columns))]
    lines += (",".join(str(cell(row, column)) for column in range(columns)) for row in range(1, rows + 1))
    write(name + ".csv", "\n".join(lines) + "\n")


def table(name, columns, kind="INT"):
    return "CREATE TABLE %s (%s) FROM '%s.csv';\n" % (name, ", ".join("c%d %s" % (column, kind if column else "INT") for column in range(columns)), name)


P = "CREATE PREDICATE p (v INT) MAX 4294967295 AS v;\nCREATE PREDICATE near (a INT, b INT) MAX 1000000 AS 1000000 - ABS(a - b);\n"
ONE = P + "SELECT c0 FROM w ORDER BY p(c0) LIMIT 1;\n"


def script(word, text):
    write("s.sql", text)
    return [word, "s.sql"] + ["1"] * (word == "run")


def texts(rows, differ, columns=63):
    """The greatest table of texts, which are all different in their column or few."""
    rows_of("w", columns + 1, rows, lambda row, column: row % 10 if column == 0 else short(row * 7 + column if differ else row % 8))


# ---- each gives the words of a run, of the input itself and of its ordinary twin


def header_of_commas(is_worst):
    """A header of commas, and as many commas in rows of 64 columns."""
    if is_worst:
        write("w.csv", b"," * (MOST_BYTES - 1) + b"\n")
    else:
        rows_of("w", 64, 130000, lambda row, column: 111)
    return ["top", "w.csv", "c0", "999", "1"]


def row_of_commas(is_worst):
    if not is_worst:
        return header_of_commas(False)
    write("w.csv", b"c0\n1\n" + b"," * (MOST_BYTES - 6) + b"\n")
    return ["top", "w.csv", "c0", "999", "1"]


def different_texts(is_worst):
    texts(MOST_ROWS - 2000, is_worst)
    return ["top", "w.csv", "c0", "9", "1"]


def different_texts_all_printed(is_worst):
    texts(MOST_ROWS - 2000, True)
    return ["top", "w.csv", "c0", "9", "1000000" if is_worst else "1"]


def distinct_columns(is_worst):
    """DISTINCT of 384 columns of texts, and without DISTINCT."""
    texts(MOST_ROWS // 4, True)
    columns = ", ".join("c%d" % (number % 64) for number in range(384))
    return script("run", table("w", 64, "TEXT") + P + "SELECT %s%s FROM w ORDER BY p(c0) LIMIT 1;\n" % ("DISTINCT " * is_worst, columns))


def distinct_columns_plainly(is_worst):
    return ["plain", *distinct_columns(is_worst)[1:2]]


def cursors(is_worst):
    """64 cursors over the greatest table, without an index, and with one."""
    rows_of("w", 1, MOST_ROWS, lambda row, column: draw(1000000))
    names = ["k%d" % number for number in range(64)]
    index = "CREATE RANK INDEX i ON w (p(c0));\n" * (not is_worst)
    return script("run", table("w", 1) + P + index + "".join("DECLARE %s CURSOR FOR SELECT c0 FROM w ORDER BY p(c0);\nFETCH 1 FROM %s;\n" % (name, name) for name in names))


def blind_join(is_worst):
    """Three tables joined by a column of a thousand values, of which the sample meets none, and of ten values and as many pairs."""
    rows = MOST_ROWS if is_worst else MOST_ROWS // 10
    for name in "abc":
        rows_of(name, 2, rows, lambda row, column: draw(1000000) if column else draw(1000 if is_worst else 10))
    return script("run", table("a", 2) + table("b", 2) + table("c", 2) + P
                  + "SELECT a.c0 FROM a, b, c WHERE a.c0 = b.c0 AND b.c0 = c.c0 ORDER BY p(a.c1) + p(b.c1) + p(c.c1) LIMIT 1;\n")


def pairs(word):
    """All pairs of a table of 4,000 rows, and those of one column that are equal."""
    def made(is_worst):
        rows_of("w", 2, 4000, lambda row, column: draw(1000000) if column else row)
        query = "SELECT x.c0 FROM w x, w y %sORDER BY near(x.c1, y.c1) LIMIT 1;\n" % ("" if is_worst else "WHERE x.c0 = y.c0 ")
        return script(word, table("w", 2) + P + "DECLARE k CURSOR FOR " * (word == "view") + query)

    return made


def weak_equality_first(is_worst):
    """A self-join by three equal columns, the one of fewest values first, and last."""
    values = (1000000, 6000, 7, 8)
    rows_of("w", 4, 53940, lambda row, column: draw(values[column]))
    equal = ["x.c%d = y.c%d" % (column, column) for column in ((2, 3, 1) if is_worst else (1, 2, 3))]
    return script("plain", table("w", 4) + P + "SELECT x.c0 FROM w x, w y WHERE %s AND x.c0 < y.c0 ORDER BY near(x.c0, y.c0) LIMIT 10;\n" % " AND ".join(equal))


def indexes_and_inserts(is_worst):
    """900 INSERTs of a row into a table with 64 indexes, and one INSERT of as many rows."""
    rows_of("w", 1, 130000, lambda row, column: draw(1000000))
    indexes = "".join("CREATE RANK INDEX i%d ON w (near(c0, %d));\n" % (number, number) for number in range(64))
    rows = ["(%d)" % draw(1000000) for _ in range(900)]
    inserts = "".join("INSERT INTO w VALUES %s;\n" % row for row in rows) if is_worst else "INSERT INTO w VALUES %s;\n" % ", ".join(rows)
    return script("run", table("w", 1) + P + indexes + inserts)


def views_and_inserts(limit):
    """900 INSERTs of a row into a table with 64 views of all rows, and with 64 views of ten rows."""
    def made(is_worst):
        rows_of("w", 1, 120000, lambda row, column: draw(1000000))
        views = "".join("DECLARE k%d CURSOR FOR SELECT c0 FROM w ORDER BY near(c0, %d) LIMIT %d;\n" % (number, number, limit if is_worst else 10) for number in range(64))
        return script("view", table("w", 1) + P + views + "".join("INSERT INTO w VALUES (%d);\n" % draw(1000000) for _ in range(900)))

    return made


def view_of_columns(is_worst):
    """A view of 384 columns of all rows, and of ten."""
    rows_of("w", 64, MOST_ROWS, lambda row, column: row % 10)
    return script("view", table("w", 64) + P + "DECLARE k CURSOR FOR SELECT %s FROM w ORDER BY p(c0) LIMIT %d;\n" % (
        ", ".join("c%d" % (number % 64) for number in range(384)), 1000000 if is_worst else 10))


def explains(is_worst):
    """As many EXPLAINs of six entries and eight terms as a script has room for, and of one entry."""
    rows_of("w", 1, 2, lambda row, column: row)
    names = "abcdef" if is_worst else "a"
    query = "EXPLAIN SELECT a.c0 FROM %s%s ORDER BY %s;\n" % (", ".join("w " + name for name in names), " WHERE " * is_worst + " AND ".join(
        "%s.c0 = %s.c0" % pair for pair in zip(names, names[1:])), " + ".join("p(%s.c0)" % names[number % len(names)] for number in range(8)))
    return script("run", table("w", 1) + P + "CREATE RANK INDEX i ON w (p(c0));\n" + query * 800)


def scans(is_worst):
    """A threshold scan of eight indexes, of which each has its best rows where the others have their worst, and of alike ones."""
    rows_of("w", 8, MOST_ROWS, lambda row, column: draw(10000) if is_worst else row % 10000)
    indexes = "".join("CREATE RANK INDEX i%d ON w (p(c%d));\n" % (number, number) for number in range(8))
    return script("ta", table("w", 8) + P + indexes + "SELECT c0 FROM w ORDER BY %s LIMIT 10;\n" % " + ".join("p(c%d)" % number for number in range(8)))


def feeds(word, rows):
    """Feeds of which all rows have one key, and of which each has its own."""
    def made(is_worst):
        for side in ("left", "right"):
            write(side + ".csv", "key,score\n" + "".join("%s,%d\n" % (1 if is_worst else row, 1000000 - row) for row in range(rows)))
        return [word, "left.csv", "right.csv", "1000000"]

    return made


def feed_of_commas(word):
    def made(is_worst):
        write("w.csv", b"key,score\n" + (b"," * (MOST_BYTES - 11) + b"\n" if is_worst else b"1,1\n" * (MOST_BYTES // 4 - 8)))
        write("right.csv", "key,score\n1,1\n")
        return [word, "w.csv"] + ["right.csv", "1"] * (word != "check")

    return made


def generated(is_worst):
    return ["gen", "7" if is_worst else "1", "2000"]


INPUTS = {
    "top: a header of commas": header_of_commas, "top: a row of commas": row_of_commas, "top: different texts of 3 bytes": different_texts,
    "top: the same, all rows printed": different_texts_all_printed, "run: DISTINCT of 384 columns": distinct_columns,
    "plain: DISTINCT of 384 columns": distinct_columns_plainly, "run: 64 cursors": cursors, "run: a join that the sample doesn't meet": blind_join,
    "run: all pairs": pairs("run"), "plain: all pairs": pairs("plain"), "view: all pairs": pairs("view"), "plain: a weak equality first": weak_equality_first,
    "run: 64 indexes, 900 INSERTs": indexes_and_inserts, "view: 64 views of all rows, 900 INSERTs": views_and_inserts(1000000),
    "view: 384 columns": view_of_columns, "run: 800 EXPLAINs": explains, "ta: 8 indexes": scans, "feed: one key": feeds("feed", MOST_ROWS),
    "cert: one key": feeds("cert", 8192), "feed: a row of commas": feed_of_commas("feed"), "check: a row of commas": feed_of_commas("check"), "gen: 7 2000": generated,
}
ROW = "%-42s %8s %9s %9s %9s %9s %7s %7s"
print(ROW % ("input", "status", "seconds", "MB", "ordinary", "MB", "ratio", "of MB"), flush=True)
if any(not any(word in name for name in INPUTS) for word in wanted):
    sys.exit("bench: the inputs are " + "; ".join(INPUTS))
for name, make in INPUTS.items():
    if wanted and not any(word in name for word in wanted):
        continue
    ended, worst, held = measured(make(True))
    other, ordinary, least = measured(make(False))
    print(ROW % (name, ended, "%.2f" % worst, "%.1f" % held, "%.2f" % ordinary + ("" if other == "0" else " (%s)" % other), "%.1f" % least,
                 "%.1f" % (worst / max(ordinary, 0.001)), "%.1f" % (held / least)), flush=True)
PYTHON
