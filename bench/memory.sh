#!/usr/bin/env bash
# Measures the memory of one table of the greatest size by kind of column: numbers, texts of which few are different, and texts that
# are all different. Each file has as many columns as its limit allows, at most 64. The program holds a file while it reads the
# table from it, so its memory is told beside the bytes of the file: the most that the program held, and what that is more than the
# file, the program itself included. A list that has to grow is for a moment there twice, which counts here too. Beside it, in the
# same run: sqlite3 that imports the same file into a table in memory.
# The program is the one that ./ranksql builds, or the one that the variable RANKSQL names.
# shellcheck source=bench/functions.sh
. "$(dirname "$0")/functions.sh"

ROWS=131072

needs python3 'it makes the tables'
needs sqlite3 'it is what the memory is beside'
find_program

python3 - "$program" "$work" "$ROWS" <<'PYTHON'
import os
import subprocess
import sys
import time

program, folder, rows = sys.argv[1], sys.argv[2], int(sys.argv[3])
LIMIT = 33_554_432
CHARS = "ABCDEFGHIJKLMNOPQRSTUVWXYZabcdefghijklmnopqrstuvwxyz0123456789-+"


def two_digits(row, column):
    return str(10 + (row * 7 + column) % 90)


def one_of_few(row, column):
    return CHARS[(row + column) % 26] + CHARS[(row * 3 + column) % 26]


def all_different(row, column):
    return CHARS[row // 4096] + CHARS[row // 64 % 64] + CHARS[row % 64]


KINDS = [
    ("numbers", "INT", 64, two_digits),
    ("few different texts", "TEXT", 64, one_of_few),
    ("all different texts", "TEXT", 63, all_different),
]


def held_by(words, text=None):
    """The seconds of a run and the most memory that it held in bytes."""
    start = time.perf_counter()
    ended = subprocess.Popen(words, stdin=subprocess.PIPE, stdout=subprocess.DEVNULL, stderr=subprocess.PIPE)
    ended.stdin.write((text or "").encode())
    ended.stdin.close()
    told = ended.stderr.read().decode(errors="replace")
    _, status, usage = os.wait4(ended.pid, 0)
    if status != 0:
        sys.exit("bench: %s ended with %d: %s" % (words[0], status, told))
    return time.perf_counter() - start, usage.ru_maxrss * 1024


def script_of(name, text):
    path = "%s/%s.sql" % (folder, name)
    with open(path, "w") as file:
        file.write(text)
    return path


print("%-20s %8s %10s %10s %10s %8s %10s" % ("columns", "number", "file MB", "held MB", "more MB", "seconds", "sqlite MB"))
for number, (kind, sql, columns, cell) in enumerate(KINDS):
    path = "%s/%d.csv" % (folder, number)
    names = ["c%d" % column for column in range(columns)]
    with open(path, "w") as file:
        file.write(",".join(names) + "\n")
        file.writelines(",".join(cell(row, column) for column in range(columns)) + "\n" for row in range(rows))
    size = os.path.getsize(path)
    if size > LIMIT:
        sys.exit("bench: %s has %d bytes" % (path, size))
    listed = ", ".join("%s %s" % (name, sql) for name in names)
    taken, held = held_by([program, "run", script_of(str(number), "CREATE TABLE t (%s) FROM '%s';\n" % (listed, path)), "1"])
    _, theirs = held_by(["sqlite3", "-batch", ":memory:"], "CREATE TABLE t (%s);\n.import --csv --skip 1 %s t\n" % (listed.replace("INT", "INTEGER"), path))
    print("%-20s %8d %10.1f %10.1f %10.1f %8.2f %10.1f" % (kind, columns, size / 1e6, held / 1e6, (held - size) / 1e6, taken, theirs / 1e6))
PYTHON
