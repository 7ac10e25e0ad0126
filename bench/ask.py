"""What bench/ask.sh measures: ranksql_ask, and the recipe over ranksql alone."""

import csv
import os
import pathlib
import random
import subprocess
import sys
import tempfile
import threading
import time

LIMIT = 10
MAX = 100


def table(rows, ties):
    """Rows of a number, a cheap score and a dear one. With ties the cheap score says little."""
    source = random.Random(rows)
    return [(n, source.randrange(10 if ties else 1000), source.randrange(MAX + 1)) for n in range(1, rows + 1)]


def write(path, header, rows):
    with open(path, "w", newline="") as sink:
        writer = csv.writer(sink, lineterminator="\n")
        writer.writerow(header)
        writer.writerows(rows)


def asked(program, folder, rows):
    """Questions, runs, seconds to the first row and in all."""
    (folder / "asked.sql").write_text(
        "CREATE TABLE t (n INT, v INT) FROM 't.csv';\n"
        "CREATE PREDICATE cheap (v INT) MAX 999 AS v;\n"
        f"CREATE PREDICATE dear (n INT) MAX {MAX} COST 50000 AS n * 37 - n * 37 / {MAX + 1} * {MAX + 1};\n"
        "CREATE RANK INDEX by_v ON t (cheap(v));\n"
        f"SELECT n FROM t ORDER BY cheap(v) + dear(n) LIMIT {LIMIT};\n")
    write(folder / "t.csv", ["n", "v"], [(n, v) for n, v, _ in rows])
    scores = {n: dear for n, _, dear in rows}
    (folder / "scores.csv").unlink(missing_ok=True)
    asked_here, asked_there = os.pipe()
    told_there, told_here = os.pipe()
    count = [0]

    def answer():
        with os.fdopen(asked_here, newline="") as source, os.fdopen(told_here, "w") as sink:
            for record in csv.reader(source):
                count[0] += 1
                sink.write(f"{scores[int(record[1])]}\n")
                sink.flush()

    began = time.monotonic()
    process = subprocess.Popen([program, "dear", "scores.csv", f"/dev/fd/{asked_there}", f"/dev/fd/{told_there}", "run", "asked.sql", "1"],
                               cwd=folder, pass_fds=(asked_there, told_there), stdout=subprocess.PIPE, stderr=subprocess.DEVNULL)
    os.close(asked_there)
    os.close(told_there)
    thread = threading.Thread(target=answer)
    thread.start()
    process.stdout.readline()
    first = time.monotonic() - began
    process.stdout.read()
    process.wait()
    thread.join()
    return count[0], count[0] + 1, first, time.monotonic() - began


def recipe(program, folder, rows):
    """The same of the recipe. Its first row is known when all are."""
    (folder / "recipe.sql").write_text(
        "CREATE TABLE t (n INT, v INT, d INT) FROM 'r.csv';\n"
        "CREATE PREDICATE cheap (v INT) MAX 999 AS v;\n"
        f"CREATE PREDICATE dear (d INT) MAX {MAX} AS d;\n"
        f"SELECT n FROM t ORDER BY cheap(v) + dear(d) LIMIT {LIMIT};\n")
    known = {}
    scores = {n: dear for n, _, dear in rows}
    began = time.monotonic()
    runs = 0
    while True:
        write(folder / "r.csv", ["n", "v", "d"], [(n, v, known.get(n, MAX)) for n, v, _ in rows])
        done = subprocess.run([program, "plain", "recipe.sql"], cwd=folder, capture_output=True, check=True)
        runs += 1
        best = [int(line.split(b",")[2]) for line in done.stdout.splitlines()]
        unknown = [n for n in best if n not in known]
        if not unknown:
            seconds = time.monotonic() - began
            return len(known), runs, seconds, seconds
        for n in unknown:
            known[n] = scores[n]


def main():
    root = pathlib.Path(sys.argv[1])
    sizes = [int(size) for size in sys.argv[2:]] or [1000, 10000, 43645]
    ask = os.environ.get("RANKSQL_ASK", str(root / "crates/ranksql_ask/out/ranksql_ask"))
    plain = os.environ.get("RANKSQL", str(root / "crates/ranksql/out/ranksql"))
    print("rows", "ties", "who", "questions", "runs", "first_s", "all_s", sep="\t")
    with tempfile.TemporaryDirectory() as name:
        folder = pathlib.Path(name)
        for size in sizes:
            for ties in (False, True):
                rows = table(size, ties)
                for who, result in (("ranksql_ask", asked(ask, folder, rows)), ("recipe", recipe(plain, folder, rows))):
                    print(size, "many" if ties else "few", who, *result[:2], *(f"{seconds:.2f}" for seconds in result[2:]), sep="\t", flush=True)


if __name__ == "__main__":
    main()
