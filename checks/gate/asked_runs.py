"""What checks/gate/asked.py and checks/gate/asked_outside.py share: a script, its rows, and runs of the built ranksql_ask with an
answering process of their own. Expected rows come from `ranksql plain` over the same script whose formulas are the true scores.

The programs are crates/ranksql_ask/out/ranksql_ask and crates/ranksql/out/ranksql, or those that the variables RANKSQL_ASK and
RANKSQL name.
"""

import csv
import os
import pathlib
import subprocess
import threading

ROOT = pathlib.Path(__file__).resolve().parent.parent.parent
ASK = os.environ.get("RANKSQL_ASK", str(ROOT / "crates/ranksql_ask/out/ranksql_ask"))
PLAIN = os.environ.get("RANKSQL", str(ROOT / "crates/ranksql/out/ranksql"))

ROWS = [(n, f"row {n}" if n % 3 else f'a "{n}", b', (n * 37) % 101) for n in range(1, 61)]

SCRIPT = """CREATE TABLE t (n INT, name TEXT, v INT) FROM 't.csv';
CREATE PREDICATE cheap (v INT) MAX 100 AS v;
CREATE PREDICATE near (n INT, name TEXT) MAX 60 COST 1000 AS {formula};
CREATE RANK INDEX by_v ON t (cheap(v));
SELECT n, name FROM t ORDER BY 2 * cheap(v) + near(n, name) LIMIT 5;
"""

TRUE = "MAX(0, 60 - ABS(n - 23))"

failures = []


def usage():
    """The usage line, as the program itself says it when it is called without words."""
    return subprocess.run([ASK], stdin=subprocess.DEVNULL, capture_output=True, text=True, check=False).stderr


def check(name, holds, said=""):
    print(f"{'ok     ' if holds else 'FAILED '} {name}")
    if not holds:
        failures.append(name)
        print(f"        {said}")


def true_score(n):
    return max(0, 60 - abs(n - 23))


class Last(bytes):
    """What is written before the pipe is closed."""


class Answerer:
    """Answers questions over two pipes. `answer` gives what is written for a question: one piece or several."""

    def __init__(self, answer):
        self.answer = answer
        self.questions = []

    def serve(self, source_fd, sink_fd):
        with os.fdopen(source_fd, newline="", encoding="utf-8") as source, os.fdopen(sink_fd, "wb", buffering=0) as sink:
            for record in csv.reader(source):
                self.questions.append(tuple(record))
                pieces = self.answer(record)
                try:
                    for piece in pieces if isinstance(pieces, list) else [pieces]:
                        sink.write(piece)
                except BrokenPipeError:
                    return
                if isinstance(pieces, Last):
                    return


def run(folder, words, answer, names="near"):
    """The status, the output, the error and the questions of a run."""
    asked_here, asked_there = os.pipe()
    told_there, told_here = os.pipe()
    answerer = Answerer(answer)
    thread = threading.Thread(target=answerer.serve, args=(asked_here, told_here))
    process = subprocess.Popen(
        [ASK, names, "scores.csv", f"/dev/fd/{asked_there}", f"/dev/fd/{told_there}", *words],
        cwd=folder, pass_fds=(asked_there, told_there), stdout=subprocess.PIPE, stderr=subprocess.PIPE)
    os.close(asked_there)
    os.close(told_there)
    thread.start()
    out, err = process.communicate(timeout=100)
    thread.join()
    return process.returncode, out.decode(), err.decode(), answerer.questions


def with_true(record):
    return f"{true_score(int(record[1]))}\n".encode()


def fresh(folder, formula, script=SCRIPT, index=""):
    (folder / "scores.csv").unlink(missing_ok=True)
    (folder / "s.sql").write_text(script.format(formula=formula, index=index))
    with open(folder / "t.csv", "w", newline="", encoding="utf-8") as table:
        writer = csv.writer(table, lineterminator="\n")
        writer.writerow(["n", "name", "v"])
        writer.writerows(ROWS)


def wanted_rows(folder, *script):
    fresh(folder, TRUE, *script)
    done = subprocess.run([PLAIN, "plain", "s.sql"], cwd=folder, capture_output=True, check=True, timeout=60)
    return done.stdout.decode()
