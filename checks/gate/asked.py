#!/usr/bin/env python3
"""Tries the built ranksql_ask as a user would: over two pipes, with answers of every kind. Expected rows come from `ranksql
plain` over the same script whose formulas are the true scores. It prints a line for each case, and ends with 1 where one fails.

The programs are crates/ranksql_ask/out/ranksql_ask and crates/ranksql/out/ranksql, or those that the variables RANKSQL_ASK and
RANKSQL name.
"""

import collections
import csv
import os
import pathlib
import subprocess
import sys
import tempfile
import threading
import time

import asked_outside
from asked_runs import (ASK, PLAIN, ROOT, ROWS, TRUE, Answerer, Last, check, failures, fresh, run, true_score,
    usage, wanted_rows, with_true)

# An index that is asked for, and rows that join it. The last one has the arguments of a row of the file.
GROWING = """CREATE TABLE t (n INT, name TEXT, v INT) FROM 't.csv';
CREATE PREDICATE cheap (v INT) MAX 100 AS v;
CREATE PREDICATE near (n INT, name TEXT) MAX 60 COST 1000 AS {formula};
{index}
DECLARE k CURSOR FOR SELECT n, name FROM t ORDER BY cheap(v) + near(n, name);
FETCH 3 FROM k;
INSERT INTO t VALUES (23, 'a "new" one', 99), (61, 'it''s, new', 7), (23, 'row 23', 98);
FETCH 3 FROM k;
SELECT n, name FROM t ORDER BY 2 * cheap(v) + near(n, name) LIMIT 5;
"""

GUESSES = {"the truth": TRUE, "nothing": "0", "the most": "60", "the opposite": "MIN(60, ABS(n - 23))", "too much": "1000 - n"}


def try_guesses(folder, wanted):
    for name, formula in GUESSES.items():
        for words in (["plain", "s.sql"], ["run", "s.sql", "1"], ["run", "s.sql", "7"]):
            fresh(folder, formula)
            status, out, err, questions = run(folder, words, with_true)
            check(f"the guess is {name}: {' '.join(words)}", (status, out) == (0, wanted), (status, out, err))
            check("        no question is asked twice", len(set(questions)) == len(questions))
            check("        each question is kept", len(questions) == len((folder / "scores.csv").read_text().splitlines()))
            check("        the counts", f"questions={len(questions)} known=0\n" in err, err)


def try_growing(folder):
    """Rows that join a table. At an index that is asked for each new row is a question, index rows first, in the order of the rows."""
    new = [("near", "23", 'a "new" one'), ("near", "61", "it's, new")]
    rows = [("near", str(n), name) for n, name, _ in ROWS]
    for index, of in (("CREATE RANK INDEX by_near ON t (near(n, name));", "near"), ("CREATE RANK INDEX by_v ON t (cheap(v));", "cheap"), ("", "none")):
        wanted = wanted_rows(folder, GROWING, index)
        for name, formula in GUESSES.items():
            for words in (["plain", "s.sql"], ["run", "s.sql", "1"], ["run", "s.sql", "7"]):
                fresh(folder, formula, GROWING, index)
                status, out, err, questions = run(folder, words, with_true)
                check(f"rows that join, an index of {of}, the guess is {name}: {' '.join(words)}", (status, out) == (0, wanted), (status, out, err))
                check("        no question is asked twice", len(set(questions)) == len(questions))
                if of == "near" or words[0] == "plain":
                    check("        the questions", questions == rows + new, questions)
        fresh(folder, "0", GROWING, index)
        first = run(folder, ["run", "s.sql", "1"], with_true)
        again = run(folder, ["run", "s.sql", "1"], with_true)
        check("        a second start asks for nothing", first[:2] == again[:2] and again[3] == [], again)
    fresh(folder, "0", GROWING, "CREATE RANK INDEX by_near ON t (near(n, name));")
    got = run(folder, ["run", "s.sql", "1"], lambda record: b"61\n" if record[1] == "61" else with_true(record))
    check("a bad score of a row that joins", got[0] == 7 and got[2].startswith("score: 61 is not in 0..60: near,61,\"it's, new\"\n"), got)


def try_missing(folder, wanted):
    fresh(folder, "0")
    run(folder, ["run", "s.sql", "1"], with_true)
    with open(folder / "scores.csv", newline="", encoding="utf-8") as source:
        records = list(csv.reader(source))
    for place, missing in enumerate(records):
        with open(folder / "scores.csv", "w", newline="", encoding="utf-8") as sink:
            csv.writer(sink, lineterminator="\n").writerows(records[:place] + records[place + 1:])
        status, out, err, questions = run(folder, ["run", "s.sql", "1"], with_true)
        check(f"score {place} is missing", (status, out, questions) == (0, wanted, [tuple(missing[:-1])]), (status, out, err, questions))


def try_answers(folder, wanted):
    def nth(number, piece):
        count = [0]

        def answer(record):
            count[0] += 1
            return piece if count[0] == number else with_true(record)
        return answer

    for name, piece, status, line in [
        ("the answers end", Last(b""), 8, "probe: near: closed\n"),
        ("the last answer isn't ended", Last(b"17"), 8, "probe: near: closed\n"),
        ("an empty answer", b"\n", 8, 'probe: near: "" is no whole number\n'),
        ("no number", b"seven\n", 8, 'probe: near: "seven" is no whole number\n'),
        ("a number with a fraction", b"50.0\n", 8, 'probe: near: "50.0" is no whole number\n'),
        ("a blank before a number", b" 7\n", 8, 'probe: near: " 7" is no whole number\n'),
        ("a line that is too long", b"0" * 65 + b"\n", 8, "probe: near: more than 64 bytes\n"),
        ("a score above the greatest", b"61\n", 7, "score: 61 is not in 0..60: {question}"),
        ("a score below 0", b"-1\n", 7, "score: -1 is not in 0..60: {question}"),
    ]:
        for words in (["plain", "s.sql"], ["run", "s.sql", "1"]):
            fresh(folder, "0")
            got = run(folder, words, nth(3, piece))
            told = line.format(question=asked_outside.record_of(got[3][-1]))
            check(f"{name}: {words[0]}", got[0] == status and got[2].startswith(told) and len(got[3]) == 3, (got, told))
            check("        the answers so far are kept, and this one isn't", len((folder / "scores.csv").read_text().splitlines()) == 2)
            again = run(folder, words, with_true)
            check("        and the next start asks for it first", again[:2] == (0, wanted) and again[3][0] == got[3][-1], again)
    for name, form in [
        ("CR LF", lambda n: f"{n}\r\n".encode()),
        ("a sign", lambda n: f"+{n}\n".encode()),
        ("leading zeros", lambda n: f"00{n}\n".encode()),
        ("blanks behind them", lambda n: f"{n} \t\n".encode()),
        ("blanks and CR LF behind them", lambda n: f"{n} \r\n".encode()),
        ("two writes", lambda n: [f"{n}"[:1].encode(), f"{n}"[1:].encode() + b"\n"]),
    ]:
        fresh(folder, "0")
        got = run(folder, ["run", "s.sql", "1"], lambda record, form=form: form(true_score(int(record[1]))))
        check(f"answers with {name}", got[:2] == (0, wanted), got)

    def late(record):
        time.sleep(0.02)
        return with_true(record)

    fresh(folder, "0")
    got = run(folder, ["run", "s.sql", "1"], late)
    check("answers that come late", got[:2] == (0, wanted), got)


def try_crashes(folder, wanted):
    """The program is killed while a question waits for its answer, again and again. No start asks what was answered before."""
    fresh(folder, "0")
    seen = []
    for place in range(200):
        waits = threading.Event()

        def answer(record):
            seen.append(tuple(record))
            if len(seen) % 3 == 0:
                waits.set()
                return Last(b"")
            return with_true(record)

        asked_here, asked_there = os.pipe()
        told_there, told_here = os.pipe()
        answerer = Answerer(answer)
        # The pipes are kept open here, so that it waits and doesn't see their ends.
        keep = os.dup(told_here)
        thread = threading.Thread(target=answerer.serve, args=(asked_here, told_here))
        process = subprocess.Popen(
            [ASK, "near", "scores.csv", f"/dev/fd/{asked_there}", f"/dev/fd/{told_there}", "run", "s.sql", "1"],
            cwd=folder, pass_fds=(asked_there, told_there), stdout=subprocess.PIPE, stderr=subprocess.DEVNULL)
        os.close(asked_there)
        os.close(told_there)
        thread.start()
        while process.poll() is None and not waits.is_set():
            time.sleep(0.002)
        crashed = waits.is_set()
        if crashed:
            process.kill()
        out = process.communicate(timeout=100)[0].decode()
        thread.join()
        os.close(keep)
        if not crashed:
            break
        if not wanted.startswith(out):
            check(f"crash {place}: the rows begin those of a whole run", False, out)
            return
    asked = collections.Counter(seen)
    kept = (folder / "scores.csv").read_text().splitlines()
    check(f"{place} crashes between a question and its answer", place > 2 and (process.returncode, out) == (0, wanted), (process.returncode, out))
    check("        what was answered is asked no more", len(seen) - place == len(asked) == len(kept), (len(seen), place, len(asked), len(kept)))


def try_example():
    """The example over its films: the rows are those of `plain` over a script whose formula is the service's number."""
    with tempfile.TemporaryDirectory() as name:
        scores = pathlib.Path(name) / "scores.csv"
        words = [sys.executable, "examples/asked/ask.py", ASK, str(scores)]
        first = subprocess.run(words, cwd=ROOT, env={**os.environ, "DELAY": "0"}, capture_output=True, text=True, timeout=600)
        lines = first.stdout.splitlines()
        paid = len(scores.read_text().splitlines())
        check("the example", first.returncode == 0 and len(lines) == 11 and lines[-1].startswith(f"status 0: {paid} answers for "), first)
        check("        its first row comes before the last answer", int(lines[0].split()[0]) < paid, lines)
        budget = subprocess.run(words[:3] + [str(pathlib.Path(name) / "few.csv")], cwd=ROOT, env={**os.environ, "DELAY": "0", "BUDGET": "5"},
            capture_output=True, text=True, timeout=600)
        check("        it stops at a budget", budget.returncode == 0 and "status 8: 5 answers for " in budget.stdout, budget)
        again = subprocess.run(words, cwd=ROOT, env={**os.environ, "DELAY": "0"}, capture_output=True, text=True, timeout=600)
        check("        and a second start pays for nothing", [line.split("answers", 1)[1] for line in again.stdout.splitlines()[:-1]]
            == [line.split("answers", 1)[1] for line in lines[:-1]] and "status 0: 0 answers for " in again.stdout, again)


def try_files(folder):
    fresh(folder, "0")
    for name, text, line in [
        ("a file that is cut off", b"near,1,row 1,7", "scores: scores.csv: NotEnded\n"),
        ("a record of another form", b"near,7\n", "scores: scores.csv: FieldCount record 1 found 2\n"),
        ("a predicate that isn't asked for", b"cheap,7,1\n", "scores: scores.csv: NotAsked record 1\n"),
        ("a field that isn't UTF-8", b"near,1,\xff,1\n", "scores: scores.csv: NotUtf8 record 1 field 3\n"),
        ("no score", b"near,1,row 1,x\n", "scores: scores.csv: NotScore record 1\n"),
        ("a second score", b"near,1,a,1\nnear,1,a,2\n", "scores: scores.csv: Twice record 2\n"),
    ]:
        (folder / "scores.csv").write_bytes(text)
        got = run(folder, ["run", "s.sql", "1"], with_true)
        check(name, got == (6, "", line, []), got)
    (folder / "scores.csv").unlink()
    got = run(folder, [], with_true)
    check("too few words", got == (2, "", usage(), []), got)
    for words in (["run", "s.sql"], ["run", "s.sql", "x"], ["plain"], ["gen", "1", "2"]):
        got = run(folder, words, with_true)
        check(" ".join(words), got == (2, "", usage(), []), got)
    got = run(folder, ["run", "missing.sql", "1"], with_true)
    check("no script", got[0] == 3 and got[1] == "", got)


def main():
    with tempfile.TemporaryDirectory() as name:
        folder = pathlib.Path(name)
        wanted = wanted_rows(folder)
        try_guesses(folder, wanted)
        try_missing(folder, wanted)
        try_growing(folder)
        try_answers(folder, wanted)
        try_crashes(folder, wanted)
        try_files(folder)
        asked_outside.try_all(folder, wanted)
    try_example()
    return 1 if failures else 0


if __name__ == "__main__":
    sys.exit(main())
