"""What checks/gate/asked.py tries of files, pipes and processes: closed descriptors, one file for two words, two starts at once, disks
that are full, files that can't be written to, programs that are killed, FIFOs, and files of known scores of every kind. Questions are
counted by who answers them.
"""

import csv
import os
import resource
import subprocess
import threading
import time

from asked_runs import ASK, PLAIN, Answerer, check, fresh, run, true_score, usage, with_true

PLAIN_WORDS = ["plain", "s.sql"]
RUN_WORDS = ["run", "s.sql", "1"]


class Asking:
    """A program that was started, and who answers it, over two pipes."""

    def __init__(self, folder, answer=with_true, scores="scores.csv", names="near", words=RUN_WORDS, questions=None, shell=None, answerer=None, **options):
        asked_here, asked_there = os.pipe()
        told_there, told_here = os.pipe()
        self.answerer = answerer or Answerer(answer)
        self.thread = threading.Thread(target=self.answerer.serve, args=(asked_here, told_here))
        command = [ASK, names, scores, questions or f"/dev/fd/{asked_there}", f"/dev/fd/{told_there}", *words]
        if shell:
            command = ["bash", "-c", f'exec "$@" {shell}', "bash", *command]
        options = {"stdout": subprocess.PIPE, "stderr": subprocess.PIPE, **options}
        self.process = subprocess.Popen(command, cwd=folder, pass_fds=(asked_there, told_there), **options)
        os.close(asked_there)
        os.close(told_there)
        self.thread.start()

    def end(self):
        """The status, the output, the error and the questions."""
        out, err = self.process.communicate(timeout=100)
        self.thread.join()
        return self.process.returncode, (out or b"").decode(), (err or b"").decode(), self.answerer.questions


def ask(folder, **how):
    return Asking(folder, **how).end()


def kept_in(folder):
    """The questions and the scores of a file, and whether each score is the true one."""
    with open(folder / "scores.csv", newline="", encoding="utf-8") as source:
        records = [tuple(record) for record in csv.reader(source)]
    return records, all(len(r) == 4 and r[0] == "near" and int(r[3]) == true_score(int(r[1])) for r in records)


def try_names(folder, wanted):
    for names, name in [("nears", "nears"), ("near,cheap,far", "far"), ("NEAR", "NEAR"), ("far,nears", "far")]:
        fresh(folder, "0")
        got = ask(folder, names=names)
        check(f"no predicate of a name of {names}", got == (5, "", f"ask: no predicate {name}\n", []), got)
        check("        no file of scores is made", not (folder / "scores.csv").exists())
    for names in ("", "near,", ",near", "near, cheap", " near", "near ", "near,near"):
        fresh(folder, "0")
        got = ask(folder, names=names)
        check(f"no names: '{names}'", got == (2, "", usage(), []), got)
    fresh(folder, "0", "CREATE TABLE t (n INT, name TEXT, v INT) FROM 't.csv';\n")
    got = ask(folder, words=PLAIN_WORDS, names="nears")
    check("a script that makes no predicate", got == (5, "", "ask: no predicate nears\n", []), got)
    fresh(folder, "0", "CREATE PREDICATE near (n INT) MAX 60 AS 1; SELEC")
    got = ask(folder, words=PLAIN_WORDS, names="nears")
    check("a script that can't be parsed tells so, whatever the names are", got[0] == 5 and got[2].startswith("script: "), got)
    got = ask(folder, words=["plain", "missing.sql"], names="nears")
    check("a script that isn't there tells so", got[0] == 3 and got[2].startswith("read: missing.sql: missing\n"), got)
    fresh(folder, "0")
    os.mkfifo(folder / "script.fifo")
    writer = threading.Thread(target=lambda: (folder / "script.fifo").write_text((folder / "s.sql").read_text()))
    writer.start()
    got = ask(folder, words=["run", "script.fifo", "1"])
    writer.join()
    check("a script that can be read once", got[:2] == (0, wanted), got)
    (folder / "script.fifo").unlink()


def try_closed(folder, wanted):
    for shell, status in [("<&-", 0), (">&-", 4), ("2>&-", 0), ("<&- >&-", 4), ("<&- 2>&-", 0), (">&- 2>&-", 4), ("<&- >&- 2>&-", 4)]:
        fresh(folder, "0")
        got = ask(folder, shell=shell)
        records, true = kept_in(folder)
        check(f"closed at the start: {shell}", got[0] == status and got[1] == ("" if ">&-" in shell.replace("2>&-", "") else wanted), got)
        check("        each question is one, and each score is its answer", true and {r[:3] for r in records} == set(got[3]) and all(
            len(q) == 3 and q[0] == "near" for q in got[3]), (records, got))
        check("        standard error", "2>&-" in shell or got[2].endswith("write\n" if status else f"questions={len(got[3])} known=0\n"), got)
    for shell, status in [("<&-", 0), (">&-", 4), ("<&- >&-", 4), ("<&- >&- 2>&-", 4)]:
        fresh(folder, "n")
        done = subprocess.run(["bash", "-c", f'exec "$@" {shell}', "bash", PLAIN, "plain", "s.sql"], cwd=folder, capture_output=True, timeout=60, check=False)
        check(f"ranksql, closed at the start: {shell}", done.returncode == status and (status == 0) == (done.stdout != b""), done)


def try_one_file(folder, wanted):
    fresh(folder, "0")
    (folder / "empty").write_bytes(b"")
    os.mkfifo(folder / "one.fifo")

    def refused(name, line, words, **options):
        (folder / "empty").write_bytes(b"")
        done = subprocess.run([ASK, "near", *words, *RUN_WORDS], cwd=folder, timeout=60, check=False,
            **{"stdout": subprocess.PIPE, "stderr": subprocess.PIPE, **options})
        told = (folder / "empty").read_bytes() if "stderr" in options else done.stderr
        check(name, done.returncode == 4 and told == line.encode() and not done.stdout, (done, told))
        check("        nothing else is written", "stderr" in options or (folder / "empty").read_bytes() == b"", (folder / "empty").read_bytes())

    for name in ("/dev/stdout", "/proc/self/fd/1", "/dev/fd/1"):
        refused(f"QUESTIONS is standard output, a pipe: {name}", "ask: QUESTIONS is standard output\n", ["scores.csv", name, "empty"])
        with open(folder / "empty", "ab") as sink:
            refused(f"QUESTIONS is standard output, a file: {name}", "ask: QUESTIONS is standard output\n", ["scores.csv", name, "t.csv"], stdout=sink)
    with open(folder / "empty", "ab") as sink:
        refused("QUESTIONS is the file of standard output", "ask: QUESTIONS is standard output\n", ["scores.csv", "empty", "t.csv"], stdout=sink)
        refused("SCORES is the file of standard output", "ask: SCORES is standard output\n", ["empty", "/dev/null", "t.csv"], stdout=sink)
        refused("SCORES is the file of standard error", "ask: SCORES is standard error\n", ["empty", "/dev/null", "t.csv"], stderr=sink)
    os.link(folder / "empty", folder / "linked")
    refused("QUESTIONS and SCORES are one file", "ask: QUESTIONS and SCORES are one file\n", ["empty", "empty", "t.csv"])
    refused("QUESTIONS and SCORES are one file by two names", "ask: QUESTIONS and SCORES are one file\n", ["empty", "./linked", "t.csv"])
    refused("ANSWERS and SCORES are one file", "ask: ANSWERS and SCORES are one file\n", ["empty", "/dev/null", "empty"])
    refused("ANSWERS and QUESTIONS are one file", "ask: ANSWERS and QUESTIONS are one file\n", ["scores.csv", "empty", "empty"])
    refused("ANSWERS and QUESTIONS are one FIFO", "ask: ANSWERS and QUESTIONS are one file\n", ["scores.csv", "one.fifo", "one.fifo"])
    (folder / "linked").unlink()
    (folder / "one.fifo").unlink()
    answers = folder / "answers.txt"
    fresh(folder, "0")
    first = run(folder, PLAIN_WORDS, with_true)
    answers.write_text("".join(f"{true_score(int(q[1]))}\n" for q in first[3]))
    done = subprocess.run([ASK, "near", "/dev/null", "/dev/null", "answers.txt", *PLAIN_WORDS], cwd=folder, capture_output=True, timeout=60, check=False)
    check("SCORES and QUESTIONS are /dev/null", (done.returncode, done.stdout.decode()) == (0, wanted), done)
    done = subprocess.run([ASK, "near", "/dev/null", "/dev/null", "answers.txt", *PLAIN_WORDS], cwd=folder, stdout=subprocess.DEVNULL, stderr=subprocess.PIPE, timeout=60, check=False)
    check("        and standard output too", done.returncode == 0, done)
    done = subprocess.run([ASK, "near", "scores.csv", "/dev/null", "none.txt", *PLAIN_WORDS], cwd=folder, capture_output=True, timeout=60, check=False)
    check("ANSWERS that isn't there", (done.returncode, done.stderr) == (3, b"read: none.txt: missing\n"), done)


def waiting(folder, **how):
    """A program that waits for its first answer, and what lets it go on."""
    asked, go_on = threading.Event(), threading.Event()

    def answer(record):
        asked.set()
        go_on.wait(60)
        return with_true(record)

    started = Asking(folder, answer=answer, **how)
    asked.wait(60)
    return started, go_on


def try_two_starts(folder, wanted):
    fresh(folder, "0")
    first, go_on = waiting(folder)
    got = ask(folder)
    check("a second start with one SCORES", got == (6, "", "scores: scores.csv: InUse\n", []), got)
    os.symlink("scores.csv", folder / "other.csv")
    got = ask(folder, scores="other.csv")
    check("        by another name", got == (6, "", "scores: other.csv: InUse\n", []), got)
    (folder / "other.csv").unlink()
    go_on.set()
    got = first.end()
    check("        the first one goes on", got[:2] == (0, wanted), got)
    got = ask(folder)
    check("        and then a start asks for nothing", (got[0], got[1], got[3]) == (0, wanted, []), got)
    fresh(folder, "0")
    first, go_on = waiting(folder)
    first.process.kill()
    go_on.set()
    first.end()
    got = ask(folder)
    check("a killed program leaves no lock", got[:2] == (0, wanted), got)
    fresh(folder, "0")
    first, go_on = waiting(folder, scores="/dev/null")
    got = ask(folder, scores="/dev/null")
    go_on.set()
    check("two starts at once with /dev/null", (got[:2], first.end()[:2]) == ((0, wanted), (0, wanted)), got)


def with_room(room, **options):
    """A disk that has room for so many bytes of a file. Behind them a write fails, or kills the program, where signals are restored."""
    return {"preexec_fn": lambda: resource.setrlimit(resource.RLIMIT_FSIZE, (room, room)), **options}


def try_full(folder, wanted):
    fresh(folder, "0")
    with open("/dev/full", "wb") as full:
        got = ask(folder, stdout=full)
    check("standard output on a full disk", got[0] == 4 and got[2] == "write\n", got)
    check("        each answer is kept", kept_in(folder) == ([(*q, str(true_score(int(q[1])))) for q in got[3]], True), got)
    fresh(folder, "0")
    got = ask(folder, questions="/dev/full")
    check("QUESTIONS on a full disk", got[0] == 8 and got[2].startswith("probe: near: closed\n") and got[3] == [], got)
    for room in (0, 3, 30):
        fresh(folder, "0")
        got = ask(folder, **with_room(room, restore_signals=False))
        kept = (folder / "scores.csv").read_bytes()
        lines = b"".join(line_of(q) for q in got[3])
        check(f"SCORES has room for {room} bytes: the score is told", got[0] == 4 and kept == lines[:room] and len(lines) > room
            and got[2] == "write: not kept:\n" + line_of(got[3][-1]).decode(), (got, kept))
        (folder / "scores.csv").write_bytes(kept[:kept.rfind(b"\n") + 1] + got[2].split("\n", 1)[1].encode())
        again = ask(folder)
        check("        it is put there by hand, and not asked for again", again[:2] == (0, wanted) and not set(got[3]) & set(again[3]), again)
    fresh(folder, "0")
    whole = ask(folder)[3]
    lines = [line_of(q) for q in whole]
    for count in range(len(lines)):
        (folder / "scores.csv").unlink()
        got = ask(folder, **with_room(sum(map(len, lines[:count]))))
        again = ask(folder)
        check(f"the program is killed between answer {count + 1} and its keeping", got[0] < 0 and got[3] == whole[:count + 1], got)
        check("        only this question is asked again", again[:2] == (0, wanted) and again[3] == whole[count:], again)


def record_of(fields):
    """A record of CSV: a field is quoted that has a comma or a quote, and its quotes are doubled."""
    return ",".join('"' + f.replace('"', '""') + '"' if set(f) & set(',"') else f for f in fields) + "\n"


def line_of(question):
    """The record that SCORES has for a question."""
    return record_of([*question, str(true_score(int(question[1])))]).encode()


def try_read_only(folder, wanted):
    fresh(folder, "0")
    first = run(folder, PLAIN_WORDS, with_true)
    (folder / "answers.txt").write_text("".join(f"{true_score(int(q[1]))}\n" for q in first[3]))
    (folder / "asked.txt").write_bytes(b"")
    (folder / "scores.csv").write_bytes(b"")
    for name in ("answers.txt", "asked.txt", "t.csv", "s.sql"):
        (folder / name).chmod(0o666)
    folder.chmod(0o777)
    who = {"user": 65534} if os.getuid() == 0 else {}
    for mode, status in ((0o444, 4), (0o666, 0)):
        (folder / "scores.csv").chmod(mode)
        done = subprocess.run([ASK, "near", "scores.csv", "asked.txt", "answers.txt", *PLAIN_WORDS], cwd=folder, capture_output=True, timeout=60, check=False, **who)
        check(f"SCORES with the rights {mode:o}", done.returncode == status and done.stdout.decode() == (wanted if status == 0 else ""), done)
        if status:
            check("        nothing was asked", done.stderr == b"write\n" and (folder / "asked.txt").read_bytes() == b"", done)
    for name in ("answers.txt", "asked.txt", "scores.csv"):
        (folder / name).unlink()


class Killer(Answerer):
    """Answers questions, and kills the program at the second one: before its answer, or so long behind it."""

    def __init__(self, delay):
        super().__init__(with_true)
        self.delay = delay
        self.started = threading.Event()
        self.process = None

    def serve(self, source_fd, sink_fd):
        with os.fdopen(source_fd, newline="", encoding="utf-8") as source, os.fdopen(sink_fd, "wb", buffering=0) as sink:
            for record in csv.reader(source):
                self.questions.append(tuple(record))
                if len(self.questions) == 2 and self.delay is None:
                    self.kill()
                    return
                sink.write(self.answer(record))
                if len(self.questions) == 2:
                    time.sleep(self.delay)
                    self.kill()
                    return

    def kill(self):
        self.started.wait()
        self.process.kill()


def try_kills(folder, wanted):
    """The program is killed again and again: before an answer, and behind it, so soon that the answer may not have been kept. A question
    is asked again only where its answer never came to the file."""
    fresh(folder, "0")
    asked, lost = [], 0
    delays = (None, 0, 0.0001, None, 0.0003, 0.001)
    for start in range(300):
        known = {r[:3] for r in kept_in(folder)[0]} if (folder / "scores.csv").exists() else set()
        killer = Killer(delays[start % len(delays)])
        started = Asking(folder, answerer=killer, words=PLAIN_WORDS)
        killer.process = started.process
        killer.started.set()
        status, out, _, questions = started.end()
        asked += questions
        records, true = kept_in(folder)
        new = {r[:3] for r in records} - known
        for name, holds in [
            ("each line of SCORES is a score, and none stands there twice", true and len({r[:3] for r in records}) == len(records)),
            ("nothing that is kept is asked again", not known & set(questions)),
            ("all but the last question are kept", set(questions[:-1]) <= new <= set(questions)),
            ("the rows begin those of a whole run", wanted.startswith(out)),
        ]:
            if not holds:
                check(f"start {start}, killed: {name}", False, (status, out, questions, records))
                return
        lost += len(questions) - len(new)
        if status == 0:
            break
    check(f"{start} starts that were killed, {lost} of them before an answer was kept", (status, out) == (0, wanted) and start > 10 and lost > 10, (status, out, start, lost))
    check("        a question is asked again only where its answer wasn't kept", len(asked) == len(set(asked)) + lost, (len(asked), len(set(asked)), lost))


def try_fifos(folder, wanted):
    for order in ("questions", "answers"):
        for words in (PLAIN_WORDS, RUN_WORDS):
            fresh(folder, "0")
            for name in ("q.fifo", "a.fifo"):
                os.mkfifo(folder / name)
            answerer = Answerer(with_true)

            def serve(order=order, answerer=answerer):
                if order == "questions":
                    source = os.open(folder / "q.fifo", os.O_RDONLY)
                    sink = os.open(folder / "a.fifo", os.O_WRONLY)
                else:
                    sink = os.open(folder / "a.fifo", os.O_WRONLY)
                    time.sleep(0.05)
                    source = os.open(folder / "q.fifo", os.O_RDONLY)
                answerer.serve(source, sink)

            thread = threading.Thread(target=serve, daemon=True)
            thread.start()
            try:
                done = subprocess.run([ASK, "near", "scores.csv", "q.fifo", "a.fifo", *words], cwd=folder, capture_output=True, timeout=20, check=False)
            except subprocess.TimeoutExpired as error:
                done = error
            check(f"two FIFOs, whose other ends are opened {order} first: {words[0]}", getattr(done, "returncode", None) == 0 and done.stdout.decode() == wanted, done)
            for name in ("q.fifo", "a.fifo"):
                (folder / name).unlink()
            thread.join(5)
    fresh(folder, "0")
    for name in ("q.fifo", "a.fifo"):
        os.mkfifo(folder / name)

    def leave():
        source = os.open(folder / "q.fifo", os.O_RDONLY)
        sink = os.open(folder / "a.fifo", os.O_WRONLY)
        os.read(source, 1000)
        os.write(sink, b"1\n")
        os.read(source, 1000)
        os.close(source)
        os.close(sink)

    thread = threading.Thread(target=leave, daemon=True)
    thread.start()
    done = subprocess.run([ASK, "near", "scores.csv", "q.fifo", "a.fifo", *PLAIN_WORDS], cwd=folder, capture_output=True, timeout=20, check=False)
    check("        who answers leaves at the second question", done.returncode == 8 and done.stderr.startswith(b"probe: near: closed\n"), done)
    thread.join(5)
    for name in ("q.fifo", "a.fifo"):
        (folder / name).unlink()


def try_scores(folder, wanted):
    fresh(folder, "0")
    got = ask(folder)
    whole = (folder / "scores.csv").read_bytes()
    check("SCORES isn't there: it is made", got[:2] == (0, wanted) and whole == b"".join(line_of(q) for q in got[3]), got)
    lines = whole.splitlines(keepends=True)
    for count in range(len(lines)):
        (folder / "scores.csv").write_bytes(b"".join(lines[:count]))
        more = ask(folder)
        check(f"SCORES has {count} of {len(lines)} lines: it is written behind, and never over", more[:2] == (0, wanted) and len(more[3]) == len(lines) - count
            and (folder / "scores.csv").read_bytes() == whole, more)
    for cut in range(1, len(whole)):
        if whole[cut - 1:cut] == b"\n":
            continue
        if cut > 60 and cut % 17:
            continue
        (folder / "scores.csv").write_bytes(whole[:cut])
        more = ask(folder)
        if more != (6, "", "scores: scores.csv: NotEnded\n", []) or (folder / "scores.csv").read_bytes() != whole[:cut]:
            check(f"SCORES is cut off behind {cut} bytes", False, more)
            break
    else:
        check("SCORES that is cut off is refused, and stays", True)
    (folder / "scores.csv").write_bytes(b'near,1,"a\n')
    got = ask(folder)
    check("SCORES is cut off within a quoted text", got == (6, "", "scores: scores.csv: NotEnded\n", []), got)
    (folder / "scores.csv").write_bytes(whole + lines[0])
    got = ask(folder)
    check("a score that stands there twice is taken once", (got[0], got[1], got[3]) == (0, wanted, []), got)
    (folder / "scores.csv").write_bytes(b"near,1,a,1\nnear,1,a,2\n")
    got = ask(folder)
    check("two scores of one question", got == (6, "", "scores: scores.csv: Twice record 2\n", []), got)


def try_memory(folder, wanted):
    """SCORES of 17 MB, and memory of 30 MB."""
    fresh(folder, "0")
    limit = {"preexec_fn": lambda: resource.setrlimit(resource.RLIMIT_AS, (30_000 * 1024, 30_000 * 1024))}
    got = ask(folder, **limit)
    check("a small SCORES in 30 MB", got[:2] == (0, wanted), got)
    (folder / "scores.csv").write_text("".join(f"near,{n},no such row,1\n" for n in range(1_000_000, 1_650_000)))
    check("        SCORES has 17 MB", 17_000_000 < (folder / "scores.csv").stat().st_size < 18_500_000)
    got = ask(folder, **limit)
    check("        there is no memory to read it", got == (1, "", "memory\n", []), got)
    (folder / "scores.csv").unlink()


def try_all(folder, wanted):
    try_names(folder, wanted)
    try_closed(folder, wanted)
    try_one_file(folder, wanted)
    try_two_starts(folder, wanted)
    try_full(folder, wanted)
    try_read_only(folder, wanted)
    try_fifos(folder, wanted)
    try_scores(folder, wanted)
    try_memory(folder, wanted)
    try_kills(folder, wanted)
