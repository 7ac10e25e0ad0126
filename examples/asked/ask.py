#!/usr/bin/env python3
"""Answers the questions of ranksql_ask from a slow scoring function, and shows the rows as they come and what they cost.

usage: examples/asked/ask.py PROGRAM SCORES [WORD ..]

PROGRAM is the script ./ranksql_ask, or the program that it built. SCORES is the file of known scores, which is made where it
isn't there. The words are those of the run; without any, `run examples/asked/best.sql 1`. It is started at the top of the
repository. BUDGET in the environment is the greatest number of answers: after it the answering ends, and the rows so far stay.
DELAY is how many seconds an answer takes.

In front of each row stands how many answers were paid for when it came.
"""

import csv
import hashlib
import os
import selectors
import subprocess
import sys
import time

NAME = "fits"
PRICE = 0.002  # what one answer costs, in euros


def score(title, minutes):
    """The service: a number from 0 to 50 that says how well a film fits. It is slow and costs money."""
    time.sleep(float(os.environ.get("DELAY", "0.02")))
    digest = hashlib.sha256(title.encode()).digest()
    return max(0, min(50, 50 - abs(int(minutes) - 95) + digest[0] % 21 - 10))


def films_within(minutes):
    """How many calls `plain` would have paid for: one for each film that satisfies the condition."""
    with open("examples/films/films.csv", newline="", encoding="utf-8") as source:
        return sum(int(row["minutes"]) <= minutes for row in csv.DictReader(source))


class Run:
    """A run of the program, with a pipe for its questions and one for the answers."""

    def __init__(self, program, scores, words, budget):
        self.questions, asked = os.pipe()
        told, self.answers = os.pipe()
        command = [program, NAME, scores, f"/dev/fd/{asked}", f"/dev/fd/{told}", *words]
        self.process = subprocess.Popen(command, pass_fds=(asked, told), stdout=subprocess.PIPE)
        os.close(asked)
        os.close(told)
        self.rows = self.process.stdout.fileno()
        os.set_blocking(self.rows, False)
        self.budget, self.paid, self.question, self.row = budget, 0, b"", b""
        self.ready = selectors.DefaultSelector()
        self.ready.register(self.rows, selectors.EVENT_READ)
        self.ready.register(self.questions, selectors.EVENT_READ)

    def show_rows(self):
        """Prints the rows that are there. Whether the program may put more."""
        while True:
            try:
                read = os.read(self.rows, 65536)
            except BlockingIOError:
                return True
            if not read:
                return False
            *lines, self.row = (self.row + read).split(b"\n")
            for line in lines:
                print(f"{self.paid} answers  {line.decode()}", flush=True)

    def answer(self):
        """Reads what is there of a question, one record of CSV, and answers it where it is whole."""
        read = os.read(self.questions, 65536)
        self.question += read
        if not read or self.paid >= self.budget:
            # The program asks no more, or may not. Behind its budget it ends with status 8.
            self.ready.unregister(self.questions)
            os.close(self.questions)
            os.close(self.answers)
        elif self.question.endswith(b"\n") and self.question.count(b'"') % 2 == 0:
            name, *arguments = next(csv.reader(self.question.decode().splitlines(keepends=True)))
            assert name == NAME
            os.write(self.answers, b"%d\n" % score(*arguments))
            self.paid, self.question = self.paid + 1, b""

    def to_end(self):
        """Shows all rows and answers all questions. Its answer is the exit status."""
        while True:
            keys = [key.fileobj for key, _ in self.ready.select()]
            # Rows that the program put before a question are there when the question is.
            if not self.show_rows():
                return self.process.wait()
            if self.questions in keys:
                self.answer()


def main():
    if len(sys.argv) < 3:
        sys.exit(__doc__)
    program, scores, *words = sys.argv[1:]
    run = Run(program, scores, words or ["run", "examples/asked/best.sql", "1"], int(os.environ.get("BUDGET", "1000000")))
    status = run.to_end()
    plain = films_within(120)
    print(f"status {status}: {run.paid} answers for {run.paid * PRICE:.2f} euros; plain would pay for {plain}, {plain * PRICE:.2f} euros")
    return 0 if status in (0, 8) else 1


if __name__ == "__main__":
    sys.exit(main())
