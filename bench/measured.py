"""What the Python parts of these scripts share: made-up numbers, and what a run of a program takes and prints."""

import os
import subprocess
import sys
import time

seed = 20260101


def draw(below):
    """The next number below another one. The generator is x -> 16807 x modulo 2^31 - 1, so each run makes the same numbers."""
    global seed
    seed = seed * 16807 % 2147483647
    return seed * below // 2147483647


def waited(words, given=os.devnull):
    """The seconds of a run, what it printed, and what the system says that it used. It has to end well."""
    start = time.perf_counter()
    with open(given) as begun:
        ended = subprocess.Popen(words, stdin=begun, stdout=subprocess.PIPE, stderr=subprocess.PIPE)
    printed, told = ended.stdout.read(), ended.stderr.read().decode(errors="replace")
    _, status, usage = os.wait4(ended.pid, 0)
    taken = time.perf_counter() - start
    if status != 0:
        sys.exit("bench: %s ended with %d: %s" % (" ".join(words), os.waitstatus_to_exitcode(status), told))
    return taken, printed, usage


def spent(words):
    """The seconds of a run, and what it printed."""
    taken, printed, _ = waited(words)
    return taken, printed.decode()


def processed(words, given=os.devnull):
    """The seconds of processor time of a run, and what it printed."""
    _, printed, usage = waited(words, given)
    return usage.ru_utime + usage.ru_stime, printed


def calls_of(counter, words):
    """How often a run calls its scorer, as the program count_calls tells."""
    ended = subprocess.run([counter, *words], stdout=subprocess.DEVNULL, stderr=subprocess.PIPE, stdin=subprocess.DEVNULL)
    told = ended.stderr.decode(errors="replace").split()
    if ended.returncode != 0 or told[:-1] != ["calls"]:
        sys.exit("bench: count_calls %s ended with %d: %s" % (" ".join(words), ended.returncode, " ".join(told)))
    return int(told[-1])
