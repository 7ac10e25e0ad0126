"""Runs the program unproved, and hands in the files that its words and its script name."""

import os
import re
import shutil
import subprocess
import sys
import tempfile

from .script_parse import Table, parse
from .script_text import tokens_of, without_mark
from .word_forms import forms, has_script

ABOUT = """\
Runs the program ranksql before it is proved, by the kit's command rt: what is run is compiled from the sources with checks, and
nothing is proved of it. ./ranksql proves and builds the program once, and then runs it at once.

usage: ./try WORD ..    the words are those of ranksql, as in ./try run examples/first.sql 1

It takes about a minute and a half, and the rows come at the end. The files that the script names are handed in as they are.
A run of more than a minute, or one that prints more than 1 MiB, gives no answer. Standard output has the program's output
alone, and the status is the program's; it is 70 where the program could not be run."""
NOT_RUN = 70
# Names that `rt try` needs for itself in the folder in which the program runs.
TAKEN = ("program", "stdin", "stdout", "stderr")
STANDARD_INPUT = ("/dev/stdin", "/dev/fd/0", "/proc/self/fd/0")
# What `rt try` says of the run itself, behind what the program says.
ENDED = re.compile(rb"run=ended status=(\d+) .*proved=no\n")
OF_THE_TOOL = re.compile(rb"(?:checked|interpreter): ended status=\d+\n|" + ENDED.pattern)


class NotHanded(Exception):
    """A file that can't be handed in."""


def tell(sentence):
    print(f"try: {sentence}", file=sys.stderr, flush=True)


def files_of_words(words):
    """The files among the words of the program."""
    form = forms().get(words[0], "").split()
    return [word for name, word in zip(form, words[1:]) if name in ("FILE", "SCRIPT", "LEFT", "RIGHT")]


def script_of(words):
    """The name of the script among the words, or None where there is none."""
    return words[1] if len(words) > 1 and has_script(words[0]) else None


def tables_of(body):
    """The names of the files that a script names."""
    parser, _ = parse(tokens_of(without_mark(body)))
    return [statement.file.says for statement in parser.statements if isinstance(statement, Table)]


def is_reached(name):
    """Whether the program opens a file itself, since its name counts from no folder."""
    return os.path.isabs(name) or not name


def handed(names):
    """The words by which `rt try` gets files. A file that isn't there is missing for the program too."""
    words = []
    for name in dict.fromkeys(names):
        if is_reached(name) or not os.path.lexists(name):
            continue
        first = os.path.normpath(name).split(os.sep)[0]
        if not os.path.isfile(name) or not os.access(name, os.R_OK):
            raise NotHanded(f"{name} is no file that can be read")
        if ".." in name.split(os.sep):
            raise NotHanded(f"{name} leads out of this folder: go to a folder that has all files below it, or name it from the root /")
        if "=" in name or first.startswith(TAKEN):
            raise NotHanded(f"{name} can't be handed in: its name has a =, or begins with {', '.join(TAKEN[:-1])} or {TAKEN[-1]}")
        words += ["--data", f"{name}={os.path.abspath(name)}"]
    return words


def read(name):
    """The bytes of a script, or nothing where it can't be read."""
    try:
        with open(name, "rb") as file:
            return file.read()
    except (OSError, ValueError):
        return b""


def run(words, crate):
    """Runs the program on the words, and returns its status."""
    names, given = files_of_words(words), None
    script = script_of(words)
    if script in STANDARD_INPUT:
        given = sys.stdin.buffer.read()
        names += tables_of(given)
    elif script is not None and os.path.isfile(script):
        names += tables_of(read(script))
    whole = ["rt", "try", *handed(names), "--", *words]
    tell("this is the unproved build of ranksql; it takes about a minute and a half, and what it prints comes at the end")
    with tempfile.TemporaryFile() as said:
        how = {"stdin": subprocess.DEVNULL} if given is None else {"input": given}
        ended = subprocess.run(whole, cwd=crate, stderr=said, check=False, **how)
        said.seek(0)
        text = said.read()
    return told(text, ended.returncode)


def told(text, status):
    """Passes on what the program says on standard error, and gives its status. What the tool says of the run is left out, unless
    the run didn't end by itself."""
    lines = text.splitlines(keepends=True)
    ends = [found for line in lines for found in [ENDED.fullmatch(line)] if found]
    if ends:
        lines = [line for line in lines if not OF_THE_TOOL.fullmatch(line)]
    sys.stderr.buffer.write(b"".join(lines))
    sys.stderr.buffer.flush()
    if not ends:
        tell("the program could not be run to its end")
    return int(ends[-1][1]) if ends else NOT_RUN


def main(words):
    if not words or words[0] in ("--help", "-h"):
        print(ABOUT, file=sys.stdout if words else sys.stderr)
        return 0 if words else 2
    root = os.path.dirname(os.path.dirname(os.path.dirname(os.path.realpath(__file__))))
    if shutil.which("rt") is None:
        tell("the command rt isn't found, which compiles and runs the program; it is part of the Rattle kit")
        return NOT_RUN
    try:
        return run(words, os.path.join(root, "crates", "ranksql"))
    except NotHanded as why:
        tell(str(why))
        return NOT_RUN
    except KeyboardInterrupt:
        return 130
