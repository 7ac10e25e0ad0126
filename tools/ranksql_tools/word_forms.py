"""The words of the program and what stands behind each, as the program itself says it: called without words, it puts its usage line.
In a repository where it isn't built yet, the line is read from its source."""

import functools
import os
import re
import subprocess

from .program import TOOLS, find_program, is_installed

SOURCES = {"ranksql": "rs_run", "ranksql_ask": "ranksql_ask"}


def asked(program):
    """What a program says when it is called without words."""
    try:
        ended = subprocess.run([program], stdin=subprocess.DEVNULL, capture_output=True, timeout=60, check=False)
    except (OSError, subprocess.SubprocessError):
        return ""
    return ended.stderr.decode(errors="replace").rstrip("\n")


def in_source(name):
    """The line that stands in the source of a program."""
    path = os.path.join(TOOLS, os.pardir, "crates", SOURCES[name], "src", "fault.rt")
    with open(path, encoding="utf-8") as source:
        return re.search(rf'"(usage: {name} [^"]*)\\n"', source.read())[1]


@functools.lru_cache(maxsize=None)
def usage(name="ranksql"):
    """The usage line of a program, without its line feed; nothing where there is neither a program nor its source."""
    program = find_program(name)
    line = asked(program) if program else ""
    if line.startswith(f"usage: {name} "):
        return line
    return "" if is_installed() else in_source(name)


@functools.lru_cache(maxsize=None)
def forms():
    """What stands behind each word, in the order of the usage line."""
    return dict(form.split(" ", 1) for form in usage().removeprefix("usage: ranksql ").split(", ") if " " in form)


def has_script(word):
    """Whether a script stands behind this word."""
    return forms().get(word, "").startswith("SCRIPT")
