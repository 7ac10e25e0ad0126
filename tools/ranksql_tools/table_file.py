"""Reads the records of a table file as the program does, with the line of each, and what cells look like."""

import re
from typing import NamedTuple

from ranksql_tools.limits import GREATEST_NUMBER, MOST_TABLE_BYTES
from ranksql_tools.script_parse import FOREIGN, RESERVED
from ranksql_tools.script_text import without_mark

FIELD = re.compile(rb'(?:"((?:[^"]|"")*)(?:"|\Z)([^,\r\n]*)|([^,\r\n]*))(,|\r\n|\r|\n|\Z)')
BLANK = re.compile(rb"[\r\n]*")
WHOLE = re.compile(rb"[+-]?[0-9]+")
WORD = re.compile(r"[A-Za-z_][A-Za-z0-9_]*")


class Record(NamedTuple):
    """A record: the first byte in the text behind a byte order mark, that of each field, and the fields."""

    start: int
    starts: list
    fields: list


def records(body):
    """The records of a table file, the header first."""
    place = BLANK.match(body, 0).end()
    while place < len(body):
        start, starts, fields = place, [], []
        while True:
            match = FIELD.match(body, place)
            starts.append(match.start())
            if match[1] is not None:
                fields.append(match[1].replace(b'""', b'"') + match[2])
            else:
                fields.append(match[3])
            place = match.end()
            if match[4] != b",":
                break
        yield Record(start, starts, fields)
        place = BLANK.match(body, place).end()


def is_whole(cell):
    """Whether a cell is a whole number in the range."""
    return bool(WHOLE.fullmatch(cell)) and abs(int(cell)) <= GREATEST_NUMBER


def read_file(path):
    """The bytes of a file behind a byte order mark, or None where it can't be read. What isn't a plain file isn't read again."""
    import os
    import stat

    try:
        if not stat.S_ISREG(os.stat(path).st_mode):
            return None
        with open(path, "rb") as file:
            return without_mark(file.read(MOST_TABLE_BYTES + 1))
    except (OSError, ValueError):
        return None


def name_in_script(name):
    """A column's name as a script has it: a plain word, or between double quotes."""
    if WORD.fullmatch(name) and name.upper() not in RESERVED | FOREIGN:
        return name
    return '"' + name.replace('"', '""') + '"'


def text_in_script(text):
    """A text as a script has it."""
    return "'" + text.replace("'", "''") + "'"
