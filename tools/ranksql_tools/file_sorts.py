"""What a file is that is no table: packed, in another encoding, JSON, parted by blanks, or without a header."""

import csv
import os
from collections import Counter

from ranksql_tools.csv_cells import MISSING, number_of
from ranksql_tools.csv_json import is_json
from ranksql_tools.csv_source import LOOKED_AT_BYTES, PACKED, encoding_at, no_text

YEARS = range(1500, 2101)
NAMES_OF_ENCODINGS = {"utf-32": "UTF-32"}
TABLE_ENDINGS = (".csv", ".tsv", ".json", ".jsonl", ".ndjson")


def of_odd_file(body, prepare):
    """What to do about a file whose bytes are no CSV in UTF-8, where `prepare` is the call of that helper; else nothing. Nothing
    of such bytes is shown."""
    head = body[:LOOKED_AT_BYTES]
    if head.startswith(PACKED):
        return f"The file is packed by gzip, and a table's file is plain text. {prepare} unpacks it, and writes its CREATE TABLE."
    what = no_text(head)
    if what:
        return f"The file is {what}, and a table's file is CSV. Save the table as CSV first."
    encoding = encoding_at(head)
    if encoding and encoding != "utf-8-sig":
        name = NAMES_OF_ENCODINGS.get(encoding, "UTF-16")
        return f"The file is written in {name}, and a table's file in UTF-8. {prepare} writes it anew, and its CREATE TABLE."
    if is_json(head.decode("utf-8", "replace")):
        return f"The file is JSON, and a table's file is CSV. {prepare} makes such a file of a list of objects, and its CREATE TABLE."
    return ""


def of_odd_script(name, body, prepare):
    """What to do where a script's bytes are no text, or those of a table; else nothing."""
    if body.startswith(PACKED):
        return f"The script is packed by gzip, and has to be plain text: gunzip -c {name} >NEW."
    stem, ending = os.path.splitext(name)
    if ending.lower() in TABLE_ENDINGS or is_json(body[:LOOKED_AT_BYTES].decode("utf-8", "replace")):
        return f"This is a table's file, and here stands a script. {prepare} {name} >{stem}.sql makes a table of it, and a script with its CREATE TABLE."
    return ""


def parted_by_blanks(header, lines):
    """Whether a header of one field and most lines below it have as many words, or one word more."""
    count = len(words_of(header))
    if count < 2:
        return False
    counts = Counter(len(words_of(line)) for line in lines)
    return bool(lines) and any(counts[words] * 2 > len(lines) for words in (count, count + 1))


def words_of(line):
    """The words of a line, where a text between double quotes is one."""
    return next(csv.reader([line.strip()], delimiter=" ", skipinitialspace=True), [])


def numbers_in_header(header, columns):
    """The names of a header that are numbers, as the cells below them are, where they make it likely that it is a row. Columns
    that are named after years do so only where all are."""
    found = [name for name, cells in zip(header, columns) if is_number(name) and any(map(is_number, cells))
             and all(is_number(cell) or cell.strip() in MISSING for cell in cells)]
    return [] if all(map(is_year, found)) and len(found) < len(header) else found


def is_number(cell):
    return number_of(cell, "point") is not None or number_of(cell, "comma") is not None


def is_year(name):
    return name.strip().isdigit() and int(name) in YEARS
