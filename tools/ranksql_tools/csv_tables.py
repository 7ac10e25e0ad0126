"""From a real table in a file to a table that `ranksql` reads, and the CREATE TABLE for it."""

import csv
import io
import os
import tempfile
from collections import Counter
from typing import NamedTuple

from .csv_columns import Raw, counted, find_mark, make_columns, make_names, plain_name, shown_cells, unused
from .csv_source import open_source, read_shape
from .file_sorts import numbers_in_header, parted_by_blanks
from .limits import GREATEST_SCORE, MOST_COLUMNS, MOST_ROWS, MOST_TABLE_BYTES
from .refusal import TABLE, USAGE, WRITE, Refusal
from .script_text import shown
from .table_file import name_in_script, text_in_script

SHOWN_LINES = 3
EXTRA_COLUMNS = ("_day", "_second")
NAMES_OF_DELIMITERS = {",": "commas", "\t": "tabs", ";": "semicolons", "|": "bars", " ": "spaces"}
NAMES_OF_ENCODINGS = {"utf-8": "UTF-8", "utf-8-sig": "UTF-8", "utf-16": "UTF-16", "utf-16-le": "UTF-16", "utf-16-be": "UTF-16",
                      "utf-32": "UTF-32", "cp1252": "Windows-1252", "latin-1": "Latin-1"}


class Opened(NamedTuple):
    """A file whose header is known: a heading and a name for each column, how many of its fields are columns, and notes."""

    source: object
    shape: object
    headings: list
    names: list
    notes: list


class Seen:
    """Counts rows of one sort, and keeps the lines of the first ones."""

    def __init__(self):
        self.count, self._first = 0, []

    def add(self, line):
        self.count += 1
        if len(self._first) < SHOWN_LINES:
            self._first.append(line)

    def lines(self):
        more = ", .." if self.count > len(self._first) else ""
        return " (%s %s%s)" % ("line" if self.count == 1 else "lines", ", ".join(map(str, self._first)), more)


class Made(NamedTuple):
    """What was made of a file: its table, its script and what is told of it."""

    table: str
    script: list
    told: list


def open_table(path, options):
    """The file of a path, as far as its header."""
    source = open_source(path, options.encoding, options.delimiter, options.skip)
    try:
        shape = read_shape(source, options.quotes)
        return with_names(source, shape, options)
    except BaseException:
        source.close()
        raise


def with_names(source, shape, options):
    """The file with a heading and a name for each column. Where each row has one field more than the header, and the last
    one is filled, the first one is the name of the row, as R writes it."""
    headings, notes = [heading.strip() for heading in shape.header], []
    lengths = shape.lengths
    if options.no_header:
        lengths[len(headings)] += 1
        headings = [""] * len(headings)
    elif set(lengths) == {len(headings) + 1} and shape.filled_behind and not headings[0].startswith("#"):
        headings = ["row"] + headings
        notes.append("Each row has one field more than the header: the first is its name, in the column row")
        shape = shape._replace(filled_behind=False)
    refuse_long(source, shape, len(headings))
    return Opened(source, shape, headings, make_names(headings, options.keep_names), notes)


def refuse_long(source, shape, columns):
    """Refuses a file of which most rows have more fields than the header: it was read with a wrong delimiter, or the header
    stands further down."""
    rows = sum(shape.lengths.values())
    long = sum(count for length, count in shape.lengths.items() if length > columns) if shape.filled_behind else 0
    if long * 2 > rows:
        hint = "the first line begins with #, and --skip 1 passes over it" if shape.header[0].startswith("#") else \
            "--delimiter says what parts the fields, --skip N passes over lines in front"
        raise Refusal(TABLE, "%s: %d of %d rows have more fields than the header, which has %d: %s"
                      % (source.path, long, rows, columns, hint))


def chosen_columns(opened, wanted):
    """The places of the columns that are named, by the name in the file, the name in the table, or the number; of all where
    none is."""
    if wanted is None:
        if len(opened.headings) > MOST_COLUMNS:
            raise Refusal(TABLE, "%s has %d columns, and a table has %d at most: --columns A,B,.. keeps those that you name, of %s"
                          % (opened.source.path, len(opened.headings), MOST_COLUMNS, ", ".join(map(shown, opened.names))))
        return list(range(len(opened.headings)))
    places = []
    for name in next(csv.reader([wanted])):
        name = name.strip()
        if name in opened.headings:
            places.append(opened.headings.index(name))
        elif name in opened.names:
            places.append(opened.names.index(name))
        elif name.isascii() and name.isdigit() and 1 <= int(name) <= len(opened.headings):
            places.append(int(name) - 1)
        else:
            raise Refusal(USAGE, "%s has no column %s; it has %s" % (opened.source.path, shown(name), ", ".join(map(shown, opened.names))))
    if len(places) > MOST_COLUMNS:
        raise Refusal(USAGE, "--columns names %d columns, and a table has %d at most" % (len(places), MOST_COLUMNS))
    if len(set(places)) < len(places):
        raise Refusal(USAGE, "--columns names a column twice")
    return places


def check_names(files, options):
    """Refuses a name in an option that no column has."""
    known = {name for opened in files for name in opened.headings + opened.names}
    known |= {name + extra for name in known for extra in EXTRA_COLUMNS}
    wishes = options.wishes
    for option, names in (("--text", wishes.texts), ("--number", wishes.numbers), ("--null", wishes.nulls), ("--decimals", wishes.decimals_of)):
        for name in names:
            if name not in known:
                raise Refusal(USAGE, "%s %s: there is no such column" % (option, shown(name)))


def read_rows(opened, places, options):
    """The cells of each chosen column, row by row, and what is told of rows that are short or left out. In a short row the
    last cells are empty."""
    cells, width = [[] for _ in places], len(opened.headings)
    long, short, beyond, first = Seen(), Seen(), 0, not options.no_header
    for line, record in opened.source.records():
        if not record:
            continue
        if first:
            first = False
        elif any(record[width:]):
            long.add(line)
        elif len(cells[0]) == MOST_ROWS:
            beyond += 1
        else:
            if len(record) < width:
                short.add(line)
            for column, place in zip(cells, places):
                column.append(record[place] if place < len(record) else "")
    notes = []
    if short.count:
        notes.append("%s shorter than the header, and %s last cells are empty%s" % (
            counted(short.count, "row is", "rows are"), "its" if short.count == 1 else "their", short.lines()))
    if long.count:
        notes.append("%s left out: more fields than the header%s" % (counted(long.count, "row is", "rows are"), long.lines()))
    if beyond:
        notes.append("%s left out: a table has %d at most, and these are the first" % (counted(beyond, "row is", "rows are"), MOST_ROWS))
    return cells, notes


def build(opened, places, cells, options):
    """The columns of the table."""
    raws = [Raw(opened.headings[place], opened.names[place], column, Counter(column)) for place, column in zip(places, cells)]
    mark = options.wishes.mark or find_mark(raws, opened.source.delimiter, options.wishes.missing)
    columns, taken = [], [raw.name for raw in raws]
    extra = MOST_COLUMNS - len(raws)
    for raw in raws:
        made = make_columns(raw, mark, options.wishes, taken, extra > 0)
        if raw.heading != raw.name:
            heading = 'named "%s" in the file' % raw.heading if raw.heading else "without a name in the file"
            made[0] = made[0]._replace(notes=[heading] + made[0].notes)
        extra -= len(made) - 1
        taken += [column.name for column in made[1:]]
        columns += made
    return columns, mark


def without_empty(columns, cells):
    """The cells of the rows in which no number is empty, and how many rows have one."""
    kept = [row for row in range(len(cells[0])) if not any(column.cells[row] in column.empty for column in columns)]
    return [[column[row] for row in kept] for column in cells], len(cells[0]) - len(kept)


def text_of(columns):
    """The bytes of the table, and how many of its rows they are."""
    made, room = io.StringIO(), io.StringIO()
    size, rows = 0, len(columns[0].cells)
    csv.writer(made, lineterminator="\n").writerow([column.name for column in columns])
    size = len(made.getvalue().encode())
    for row in range(rows):
        room.seek(0)
        room.truncate()
        csv.writer(room, lineterminator="\n").writerow([column.written(row) for column in columns])
        line = room.getvalue()
        size += len(line.encode())
        if size > MOST_TABLE_BYTES:
            return made.getvalue(), row
        made.write(line)
    return made.getvalue(), rows


def make_table(opened, options, tables, predicates):
    """Makes the table of a file and its script. The names that are given go into `tables` and `predicates`."""
    places = chosen_columns(opened, options.columns)
    cells, notes = read_rows(opened, places, options)
    notes += notes_on_header(opened, places, cells, options)
    columns, mark = build(opened, places, cells, options)
    if options.drop_empty:
        cells, dropped = without_empty(columns, cells)
        if dropped:
            notes.append("%s left out: a number is empty" % counted(dropped, "row is", "rows are"))
            columns, mark = build(opened, places, cells, options)
    text, rows = text_of(columns)
    if rows < len(cells[0]):
        notes.append("%s left out: a table has %d MiB at most, and these are the first"
                     % (counted(len(cells[0]) - rows, "row is", "rows are"), MOST_TABLE_BYTES // 2**20))
        columns, mark = build(opened, places, [column[:rows] for column in cells], options)
        text, rows = text_of(columns)
    table = unused(options.table or table_name(opened.source.path), tables)
    tables.append(table)
    path = options.to or os.path.join(options.folder or "", file_name(table))
    write_file(opened.source.path, path, text)
    told_first = file_notes(opened, rows, len(columns), mark)
    script = ["-- %s." % shown(note) for note in told_first + opened.notes + notes] + statement(table, columns, path) + proposals(table, columns, predicates)
    told = ["%s: %s of %s in %s" % (table, counted(rows, "row"), counted(len(columns), "column"), shown(path))]
    told += ["%s: %s" % (table, note) for note in opened.notes + notes + empty_told(columns)]
    return Made(table, script, told)


def notes_on_header(opened, places, cells, options):
    """What is told of a header that may be a row, and of one that may have several names."""
    if options.no_header:
        return []
    headings = [opened.headings[place] for place in places]
    numbers = numbers_in_header(headings, cells)
    if numbers:
        return ["The header has numbers where the rows have: %s; if it is a row, --no-header keeps it" % shown_cells(numbers)]
    if len(opened.headings) == 1 and not options.delimiter and cells and parted_by_blanks(opened.headings[0], cells[0]):
        return ["There is one column, and most rows have as many words as its name or one more: --delimiter space takes blanks as what parts the fields"]
    return []


def empty_told(columns):
    """What is told of empty numbers on standard error: of each column, but in short where there are many."""
    empty = [column for column in columns if column.null is not None]
    if len(empty) > SHOWN_LINES:
        return ["%s have empty numbers; the script says what each has in their place" % counted(len(empty), "column")]
    return ["%s: %s" % (column.name, note) for column in empty for note in column.notes if " here" in note]


def table_name(path):
    """The name of a table after its file."""
    if path == "-":
        return "data"
    stem = os.path.basename(path)
    for ending in (".gz", ".csv", ".tsv", ".txt", ".tab", ".json", ".jsonl", ".ndjson", ".table"):
        if stem.lower().endswith(ending) and len(stem) > len(ending):
            stem = stem[:-len(ending)]
    return plain_name(stem, 1).replace("column_1", "data")


def file_name(table):
    return plain_name(table, 1) + ".table.csv"


def file_notes(opened, rows, columns, mark):
    """What is told of the file as a whole, sentence by sentence, without the points."""
    source, shape = opened.source, opened.shape
    encoding = NAMES_OF_ENCODINGS.get(source.encoding, source.encoding)
    parted = NAMES_OF_DELIMITERS.get(source.delimiter, source.delimiter)
    read_as = "JSON" if source.is_json else "%s with %s between the fields" % (encoding, parted)
    notes = ["%s: %s of %s, read as %s%s" % (source.path, counted(rows, "row"), counted(columns, "column"), read_as,
                                             ", decimals behind a comma" if mark == "comma" else "")]
    if source.quotes.note:
        notes.append("Of quotes: " + source.quotes.note)
    if shape.blank and len(opened.headings) == 1:
        notes.append("%s no rows" % counted(shape.blank, "blank line is", "blank lines are"))
    if shape.many_lines:
        notes.append("%s in them" % counted(shape.many_lines, "cell has line ends", "cells have line ends"))
    return notes


def statement(table, columns, path):
    """The CREATE TABLE, with what was done to each column behind it."""
    lines = ["CREATE TABLE %s (" % name_in_script(table)]
    for place, column in enumerate(columns, 1):
        notes = column.notes + ([] if column.least is None else ["%d to %d" % (column.least, column.greatest)])
        comma = "," if place < len(columns) else ""
        comment = " -- " + shown("; ".join(notes)) if notes else ""
        lines.append("    %s %s%s%s" % (name_in_script(column.name), column.kind, comma, comment))
    return lines + [") FROM %s;" % text_in_script(path)]


def proposals(table, columns, predicates):
    """A predicate for each column of numbers, as comments: its scores are 0 for the least number, and MAX for the greatest."""
    numbers = [column for column in columns if column.least is not None]
    if not numbers:
        return []
    lines = ["-- Scores that these numbers could have, 0 for the least and MAX for the greatest; take away the -- in front:"]
    for column in numbers:
        name = unused("high_" + plain_name(column.name, 1), predicates)
        predicates.append(name)
        most, formula = scores_of(column)
        lines.append("-- CREATE PREDICATE %s (%s INT) MAX %d AS %s;" % (name, name_in_script(column.name), most, formula))
        if column is numbers[0]:
            example = "-- SELECT * FROM %s ORDER BY %s(%s) LIMIT 10;" % (name_in_script(table), name, name_in_script(column.name))
    return lines + [example]


def scores_of(column):
    """The MAX and the formula of the scores that grow with a column."""
    name, span, divisor = name_in_script(column.name), column.greatest - column.least, 1
    while span // divisor > GREATEST_SCORE:
        divisor *= 10
    formula = name
    if column.least:
        formula = "%s %s %d" % (name, "-" if column.least > 0 else "+", abs(column.least))
    if divisor > 1:
        formula = "(%s) / %d" % (formula, divisor) if column.least else "%s / %d" % (formula, divisor)
    if column.null is not None:
        formula = "CASE WHEN %s = %d THEN 0 ELSE %s END" % (name, column.null, formula)
    return max(1, span // divisor), formula


def write_file(source, path, text):
    """Writes the table in one step, so that a file that is there is whole before and afterwards, and never over its source."""
    try:
        path.encode()
        if source != "-" and os.path.exists(path) and os.path.samefile(source, path):
            raise Refusal(USAGE, "%s would be written over itself: --to names another file" % path)
        if os.path.exists(path) and not os.path.isfile(path):
            with open(path, "w", encoding="utf-8", newline="") as file:
                file.write(text)
            return
        handle, made = tempfile.mkstemp(dir=os.path.dirname(path) or ".", prefix=".prepare")
        try:
            with os.fdopen(handle, "w", encoding="utf-8", newline="") as file:
                file.write(text)
            os.chmod(made, 0o666 & ~current_umask())
            os.replace(made, path)
        except BaseException:
            os.unlink(made)
            raise
    except UnicodeEncodeError:
        raise Refusal(WRITE, "a script can't name %s, which isn't UTF-8: --to names another file" % ascii(path)) from None
    except OSError as error:
        raise Refusal(WRITE, "%s can't be written: %s" % (path, error.strerror)) from None


def current_umask():
    mask = os.umask(0)
    os.umask(mask)
    return mask
