"""Makes columns that `ranksql` reads of the columns of a real table, and says what was done to each."""

import unicodedata
from collections import Counter
from decimal import Decimal
from typing import NamedTuple, Optional

from .csv_cells import DATE_ORDERS, MISSING, decimals_of, moment_of, number_of, scaled
from .limits import GREATEST_NUMBER
from .refusal import TABLE, USAGE, Refusal
from .script_parse import FOREIGN, RESERVED
from .table_file import name_in_script

MOST_DECIMALS = 18
# Beyond so many decimals it is told how to have fewer.
MANY_DECIMALS = 9
DAY_SECONDS = 86400
# Letters that have no accent to take away.
LETTERS = str.maketrans({"ß": "ss", "æ": "ae", "Æ": "Ae", "œ": "oe", "Œ": "Oe", "ø": "o", "Ø": "O", "ł": "l", "Ł": "L", "đ": "d", "Đ": "D",
                         "ð": "d", "þ": "th", "ı": "i"})
# How many strange cells a note shows.
SHOWN_CELLS = 3
# A column of texts is told to be nearly one of numbers where this share of its cells are numbers.
NEARLY = 0.5


class Wishes(NamedTuple):
    """What the user says of the columns, by their names in the file or in the table. None where nothing is said of all."""

    mark: Optional[str] = None
    dates: Optional[str] = None
    texts: frozenset = frozenset()
    numbers: frozenset = frozenset()
    null: Optional[Decimal] = None
    nulls: dict = {}
    decimals: Optional[int] = None
    decimals_of: dict = {}
    missing: frozenset = MISSING


class Raw(NamedTuple):
    """A column of the file: what the header calls it, its name in the table, and how often it has each cell."""

    heading: str
    name: str
    cells: list
    distinct: Counter

    def named_by(self, names):
        """Whether one of these names is meant for this column."""
        return self.heading in names or self.name in names

    def said(self, values, general):
        """What is said of this column, or else of all."""
        return values.get(self.heading, values.get(self.name, general))


class Column(NamedTuple):
    """A column of the table. `values` says what is written for each cell of the file, and `empty` which cells are no
    number; `null` is what stands for these. A text has neither least nor greatest."""

    name: str
    kind: str
    cells: list
    values: Optional[dict]
    notes: list
    least: Optional[int] = None
    greatest: Optional[int] = None
    null: Optional[int] = None
    empty: frozenset = frozenset()

    def written(self, row):
        """The cell of a row, as it is written."""
        return self.cells[row] if self.values is None else self.values[self.cells[row]]


def plain_name(heading, place):
    """A heading as a word that needs no marks: without accents, with `_` for what no word has, with `_` in front of a digit
    and behind a word that can't be a name."""
    signs = (sign for sign in unicodedata.normalize("NFKD", heading.translate(LETTERS)) if not unicodedata.combining(sign))
    words = "".join(sign if sign.isascii() and (sign.isalnum() or sign == "_") else " " for sign in signs).split()
    name = "_".join(words) or "column_%d" % place
    if name[0].isdigit():
        return "_" + name
    return name + "_" if name.upper() in RESERVED | FOREIGN else name


def unused(name, taken):
    """The name, or the first of NAME_2, NAME_3 .. that isn't taken."""
    made, number = name, 1
    while made in taken:
        number += 1
        made = "%s_%d" % (name, number)
    return made


def make_names(headings, keep=False):
    """A name for each heading, no two the same."""
    made = []
    for place, heading in enumerate(headings, 1):
        wanted = heading.replace("\ufeff", "").strip() if keep else plain_name(heading, place)
        made.append(unused(wanted or "column_%d" % place, made))
    return made


def find_mark(raws, delimiter, missing):
    """Whether decimals stand behind a point or a comma: what makes more columns numbers. Where both make as many it is a
    point, but a comma where fields are parted by semicolons, some cell has a comma, and none has a point."""
    counts = {mark: sum(is_numeric(raw, mark, missing) for raw in raws) for mark in ("point", "comma")}
    if counts["point"] != counts["comma"]:
        return max(counts, key=counts.get)
    numeric = [cell for raw in raws if is_numeric(raw, "point", missing) for cell in raw.distinct]
    if delimiter == ";" and any("," in cell for cell in numeric) and not any("." in cell for cell in numeric):
        return "comma"
    return "point"


def is_numeric(raw, mark, missing):
    """Whether all cells are numbers, but for those that are missing, and one is."""
    found = False
    for cell in raw.distinct:
        if cell.strip() in missing:
            continue
        if number_of(cell, mark) is None:
            return False
        found = True
    return found


def make_columns(raw, mark, wishes, taken, room):
    """The columns of the table that one of the file makes: its own, and for dates a second one of numbers if there is room."""
    if raw.named_by(wishes.texts):
        return [text_column(raw, ["kept as text"])]
    numbers = {cell: number_of(cell, mark) for cell in raw.distinct if cell.strip() not in wishes.missing}
    strange = [cell for cell, number in numbers.items() if number is None]
    numbers = {cell: number for cell, number in numbers.items() if number is not None}
    if raw.named_by(wishes.numbers):
        if not numbers:
            raise Refusal(USAGE, "--number %s: no cell of this column is a number" % raw.heading)
        return [number_column(raw, numbers, wishes, strange)]
    if strange or not numbers:
        return date_columns(raw, wishes, taken, room) or [text_column(raw, notes_on_strange(raw, numbers, strange))]
    why_text = reason_for_text(raw, numbers)
    return [text_column(raw, ["text, since " + why_text])] if why_text else [number_column(raw, numbers, wishes, strange)]


def notes_on_strange(raw, numbers, strange):
    """What is told of a column of which most cells are numbers, and not all."""
    if not numbers or sum(raw.distinct[cell] for cell in numbers) < NEARLY * sum(raw.distinct.values()):
        return []
    first = next(row for row, cell in enumerate(raw.cells, 1) if cell in set(strange))
    return ["text, since %s: %s, first in row %d; --number %s takes such cells as empty" % (
        counted(sum(raw.distinct[cell] for cell in strange), "cell is no number", "cells are no numbers"),
        shown_cells(strange), first, raw.name)]


def reason_for_text(raw, numbers):
    """Why a column of numbers is one of texts, or nothing where it is one of numbers."""
    padded = [cell for cell, number in numbers.items() if number.padded]
    if padded:
        return "codes begin with 0: %s; --number %s makes it a number" % (shown_cells(padded), raw.name)
    signs = {number.sign for number in numbers.values()}
    if len(signs) > 1:
        return "only some numbers have a sign: %s; --number %s leaves it out" % (", ".join(sorted(signs - {""})), raw.name)
    wide = [cell for cell, number in numbers.items() if abs(number.value) > GREATEST_NUMBER]
    if wide:
        return "numbers are beyond 4 * 10^18: %s" % shown_cells(wide)
    return ""


def text_column(raw, notes):
    """The column as it is."""
    empty = sum(count for cell, count in raw.distinct.items() if not cell)
    if empty and empty == sum(raw.distinct.values()):
        notes = ["all cells are empty"]
    elif empty:
        notes = notes + [counted(empty, "cell is empty", "cells are empty")]
    return Column(raw.name, "TEXT", raw.cells, None, notes)


def number_column(raw, numbers, wishes, strange):
    """The column with each number times a power of ten, and a number for each cell that is none."""
    notes = []
    empty = [cell for cell in raw.distinct if cell not in numbers]
    null = raw.said(wishes.nulls, wishes.null)
    proposed = empty and null is None
    if proposed:
        null = null_for(min(number.value for number in numbers.values()))
    values = [number.value for number in numbers.values()] + ([null] if empty else [])
    decimals, rounded = power_for(values, raw.said(wishes.decimals_of, wishes.decimals))
    made = {cell: scaled(number.value, decimals) for cell, number in numbers.items()}
    if any(abs(value) > GREATEST_NUMBER for value in made.values()):
        raise Refusal(TABLE, "%s: its numbers are beyond 4 * 10^18: --decimals %s=N with a smaller N, or --text %s"
                      % (raw.name, raw.name, raw.name))
    notes += spelling_notes(raw, numbers)
    if decimals:
        example = max(numbers, key=lambda cell: decimals_of(numbers[cell].value))
        notes.append("times %d, so %s is %d" % (10**decimals, shown_cell(example), made[example]))
    if decimals > MANY_DECIMALS:
        notes.append("--decimals %s=N keeps fewer decimals" % raw.name)
    if rounded:
        changed = sum(raw.distinct[cell] for cell, number in numbers.items() if decimals_of(number.value) > decimals)
        notes.append("rounded to %s, which changes %s" % (counted(decimals, "decimal"), counted(changed, "cell")))
    least, greatest = min(made.values()), max(made.values())
    null_number = None
    if empty:
        null_number = scaled(null, decimals)
        notes.append(empty_note(raw, empty, null_number, proposed, made, strange))
        made.update(dict.fromkeys(empty, null_number))
    texts = {cell: str(value) for cell, value in made.items()}
    return Column(raw.name, "INT", raw.cells, texts, notes, least, greatest, null_number, frozenset(empty))


def null_for(least):
    """A whole number that stands for empty cells and for no other: -1, or one below the least."""
    return Decimal(-1) if least >= 0 else least.to_integral_value(rounding="ROUND_FLOOR") - 1


def power_for(values, wished):
    """With how many decimals all numbers can be kept, and whether they need more: as many as are wished for, or as they
    have, as long as they stay within the limit of a number."""
    needed = max(map(decimals_of, values))
    decimals = min(needed, MOST_DECIMALS) if wished is None else wished
    widest = max(abs(value) for value in values)
    while wished is None and decimals and widest.scaleb(decimals) > GREATEST_NUMBER:
        decimals -= 1
    return decimals, needed > decimals


def spelling_notes(raw, numbers):
    """What was left out of the numbers' spelling."""
    notes = []
    signed = next((number.sign for number in numbers.values() if number.sign), "")
    if signed:
        notes.append("without its %s" % signed)
    grouped = next((cell for cell, number in numbers.items() if number.grouped), None)
    if grouped is not None:
        notes.append("without the marks of thousands, as in %s" % shown_cell(grouped))
    return notes


def empty_note(raw, empty, null, proposed, made, strange):
    """What is told of the cells that are no number."""
    count = sum(raw.distinct[cell] for cell in empty)
    words = sorted({cell.strip() or "empty" for cell in empty} - {"empty"})
    what = "empty" if not words else "empty or %s" % shown_cells(words) if len(words) < len(empty) else shown_cells(words)
    note = "%s %s and %d here" % (counted(count, "cell is", "cells are"), what, null)
    if proposed:
        note += " (--null %s=N sets another number)" % raw.name
    same = sum(raw.distinct[cell] for cell, value in made.items() if value == null)
    if same:
        note += ", which %s too" % counted(same, "other cell is", "other cells are")
    return note


def date_columns(raw, wishes, taken, room):
    """A column of dates as it is, and one of their days or seconds since 1970, or None where the cells are no dates."""
    cells = [cell for cell in raw.distinct if cell.strip() not in wishes.missing]
    orders = [] if wishes.dates == "no" or not cells else fitting_orders(cells, wishes.dates)
    if not orders:
        return None
    if len(orders) > 1:
        return [text_column(raw, ["dates, of which it can't be told whether the day or the month stands first: --dates dmy, or mdy"])]
    if not room:
        return [text_column(raw, ["dates, with no room for a column of their days"])]
    moments = {cell: moment_of(cell, orders[0]) for cell in cells}
    timed = any(moment.timed for moment in moments.values())
    numbers = {cell: moment.day * DAY_SECONDS + moment.second if timed else moment.day for cell, moment in moments.items()}
    name = unused(raw.name + ("_second" if timed else "_day"), taken)
    return [text_column(raw, ["dates, as numbers in %s" % name_in_script(name)]), moment_column(raw, name, numbers, wishes, timed)]


def fitting_orders(cells, wished):
    """The orders of year, month and day in which all cells are dates: one, or both of dmy and mdy where they differ."""
    tried = [order for order in DATE_ORDERS if wished is None or order == wished or order in ("ymd", "named")]
    fitting = [order for order in tried if all(moment_of(cell, order) for cell in cells)]
    if len(fitting) > 1 and all(moment_of(cell, "dmy") == moment_of(cell, "mdy") for cell in cells):
        return fitting[:1]
    return fitting


def moment_column(raw, name, numbers, wishes, timed):
    """The column of the days or seconds of dates."""
    example = next(iter(numbers))
    notes = ["%s since 1970-01-01, so %s is %d" % ("seconds" if timed else "days", shown_cell(example), numbers[example])]
    least, greatest = min(numbers.values()), max(numbers.values())
    made, null = dict(numbers), None
    empty = [cell for cell in raw.distinct if cell not in numbers]
    if empty:
        said = wishes.nulls.get(name, wishes.null)
        null = int(null_for(Decimal(least)) if said is None else said)
        notes.append(empty_note(raw._replace(name=name), empty, null, said is None, made, []))
        made.update(dict.fromkeys(empty, null))
    texts = {cell: str(value) for cell, value in made.items()}
    return Column(name, "INT", raw.cells, texts, notes, least, greatest, null, frozenset(empty))


def counted(number, one, many=None):
    """A number with its word, as in `1 cell` and `2 cells`."""
    return "%s %s" % (format(number, ","), one if number == 1 else many or one + "s")


def shown_cell(cell):
    """A cell as a note shows it."""
    cell = cell.strip()
    return cell if len(cell) <= 30 else cell[:27] + "..."


def shown_cells(cells):
    """The first of some cells as a note shows them."""
    more = ", ..." if len(cells) > SHOWN_CELLS else ""
    return ", ".join("'%s'" % shown_cell(cell) for cell in cells[:SHOWN_CELLS]) + more
