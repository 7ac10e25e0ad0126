"""The words of `prepare`."""

import argparse
import contextlib
import os
from typing import NamedTuple, Optional

from .command import run_command, tell
from .csv_cells import MISSING, number_of
from .csv_columns import MOST_DECIMALS, Wishes
from .csv_source import DELIMITERS
from .csv_tables import check_names, make_table, open_table
from .refusal import USAGE, Refusal

ABOUT = """\
Makes of each FILE, a real CSV, TSV or JSON, a table that ranksql reads, and prints the CREATE TABLE for it. The table is
written to NAME.table.csv in the current folder, after the name of the file. Comments of the script say what was done to each
column.
A FILE may be packed by gzip, and - is standard input."""

STATUSES = """\
The status is 0 where all tables were made, 2 for wrong words, 3 for a file that can't be read, 4 for one that can't be
written, and 6 for one that is no table. docs/PREPARE.md has examples."""


class Options(NamedTuple):
    """What the words say of a file."""

    encoding: Optional[str]
    delimiter: Optional[str]
    skip: int
    quotes: bool
    no_header: bool
    keep_names: bool
    columns: Optional[str]
    drop_empty: bool
    table: Optional[str]
    to: Optional[str]
    folder: Optional[str]
    wishes: Wishes


def parser():
    words = argparse.ArgumentParser( description=ABOUT, epilog=STATUSES, allow_abbrev=False,
                                    formatter_class=argparse.RawDescriptionHelpFormatter)
    words.add_argument("files", nargs="+", metavar="FILE", help="a CSV or TSV file, or JSON")
    table = words.add_argument_group("the table")
    table.add_argument("--columns", metavar="A,B,..", help="keep these columns, in this order: names of the file or of the script, or numbers")
    table.add_argument("--table", metavar="NAME", help="the name of the table; else it is that of the file")
    table.add_argument("--to", metavar="PATH", help="where the table is written")
    table.add_argument("--folder", metavar="FOLDER", help="the folder that tables are written to")
    table.add_argument("--keep-names", action="store_true", help="keep the names of the header, between marks where they are no words")
    cells = words.add_argument_group("the cells")
    cells.add_argument("--null", action="append", default=[], metavar="[COLUMN=]N", help="the number that stands for an empty one")
    cells.add_argument("--drop-empty", action="store_true", help="leave out rows in which a number is empty")
    cells.add_argument("--missing", action="append", default=[], metavar="WORD", help="a word that means an empty number, besides NA and the like")
    cells.add_argument("--text", action="append", default=[], metavar="COLUMN", help="a column of texts, whatever its cells are")
    cells.add_argument("--number", action="append", default=[], metavar="COLUMN", help="a column of numbers; cells that are none are empty")
    cells.add_argument("--decimals", action="append", default=[], metavar="[COLUMN=]N", help="round to N decimals; else all are kept")
    cells.add_argument("--decimal-mark", choices=("point", "comma"), help="what decimals stand behind; else it is found")
    cells.add_argument("--dates", choices=("dmy", "mdy", "no"), help="the order of day and month, or that no column is one of dates")
    source = words.add_argument_group("how the file is read, where that isn't found")
    source.add_argument("--delimiter", metavar="CHARACTER", help="what parts the fields: a character, or comma, tab, semicolon, bar, space")
    source.add_argument("--encoding", metavar="NAME", help="as utf-8, latin-1, utf-16, cp1250")
    source.add_argument("--no-header", action="store_true", help="the first line is a row")
    source.add_argument("--skip", type=int, default=0, metavar="N", help="pass over N lines in front of the header")
    source.add_argument("--no-quotes", action="store_true", help="a quote is a character like others")
    return words


def options_of(words):
    """The options, or a refusal of those that don't fit each other."""
    if len(words.files) > 1 and (words.columns or words.table or words.to):
        raise Refusal(USAGE, "--columns, --table and --to are for one FILE")
    if words.skip < 0:
        raise Refusal(USAGE, "--skip is for a number from 0 on")
    if words.table is not None and not words.table.strip():
        raise Refusal(USAGE, "--table is for a name")
    if words.folder is not None and not os.path.isdir(words.folder):
        raise Refusal(USAGE, "there is no folder %s" % words.folder)
    null, nulls = by_column("--null", words.null, null_number)
    decimals, decimals_of = by_column("--decimals", words.decimals, decimals_number)
    wishes = Wishes(words.decimal_mark, words.dates, frozenset(words.text), frozenset(words.number), null, nulls, decimals, decimals_of,
                    MISSING | {word.strip() for word in words.missing})
    return Options(words.encoding, delimiter_of(words.delimiter), words.skip, not words.no_quotes, words.no_header,
                   words.keep_names, words.columns, words.drop_empty, words.table, words.to, words.folder, wishes)


def by_column(option, words, read):
    """The value for all columns, or None, and those for some."""
    general, values = None, {}
    for word in words:
        name, sign, value = word.rpartition("=")
        if sign:
            values[name] = read(option, value)
        else:
            general = read(option, value)
    return general, values


def null_number(option, word):
    number = number_of(word, "point")
    if number is None or number.sign:
        raise Refusal(USAGE, "%s %s: this is no number" % (option, word))
    return number.value


def decimals_number(option, word):
    if not (word.isascii() and word.isdigit() and int(word) <= MOST_DECIMALS):
        raise Refusal(USAGE, "%s %s: this is no number from 0 to %d" % (option, word, MOST_DECIMALS))
    return int(word)


def delimiter_of(word):
    if word is None:
        return None
    delimiter = DELIMITERS.get(word, "\t" if word == "\\t" else word)
    if len(delimiter) != 1 or delimiter in '"\r\n\0':
        raise Refusal(USAGE, "--delimiter %s: this is no single character, nor one of %s" % (word, ", ".join(DELIMITERS)))
    return delimiter


def work(words):
    """Makes all tables that can be made. The status is that of the first one that can't."""
    options, opened, status = options_of(words), [], 0
    with contextlib.ExitStack() as closing:
        for path in words.files:
            try:
                opened.append(open_table(path, options))
                closing.callback(opened[-1].source.close)
            except Refusal as refusal:
                tell("prepare", str(refusal))
                status = status or refusal.status
        if not status:
            check_names(opened, options)
        tables, predicates = [], []
        for one in opened:
            try:
                made = make_table(one, options, tables, predicates)
            except Refusal as refusal:
                tell("prepare", str(refusal))
                status = status or refusal.status
                continue
            print("\n".join(made.script), flush=True)
            for sentence in made.told:
                tell("prepare", sentence)
    return status


def main(arguments=None):
    words = parser().parse_args(arguments)
    return run_command("prepare", lambda: work(words))
