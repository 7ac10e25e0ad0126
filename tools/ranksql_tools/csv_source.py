"""Reads the records of a CSV or TSV file as it is: its packing, its encoding, its delimiter and its quotes."""

import codecs
import csv
import gzip
import io
import re
import shutil
import sys
import tempfile
import zlib
from collections import Counter
from typing import NamedTuple

from .csv_json import NoRows, is_json, records_of
from .refusal import READ, TABLE, Refusal

# What is held in memory of a file before it is put on the disk.
HELD = 64 * 1024 * 1024
CHUNK = 1024 * 1024
# How much of a file is looked at to find its encoding, and its delimiter.
LOOKED_AT_BYTES = 4096
LOOKED_AT = 256 * 1024
LOOKED_AT_RECORDS = 500
DELIMITERS = {"comma": ",", "tab": "\t", "semicolon": ";", "bar": "|", "space": " "}
# A space is never found, since a text has spaces too: it has to be named.
FOUND_DELIMITERS = ",\t;|"
NOT_TEXT = (
    (b"PK\x03\x04", "a ZIP archive, such as a spreadsheet (.xlsx, .ods)"),
    (b"\xd0\xcf\x11\xe0", "an old spreadsheet (.xls)"),
    (b"%PDF", "a PDF document"),
    (b"SQLite format 3", "a database of SQLite"),
    (b"BZh", "packed by bzip2"),
    (b"\xfd7zXZ", "packed by xz"),
    (b"PAR1", "a Parquet file"),
    (b"RDX", "data of R"),
    (b"<!DOCTYPE", "a web page (HTML)"),
    (b"<!doctype", "a web page (HTML)"),
    (b"<html", "a web page (HTML)"),
    (b"<?xml", "XML"),
)
PACKED = b"\x1f\x8b"
MARKS = (
    (codecs.BOM_UTF8, "utf-8-sig"),
    (codecs.BOM_UTF32_LE, "utf-32"),
    (codecs.BOM_UTF32_BE, "utf-32"),
    (codecs.BOM_UTF16_LE, "utf-16"),
    (codecs.BOM_UTF16_BE, "utf-16"),
)
NUL_BYTES = "%s has NUL bytes, so it is no text, or is in another encoding (--encoding)"
SEPARATOR_LINE = re.compile(r"sep=(.)\r?\n?")

csv.field_size_limit(CHUNK * 32)


class Quotes(NamedTuple):
    """A way to read quotes: the words of `csv.reader`, and what is told of it, if anything."""

    words: dict
    note: str


DOUBLED = Quotes({"strict": True}, "")
ESCAPED = Quotes({"strict": True, "doublequote": False, "escapechar": "\\"}, 'a quote inside quotes is written \\"')
ORDINARY = Quotes({"quoting": csv.QUOTE_NONE}, "quotes are ordinary characters of the cells")
LENIENT = Quotes({}, "some cells have characters behind their closing quote, which join the cell")


class Shape(NamedTuple):
    """What a first pass over the records finds: the header, how many rows have how many fields, whether a field behind
    those of the header is ever filled, and how many blank lines and cells with line ends there are."""

    header: list
    lengths: Counter
    filled_behind: bool
    blank: int
    many_lines: int


class Source:
    """A file whose records can be read more than once."""

    def __init__(self, path, spooled, encoding, delimiter, skipped):
        self.path, self.encoding, self.delimiter, self.skipped = path, encoding, delimiter, skipped
        self.quotes, self.after_space, self.is_json = DOUBLED, delimiter == " ", False
        self._spooled = spooled

    def close(self):
        self._spooled.close()

    def text(self):
        """The text from its first line that isn't skipped."""
        self._spooled.seek(0)
        text = io.TextIOWrapper(Unclosed(self._spooled), encoding=self.encoding, newline="")
        for _ in range(self.skipped):
            text.readline()
        return text

    def records(self):
        """Each record with the number of its last line. A blank line is an empty record."""
        reader = csv.reader(self.text(), delimiter=self.delimiter, skipinitialspace=self.after_space, **self.quotes.words)
        try:
            for record in reader:
                yield reader.line_num + self.skipped, record
        except UnicodeError as error:
            place = "behind line %d" % (reader.line_num + self.skipped)
            raise Refusal(TABLE, "%s isn't in %s %s: %s" % (self.path, self.encoding, place, error.reason)) from None
        except csv.Error as error:
            raise csv.Error("line %d: %s" % (reader.line_num + self.skipped, error)) from None

    def take_records(self, records):
        """Puts the records of a JSON text in the place of the file's bytes."""
        self._spooled.close()
        self._spooled = tempfile.SpooledTemporaryFile(max_size=HELD)
        text = io.TextIOWrapper(Unclosed(self._spooled), encoding="utf-8", errors="surrogatepass", newline="")
        csv.writer(text, lineterminator="\n").writerows(records)
        text.flush()
        self.encoding, self.delimiter, self.skipped, self.is_json = "utf-8", ",", 0, True

    def shape(self):
        """One pass over all records. It fails as `csv.reader` does where the quotes aren't those that are read."""
        header, lengths, filled_behind, blank, many_lines = None, Counter(), False, 0, 0
        for _, record in self.records():
            if not record:
                blank += 1
                continue
            if header is None:
                header = record
                continue
            lengths[len(record)] += 1
            filled_behind = filled_behind or any(record[len(header):])
            many_lines += sum("\n" in cell or "\r" in cell for cell in record)
        if header is None:
            raise Refusal(TABLE, "%s is empty" % self.path)
        return Shape(header, lengths, filled_behind, blank, many_lines)


class Unclosed(io.RawIOBase):
    """Reads from a file or writes to it, and doesn't close it when it is closed itself."""

    def __init__(self, file):
        super().__init__()
        self._file = file

    def readable(self):
        return True

    def writable(self):
        return True

    def write(self, data):
        return self._file.write(data)

    def readinto(self, room):
        data = self._file.read(len(room))
        room[:len(data)] = data
        return len(data)


def open_source(path, encoding=None, delimiter=None, skipped=0):
    """The file of a path, `-` for standard input, with its encoding and delimiter found where they aren't named."""
    spooled = spool(path)
    try:
        encoding = encoding or find_encoding(path, spooled)
        source = Source(path, spooled, encoding, delimiter or ",", skipped)
        try:
            looked_at = source.text().read(LOOKED_AT)
        except UnicodeError as error:
            raise Refusal(TABLE, "%s isn't in %s: %s" % (path, encoding, error.reason)) from None
        except LookupError:
            raise Refusal(TABLE, "there is no encoding %s" % encoding) from None
        if "\0" in looked_at:
            raise Refusal(TABLE, NUL_BYTES % path)
        if is_json(looked_at):
            source.take_records(json_records(source))
            return source
        named = SEPARATOR_LINE.match(looked_at)
        if named:
            source.skipped += 1
            looked_at = looked_at[named.end():]
        source.delimiter = delimiter or (named and named[1]) or find_delimiter(looked_at)
        source.after_space = source.delimiter == " " or source.delimiter + ' "' in looked_at
        return source
    except BaseException:
        spooled.close()
        raise


def json_records(source):
    """The records of a JSON file, or a refusal of one that has no rows."""
    try:
        return records_of(source.text().read())
    except UnicodeError as error:
        raise Refusal(TABLE, "%s isn't in %s: %s" % (source.path, source.encoding, error.reason)) from None
    except (NoRows, RecursionError) as error:
        raise Refusal(TABLE, "%s is JSON, and holds no rows: %s; a list of objects, or an object a line, makes a table"
                      % (source.path, str(error) if isinstance(error, NoRows) else "it is too deep")) from None


def spool(path):
    """A copy of the file that can be read twice, so that a pipe serves too. What gzip has packed is unpacked."""
    spooled = tempfile.SpooledTemporaryFile(max_size=HELD)
    try:
        copy_into(spooled, path)
    except BaseException:
        spooled.close()
        raise
    return spooled


def copy_into(spooled, path):
    """Copies a file."""
    try:
        with sys.stdin.buffer if path == "-" else open(path, "rb") as file:
            packed = file.peek(2)[:2] == PACKED
            shutil.copyfileobj(gzip.GzipFile(fileobj=file) if packed else file, spooled, CHUNK)
    except FileNotFoundError:
        raise Refusal(READ, "there is no file %s" % path) from None
    except IsADirectoryError:
        raise Refusal(READ, "%s is a folder" % path) from None
    except (EOFError, zlib.error, gzip.BadGzipFile) as error:
        raise Refusal(READ, "%s can't be unpacked: %s" % (path, error)) from None
    except (OSError, ValueError) as error:
        raise Refusal(READ, "%s can't be read: %s" % (path, getattr(error, "strerror", None) or error)) from None


def find_encoding(path, spooled):
    """The encoding that a mark at the start names; else UTF-16 where every second byte is 0, UTF-8 where the bytes are of
    it, and else Windows-1252, or Latin-1 where bytes have no meaning there."""
    spooled.seek(0)
    head = spooled.read(LOOKED_AT_BYTES)
    what = no_text(head)
    if what:
        raise Refusal(TABLE, "%s is %s: save the table as CSV first" % (path, what))
    encoding = encoding_at(head)
    if encoding:
        return encoding
    for encoding in ("utf-8", "cp1252"):
        if is_in(path, spooled, encoding):
            return encoding
    return "latin-1"


def no_text(head):
    """What a file is by its first bytes, where it is no text that could be a table; else nothing."""
    return next((what for start, what in NOT_TEXT if head.startswith(start)), "")


def encoding_at(head):
    """The encoding that a mark at the start names, or UTF-16 where every second byte is 0; else nothing."""
    for mark, encoding in MARKS:
        if head.startswith(mark):
            return encoding
    even, odd = head[0::2].count(0), head[1::2].count(0)
    if max(even, odd) * 3 > len(head) and min(even, odd) * 10 < max(even, odd):
        return "utf-16-le" if odd > even else "utf-16-be"
    return ""


def is_in(path, spooled, encoding):
    """Whether all bytes are of an encoding. A NUL byte is of none that a table is in."""
    decoder = codecs.getincrementaldecoder(encoding)()
    spooled.seek(0)
    try:
        while True:
            chunk = spooled.read(CHUNK)
            if b"\0" in chunk:
                raise Refusal(TABLE, NUL_BYTES % path)
            decoder.decode(chunk, final=not chunk)
            if not chunk:
                return True
    except UnicodeDecodeError:
        return False


def find_delimiter(text):
    """The delimiter by which most records have as many fields as the header, or one more; of several, the one that gives
    the most fields."""
    best, found = (0.0, 1), ","
    for delimiter in FOUND_DELIMITERS:
        reader = csv.reader(io.StringIO(text, newline=""), delimiter=delimiter)
        counts = [len(record) for record, _ in zip(reader, range(LOOKED_AT_RECORDS)) if record]
        if not counts or counts[0] < 2:
            continue
        fitting = sum(count in (counts[0], counts[0] + 1) for count in counts)
        key = (round(fitting / len(counts), 2), counts[0])
        if key > best:
            best, found = key, delimiter
    return found


def read_shape(source, quotes=True):
    """The shape of a file by the first way to read quotes by which it can be read, and, but for the usual way, by which
    all rows have as many fields as the header. A lenient reading that finds line ends in a cell has met a quote that is
    never closed. The way is kept in the source."""
    refused = None
    for way in (DOUBLED, ESCAPED, ORDINARY, LENIENT) if quotes else (ORDINARY,):
        source.quotes = way
        try:
            shape = source.shape()
        except csv.Error as error:
            refused = refused or error
            continue
        fits = set(shape.lengths) <= {len(shape.header)} and not (way is LENIENT and shape.many_lines)
        if way is DOUBLED or not quotes or fits:
            return shape
    raise Refusal(TABLE, "%s: the quotes can't be read (%s); --no-quotes takes them as ordinary characters"
                  % (source.path, refused))
