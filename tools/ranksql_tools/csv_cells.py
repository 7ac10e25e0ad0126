"""What the cells of a real table are: numbers in their many spellings, dates, and words for no value."""

import datetime
import functools
import re
from decimal import Context, Decimal
from typing import NamedTuple

# What stands in the place of a number that isn't known.
MISSING = frozenset(["", "NA", "N/A", "n/a", "#N/A", "NaN", "nan", "NAN", "NULL", "null", "None", "none", "nil", r"\N", "-", "--",
                     "?", ".", "..", "...", "*", "#VALUE!", "#DIV/0!", "#REF!"])
LONGEST_NUMBER = 60
# Enough for every number of that length, so that nothing is rounded unless it is asked for.
EXACT = Context(prec=400)
GROUP = r"(?:\d{{1,3}}(?:{mark}\d{{3}})+|\d{{1,3}}(?:'\d{{3}})+|\d{{1,3}}(?:[ \u00a0\u202f]\d{{3}})+|\d+)"
SPELLING = (r"(?P<sign>[+-]?)(?P<front>[$\u20ac\u00a3\u00a5]?) ?(?P<whole>" + GROUP + r")?(?:{point}(?P<part>\d*))?"
            r"(?P<power>[eE][+-]?\d{{1,4}})? ?(?P<behind>[%\u20ac$\u00a3\u00a5]?)")
# A number with the decimals behind a point, and one with those behind a comma.
SPELLINGS = {
    "point": re.compile(SPELLING.format(mark=",", point=r"\."), re.ASCII),
    "comma": re.compile(SPELLING.format(mark=r"\.", point=","), re.ASCII),
}
DAYS_AND_TIME = r"(?:[ T,]+(?P<hour>\d{1,2}):(?P<minute>\d\d)(?::(?P<second>\d\d)(?:[.,]\d+)?)?)? ?(?P<zone>Z|UTC|GMT|[+-]\d\d:?\d\d)?"
YEAR_FIRST = re.compile(r"(?P<year>\d{4})([-/.])(?P<month>\d{1,2})\2(?P<day>\d{1,2})" + DAYS_AND_TIME, re.ASCII)
YEAR_LAST = re.compile(r"(?P<one>\d{1,2})([-/.])(?P<two>\d{1,2})\2(?P<year>\d{4})" + DAYS_AND_TIME, re.ASCII)
MONTH_NAMED = re.compile(
    r"(?:(?P<name>[A-Za-z]{3,9})\.? (?P<day>\d{1,2}),? (?P<year>\d{4})|(?P<day2>\d{1,2})[- ](?P<name2>[A-Za-z]{3,9})\.?[- ](?P<year2>\d{4}))"
    + DAYS_AND_TIME, re.ASCII)
MONTHS = ("jan", "feb", "mar", "apr", "may", "jun", "jul", "aug", "sep", "oct", "nov", "dec")
FULL_MONTHS = ("january", "february", "march", "april", "may", "june", "july", "august", "september", "october", "november", "december")
DATE_ORDERS = ("ymd", "dmy", "mdy", "named")
FIRST_DAY = datetime.date(1970, 1, 1)


class Number(NamedTuple):
    """The number of a cell, the sign of money or `%` beside it, whether it has zeros in front, as a code has, and whether
    marks part its thousands."""

    value: Decimal
    sign: str
    padded: bool
    grouped: bool


class Moment(NamedTuple):
    """The day of a cell, counted from 1970-01-01, the second of the day, and whether the cell has a time."""

    day: int
    second: int
    timed: bool


@functools.lru_cache(maxsize=2**18)
def number_of(cell, mark):
    """The number that a cell spells with its decimals behind a `point` or a `comma`, or None."""
    cell = cell.strip()
    if len(cell) > LONGEST_NUMBER:
        return None
    match = SPELLINGS[mark].fullmatch(cell.replace("\u2212", "-"))
    if match is None or not (match["whole"] or match["part"]) or (match["front"] and match["behind"]):
        return None
    whole = re.sub(r"\D", "", match["whole"] or "")
    value = Decimal("%s%s.%s%s" % (match["sign"], whole or "0", match["part"] or "0", match["power"] or ""))
    padded = len(whole) > 1 and whole[0] == "0" and match["part"] is None
    return Number(value, match["front"] or match["behind"], padded, whole != (match["whole"] or ""))


def decimals_of(value):
    """How many decimals a number needs."""
    return max(0, -value.normalize(EXACT).as_tuple().exponent)


def scaled(value, decimals):
    """A number times a power of ten, as a whole number: rounded, to the even one of two that are as near."""
    return int(value.scaleb(decimals, EXACT).to_integral_value(context=EXACT))


def moment_of(cell, order):
    """The day and the time that a cell spells in an order of year, month and day, or None. A zone that a cell names is
    counted in."""
    match = {"ymd": YEAR_FIRST, "named": MONTH_NAMED}.get(order, YEAR_LAST).fullmatch(cell.strip())
    if match is None:
        return None
    try:
        day = datetime.date(*date_parts(match, order))
        clock = datetime.time(*(int(match[part] or 0) for part in ("hour", "minute", "second")))
    except ValueError:
        return None
    second = clock.hour * 3600 + clock.minute * 60 + clock.second - zone_seconds(match["zone"])
    return Moment((day - FIRST_DAY).days, second, match["hour"] is not None)


def date_parts(match, order):
    """The year, the month and the day of a match."""
    if order == "ymd":
        return int(match["year"]), int(match["month"]), int(match["day"])
    if order == "named":
        name = (match["name"] or match["name2"]).lower()
        month = FULL_MONTHS.index(name) if name in FULL_MONTHS else MONTHS.index(name)
        return int(match["year"] or match["year2"]), month + 1, int(match["day"] or match["day2"])
    day, month = (match["one"], match["two"]) if order == "dmy" else (match["two"], match["one"])
    return int(match["year"]), int(month), int(day)


def zone_seconds(zone):
    """How many seconds a zone is ahead."""
    if not zone or zone in ("Z", "UTC", "GMT"):
        return 0
    ahead = int(zone[1:3]) * 3600 + int(zone[-2:]) * 60
    return -ahead if zone[0] == "-" else ahead
