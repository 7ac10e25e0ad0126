"""Reads a JSON file as the records of a CSV: a list of objects, or an object a line."""

import json
import re
from decimal import Decimal

# How a JSON text begins that is a list of values, or an object. A header in square brackets, as [name], is none.
BEGINS = re.compile(r"\s*(?:\[\s*[\[{\"\d\-]|\{\s*[\"}])")


class NoRows(Exception):
    """JSON that has no rows of a table."""


def is_json(text):
    """Whether a text begins as JSON does."""
    return BEGINS.match(text) is not None


def records_of(text):
    """The records of a JSON text, the header first. The names are those of the objects, in the order in which they come."""
    objects = objects_of(text)
    names = list(dict.fromkeys(name for one in objects for name in one))
    if not names:
        raise NoRows("its objects have no names")
    return [names] + [[cell_of(one.get(name)) for name in names] for one in objects]


def objects_of(text):
    """The objects that are the rows."""
    try:
        whole = value_of(text)
    except ValueError:
        return objects_by_line(text)
    if isinstance(whole, dict):
        lists = [value for value in whole.values() if is_rows(value)]
        return lists[0] if len(lists) == 1 else [whole]
    if is_rows(whole):
        return whole
    raise NoRows("it is no list of objects")


def value_of(text):
    """The value of a JSON text, with the exact numbers, since a table may scale them."""
    return json.loads(text, parse_float=Decimal, parse_constant=str)


def objects_by_line(text):
    """The objects of a text that has one in each line."""
    try:
        rows = [value_of(line) for line in text.splitlines() if line.strip()]
    except ValueError as error:
        raise NoRows("it can't be read: %s" % error) from None
    if not is_rows(rows):
        raise NoRows("its lines aren't objects")
    return rows


def is_rows(value):
    """Whether a value is a list of objects, with one at least."""
    return isinstance(value, list) and bool(value) and all(isinstance(one, dict) for one in value)


def cell_of(value):
    """A value as a cell."""
    if value is None:
        return ""
    if isinstance(value, bool):
        return "1" if value else "0"
    if isinstance(value, (dict, list)):
        return json.dumps(value, ensure_ascii=False, default=float)
    return str(value)
