"""What to do about a file that is no certificate, and about feeds of which a certificate has too many rows."""

from itertools import islice

from ranksql_tools.csv_source import PACKED
from ranksql_tools.data_advice import number_of, record_lines
from ranksql_tools.limits import GREATEST_K, GREATEST_SCORE, MOST_CERTIFICATE_ROWS
from ranksql_tools.table_file import WHOLE, read_file, records

FIRST = f"The first record of a certificate is `cert,1,K`, with K from 0 to {GREATEST_K:,}: how many pairs are wanted."
KINDS = [b"left", b"right", b"pair"]


def of_certificate(fault):
    """The lines that show the record which fits no certificate, and why it doesn't."""
    if fault.variant == "CertTooLong":
        return [], f"A certificate has at most {MOST_CERTIFICATE_ROWS:,} rows of a side, and so many pairs take more rows of this file. Ask for fewer pairs, or take `feed`, which has no such limit."
    body = read_file(fault.name)
    if body is None:
        return [], "The file isn't a plain one that could be read a second time, so the record can't be shown."
    if body.startswith(PACKED):
        return [], f"The file is packed by gzip, and a certificate is plain text: gunzip -c {fault.name} >NEW."
    place = fault.numbers[0]
    found = list(islice(records(body), place))
    if not found:
        return [], "The file has no record. " + FIRST
    if place > len(found):
        return [], "The file has changed since the program read it. Run the check again."
    return record_lines(fault.name, body, found[place - 1]), why_not(place, [record.fields for record in found])


def is_number(field):
    return bool(WHOLE.fullmatch(field)) and 0 <= int(field) <= GREATEST_SCORE


def why_not(place, found):
    """Why the last of these records can't stand behind the others."""
    fields = found[-1]
    if place == 1:
        return FIRST
    if len(fields) != 3:
        return f"A record of a certificate has three fields, and record {place} has {number_of(len(fields), 'field')}."
    kind, second, third = fields
    if kind not in KINDS:
        return "Behind the first record of a certificate come `left,SCORE,JOIN`, then `right,SCORE,JOIN`, and then `pair,I,J`."
    name = kind.decode()
    before = found[-2]
    if before[0] in KINDS and KINDS.index(kind) < KINDS.index(before[0]):
        return f"No {name} record comes behind a {before[0].decode()} record."
    if before == [kind, b"end", b"end"]:
        return f"No {name} record comes behind `{name},end,end`."
    if kind == b"pair":
        return f"The fields behind `pair` are the numbers of a left row and of a right one, from 0 to {GREATEST_SCORE:,}."
    if not is_number(second):
        return f"The second field is a score, from 0 to {GREATEST_SCORE:,}, or `end` in `{name},end,end`."
    try:
        third.decode("utf-8")
    except UnicodeDecodeError:
        return "The text by which the row is joined isn't UTF-8."
    return f"A side of a certificate has at most {MOST_CERTIFICATE_ROWS:,} rows."
