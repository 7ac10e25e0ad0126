"""What to do about a table's file, about a bad score, and about a file that can't be read."""

import difflib
import os
import re

from ranksql_tools.file_sorts import numbers_in_header, of_odd_file, parted_by_blanks
from ranksql_tools.limits import GREATEST_NUMBER, GREATEST_SCORE, MOST_COLUMNS, MOST_ROWS, MOST_SCRIPT_BYTES, MOST_TABLE_BYTES
from ranksql_tools.program import helper
from ranksql_tools.scores import calls_of
from ranksql_tools.script_parse import Table
from ranksql_tools.script_text import line_number, shown, width
from ranksql_tools.table_file import WORD, is_whole, name_in_script, read_file, records, text_in_script

MOST_ROWS_READ = 200_000
MISSING = ("NA", "N/A", "NAN", "NULL", "NONE", "-", "?", ".", "#N/A", "INF", "-INF")


def number_of(count, what):
    return f"{count:,} {what}{'' if count == 1 else 's'}"


def decoded(cell):
    return shown(cell.decode("utf-8", "replace"))


def record_lines(path, body, record, column=None):
    """The line of a record with its number, and a caret below a field."""
    end = record.start
    while end < len(body) and body[end:end + 1] not in (b"\n", b"\r"):
        end += 1
    line = decoded(body[record.start:end])
    front = "%4d | " % line_number(body, record.start)
    made = [f"{path}:"]
    if column is None or record.starts[column] > end:
        return [*made, front + (line if len(line) <= 110 else line[:110] + "...")]
    before = decoded(body[record.start:record.starts[column]])
    behind = line[len(before):]
    if len(before) > 70:
        before = "..." + before[-70:]
    if len(before) + len(behind) > 110:
        behind = behind[:max(10, 110 - len(before))] + "..."
    return [*made, front + before + behind, " " * (len(front) - 2) + "| " + " " * width(before) + "^"]


def statement_of(parser, path):
    """The first CREATE TABLE of a file."""
    for statement in parser.statements if parser else []:
        if isinstance(statement, Table) and statement.file.says == path:
            return statement
    return None


# ---- a table's file


def of_table(fault, parser):
    """The lines that show the place in the file, and what to do. The second value is the token of the file in the script."""
    statement = statement_of(parser, fault.name)
    token = statement.file if statement else None
    body = read_file(fault.name)
    if body is None:
        return token, [], "The file isn't a plain one that could be read a second time, so the place in it can't be shown."
    odd = of_odd_file(body, f"{helper('prepare')} {fault.name}")
    if odd:
        return token, [], odd
    found = list_of_records(body)
    if fault.variant == "NoHeader":
        return token, [], "The file is empty, or has blank lines alone. Its first line has to name the columns."
    header = [decoded(field) for field in found[0].fields]
    if fault.variant in ("HeaderDiffers", "NoColumn", "TooManyColumns"):
        return token, *of_header(fault, statement, body, found, header)
    if fault.variant == "TooManyRows":
        return token, [], (
            f"A table has at most {MOST_ROWS:,} rows. Keep a part of the file: head -n {MOST_ROWS + 1} {fault.name} >part.csv keeps the first ones."
        )
    row = fault.numbers[0]
    if row >= len(found):
        return token, [], "The file has changed since the program read it. Run the script again."
    record = found[row]
    if fault.variant == "FieldCount":
        return token, record_lines(fault.name, body, record), of_field_count(fault, found, record, header)
    if fault.variant == "OutOfOrder":
        return token, record_lines(fault.name, body, record, 1), of_order(fault)
    column = fault.numbers[1] - 1
    lines = record_lines(fault.name, body, record, column if column < len(record.starts) else None)
    name = statement.columns[column][0].says if statement and column < len(statement.columns) else header[column] if column < len(header) else ""
    if fault.variant == "NotUtf8":
        return token, lines, (
            f"{f'Row {row}' if row else 'The header'} has a text in column {fault.numbers[1]} that isn't UTF-8. The file was likely saved in Latin-1: {helper('prepare')}"
            f" {fault.name} writes it anew, and so does iconv -f CP1252 -t UTF-8 {fault.name} >NEW."
        )
    cells = [other.fields[column] for other in found[1:] if column < len(other.fields)]
    return token, lines, of_cell(record.fields[column], name, row, cells, fault.name)


def list_of_records(body):
    made = []
    for record in records(body):
        made.append(record)
        if len(made) > MOST_ROWS_READ:
            break
    return made


def of_field_count(fault, found, record, header):
    """What to do where a row has too many or too few fields."""
    row, count = fault.numbers
    wanted = len(header)
    says = f"Row {row} has {number_of(count, 'field')}, and the header has {wanted}."
    if count > wanted:
        return f"{says} A field that has a comma stands between double quotes: \"a, b\". {helper('prepare')} {fault.name} says which rows it leaves out."
    if any(b"\n" in field for field in record.fields):
        return f"{says} A double quote begins a field and is closed lines further down, or never. Double it, or take it away."
    short = sum(len(other.fields) < wanted for other in found[1:])
    more = f" {short:,} rows are shorter than the header." if short > 1 else ""
    return (
        f"{says}{more} Each field that is empty needs its comma. {helper('prepare')} {fault.name} puts empty cells at the end of such rows, and"
        " counts them."
    )


def kinds_of(found, count):
    """INT or TEXT for each column, by all its cells."""
    whole = [True] * count
    for record in found[1:]:
        for place, cell in enumerate(record.fields[:count]):
            if whole[place] and not is_whole(cell):
                whole[place] = False
    return ["INT" if is_int and len(found) > 1 else "TEXT" for is_int in whole]


def of_header(fault, statement, body, found, header):
    """What to do where the header isn't that of the statement."""
    path = fault.name
    lines = record_lines(path, body, found[0])
    if len(header) > MOST_COLUMNS and fault.variant != "NoColumn":
        return lines, f"The file has {len(header)} columns, and a table has {MOST_COLUMNS} at most. {helper('prepare')} {path} writes a file with those that you name."
    for delimiter, name in ((";", "semicolons"), ("\t", "tabs"), ("|", "bars")):
        if len(header) == 1 and delimiter in found[0].fields[0].decode("utf-8", "replace"):
            return lines, f"The fields of the file are parted by {name}, and a table file has commas. {helper('prepare')} {path} writes such a file, and its CREATE TABLE."
    if len(header) == 1 and parted_by_blanks(header[0], [decoded(record.fields[0]) for record in found[1:] if len(record.fields) == 1]):
        return lines, (
            f"The fields of the file are parted by blanks, and a table file has commas. {helper('prepare')} --delimiter space {path} writes such a"
            " file, and its CREATE TABLE."
        )
    wanted = [column[0].says for column in statement.columns] if statement else []
    row = row_in_front(path, found, header, wanted)
    if row:
        return lines, row
    if fault.variant == "NoColumn":
        return lines, f"The header has no such column. It has: {', '.join(header[:20])}{', ..' if len(header) > 20 else ''}."
    if len(set(header)) < len(header) or "" in header:
        return lines, f"The header has an empty name, or one name twice, which no table can have. {helper('prepare')} {path} writes a file with names that fit."
    kinds = kinds_of(found, len(header))
    name = statement.name.text if statement else "t"
    columns = ", ".join(f"{name_in_script(column)} {kind}" for column, kind in zip(header, kinds))
    says = "The header of the file has to name the same columns as the statement, in the same order, letter by letter."
    if statement:
        place = fault.numbers[0] - 1
        in_file = f"`{header[place]}`" if place < len(header) else "no column"
        in_script = f"`{wanted[place]}`" if place < len(wanted) else "no column"
        says = f"Column {place + 1} is {in_file} in the file and {in_script} in the statement; all columns of the file have to be named, in its order."
    made = f"{says} This fits: CREATE TABLE {name} ({columns}) FROM {text_in_script(path)};"
    if len(wanted) == len(header) and not {one.lower() for one in wanted} & {one.lower() for one in header}:
        made += f" But if the first line is a row, the file has no header: {helper('prepare')} --no-header {path} makes a table that keeps this row."
    return lines, made


def row_in_front(path, found, header, wanted):
    """What to do where the first line of a file seems to be a row, since it has numbers where the rows have; else nothing."""
    columns = [[decoded(record.fields[place]) for record in found[1:] if place < len(record.fields)] for place in range(len(header))]
    numbers = numbers_in_header(header, columns)
    if not numbers:
        return ""
    made = (
        f"The first line has {listed(numbers)}, where the rows below it have numbers too, so it seems to be a row, and the file to have no header."
        f" {helper('prepare')} --no-header {path} makes a table that keeps this row."
    )
    if len(wanted) == len(header) and all(WORD.fullmatch(name) for name in wanted):
        made += f" Or put the line `{','.join(wanted)}` in front of it."
    return made


def listed(names):
    """The first of some names."""
    return ", ".join(names[:3]) + (" .." if len(names) > 3 else "")


def of_cell(cell, name, row, cells, path):
    """What to do about a cell of an INT column that is no whole number."""
    text = decoded(cell)
    bad = sum(not is_whole(other) for other in cells)
    more = f" {number_of(bad, 'cell')} of {len(cells):,} in the column {'is' if bad == 1 else 'are'} no whole number."
    front = f"The column {name} is INT, and its cell in row {row} is "
    prepare = f"{helper('prepare')} {path}"
    if text.strip() == "":
        return f"{front}empty.{more} {prepare} --null -1 puts -1 into such cells; any number that the column doesn't have will do."
    if text.strip().upper() in MISSING:
        return f"{front}`{text}`, which means \"missing\".{more} {prepare} --null -1 puts -1 into such cells; any number that the column doesn't have will do."
    if re.fullmatch(r"\s+\S.*|.*\S\s+", text) and is_whole(text.strip().encode()):
        return f"{front}`{text}`, with a blank.{more} {prepare} takes the blanks away."
    if re.fullmatch(r"[+-]?\d*\.\d+|[+-]?\d+\.|[+-]?\d+,\d+", text) and not re.fullmatch(r"[+-]?\d{1,3}(,\d{3})+", text):
        return f"{front}the decimal number {text}.{more} {prepare} multiplies the column by a power of ten, so that all are whole."
    if re.fullmatch(r"[+-]?\d{1,3}([,' .\u00a0\u202f]\d{3})+", text):
        return f"{front}`{text}`, with its digits in groups.{more} {prepare} writes it without groups."
    if re.fullmatch(r"[+-]?[\d.]+[eE][+-]?\d+", text):
        return f"{front}`{text}`, with an exponent.{more} {prepare} writes all digits, where it can."
    if re.fullmatch(r"[+-]?\d+", text):
        return f"{front}{text}, beyond {GREATEST_NUMBER:,}.{more} Make the column TEXT, or measure in a greater unit."
    if re.fullmatch(r"\d{4}-\d\d-\d\d.*|\d{1,2}[./]\d{1,2}[./]\d{2,4}", text):
        return f"{front}the date {text}.{more} Make the column TEXT, or let {prepare} make a number of each date."
    if re.search(r"\d", text) and re.fullmatch(r"\W*[\d.,]+\s*\W*|\W*[\d.,]+\s*(EUR|USD|GBP|km|kg|m)", text):
        return f"{front}`{text}`, with a unit.{more} Take the unit away in the file, or make the column TEXT."
    return f"{front}the text `{text}`.{more} Make the column TEXT: {name_in_script(name)} TEXT."


# ---- scores


def of_score(fault, parser):
    """The token of the term or the index, the rows of the call, and what to do."""
    score, most, *rows = fault.numbers
    side = f"above MAX {most:,}" if score > most else "below 0"
    for call in calls_of(parser, fault.name) if parser else []:
        if len(call.tables) != len(rows) or any(row > len(table.records) for row, table in zip(rows, call.tables)):
            continue
        try:
            if call.score(rows) != score:
                continue
            given = call.given(rows)
        except (ValueError, IndexError, KeyError, RecursionError, TypeError):
            continue
        lines = []
        for row, table in zip(rows, call.tables):
            lines += record_lines(table.path, table.body, table.records[row - 1])
        values = ", ".join(f"{column[0].says} = {decoded(value) if isinstance(value, bytes) else value}" for column, value in zip(call.predicate.columns, given))
        return call.token, lines, f"For {values} the score of {fault.name} is {score}, which is {side}. {bounded(fault.name, score, most, call)}"
    what = "row" if len(rows) == 1 else "rows"
    return None, [], f"The score of {fault.name} for {what} {' '.join(map(str, rows))} is {score}, which is {side}. {bounded(fault.name, score, most, None)}"


def bounded(name, score, most, call):
    """How to keep the scores of a predicate between 0 and MAX."""
    if call and len(call.tables) == 1 and len(call.tables[0].records) <= MOST_ROWS_READ:
        try:
            scores = [call.score([row]) for row in range(1, len(call.tables[0].records) + 1)]
        except (ValueError, IndexError, KeyError, RecursionError, TypeError):
            scores = [score]
        least, greatest = min(scores), max(scores)
        over = f"Over all rows of {call.names[0]} the scores are {least:,} to {greatest:,}."
        if least >= 0 and greatest <= GREATEST_SCORE:
            return f"{over} Write MAX {greatest}, or bound the formula: AS MIN({most}, ..)."
        if least < 0:
            return f"{over} A score is 0 at least: bound the formula by MAX(0, ..), or choose it so that the least is 0." + (
                f" Above, MAX {greatest} would do." if greatest > most else ""
            )
        return f"{over} Let the formula divide, so that no score is above {GREATEST_SCORE:,}."
    if score < 0:
        return "A score is 0 at least: bound the formula by MAX(0, ..)."
    return f"Write a greater MAX in CREATE PREDICATE {name}, or bound the formula: AS MIN({most}, ..)."


def of_top(fault, path, column):
    """A bad number of `top`."""
    number, most, row = fault.numbers[:3]
    body = read_file(path)
    lines, reach = [], ""
    if body is not None:
        found = list_of_records(body)
        names = [decoded(field) for field in found[0].fields] if found else []
        if column in names and row < len(found):
            place = names.index(column)
            lines = record_lines(path, body, found[row], place)
            values = [int(record.fields[place]) for record in found[1:] if place < len(record.fields) and is_whole(record.fields[place])]
            if values:
                reach = f" The column has numbers from {min(values):,} to {max(values):,}."
    if number < 0:
        return lines, f"The number {number} in row {row} is below 0, and `top` ranks numbers from 0 to MAX.{reach} For others write a script with a predicate."
    return lines, f"The number {number} in row {row} is above the MAX {most} of the command line.{reach} Give the greatest one as MAX."


def of_feed_score(fault, paths):
    """A number of a feed that is no score. The left file is wholly looked at before the right one."""
    number, most, row = fault.numbers[:3]
    lines = []
    for path in paths:
        body = read_file(path)
        found = list_of_records(body) if body is not None else []
        if row < len(found) and found[row].fields[1:] and is_whole(found[row].fields[1]) and int(found[row].fields[1]) == number:
            lines = record_lines(path, body, found[row], 1)
            break
    return lines, f"The score {number} in row {row} of a feed lies outside 0 to {most:,}. Divide all scores of both feeds by one number, or add one number to all of a feed."


def of_feed_header(fault):
    """A header that isn't that of a feed."""
    body = read_file(fault.name)
    odd = of_odd_file(body, f"{helper('prepare')} {fault.name}") if body is not None else ""
    if odd:
        return [], odd
    found = list_of_records(body) if body is not None else []
    lines = record_lines(fault.name, body, found[0]) if found else []
    return lines, "A feed has exactly the columns `key` and `score`, in this order, and its header names them so."


def of_order(fault):
    """A row of a feed that isn't ranked."""
    row, before, got = fault.numbers[:3]
    return (
        f"Row {row} has the score {got}, which is greater than {before}, the score of the row before it. A feed has its greatest scores first:"
        f" (head -n 1 {fault.name}; tail -n +2 {fault.name} | sort -s -t , -k 2,2nr) >NEW ranks it, where no key has a comma."
    )


# ---- files


def near_names(path):
    """A file in the same folder whose name is nearly the same."""
    folder, name = os.path.split(path)
    try:
        names = os.listdir(folder or ".")
    except OSError:
        return None
    for other in names:
        if other.lower() == name.lower():
            return os.path.join(folder, other)
    found = difflib.get_close_matches(name, names, 1, 0.7)
    return os.path.join(folder, found[0]) if found else None


def of_read(fault, parser, script):
    """The token of the file in the script, and what to do."""
    statement = statement_of(parser, fault.name)
    token = statement.file if statement else None
    what = "table" if statement else "script" if script == fault.name else "file"
    if fault.variant == "too long":
        if what == "script":
            return token, f"A script has {MOST_SCRIPT_BYTES:,} bytes at most. Split it."
        return token, f"A table's file has {MOST_TABLE_BYTES:,} bytes at most. {helper('prepare')} {fault.name} writes one with the columns that you name."
    if fault.variant == "failed":
        if os.path.isdir(fault.name or "."):
            return token, "This is a folder. Name a file in it."
        if os.path.exists(fault.name) and not os.access(fault.name, os.R_OK):
            return token, "You may not read this file. Its rights are changed by chmod."
        return token, "The system can't read this file. Look at its name: what stands in front of a `/` has to be a folder."
    kind = "script" if what == "script" else "file"
    says = f"There is no {kind} {fault.name} here." if fault.name else f"The name of the {kind} is empty."
    if what == "table" and script:
        beside = os.path.join(os.path.dirname(script), fault.name)
        if os.path.dirname(script) and not os.path.isabs(fault.name) and os.path.exists(beside):
            return token, (
                f"{says} A file's name counts from the folder in which the program runs, and this file lies beside the script: write"
                f" FROM {text_in_script(beside)}, or go to the script's folder first (cd {os.path.dirname(script)})."
            )
    close = near_names(fault.name) if fault.name else None
    if close:
        return token, f"{says} Did you mean {close}?"
    if what == "table":
        return token, f"{says} A file's name counts from the folder in which the program runs, not from that of the script."
    return token, says
