"""What to do about the lines that ranksql_ask puts beside those of ranksql."""

import os
from itertools import islice

from ranksql_tools.bind_advice import closest
from ranksql_tools.data_advice import near_names, record_lines
from ranksql_tools.limits import GREATEST_SEED, MOST_PARAMETERS, MOST_TABLE_BYTES
from ranksql_tools.script_parse import Predicate
from ranksql_tools.table_file import read_file, records

FORM = "ranksql_ask NAMES SCORES QUESTIONS ANSWERS run SCRIPT SEED"
RECORD = "the predicate's name, its arguments, and then the score, as in fits,Silent Letter 1,114,37"


def is_asking(words):
    """Whether words are those of ranksql_ask, with the four in front of a word of the program."""
    return len(words) in (6, 7) and words[4] in ("run", "plain")


def of_usage(words):
    """What to do about a faulty command line."""
    if not is_asking(words):
        return f"The form is `{FORM}`, or `plain SCRIPT` behind ANSWERS. Another word isn't there."
    names = words[0].split(",")
    if any(not name or name != name.strip() for name in names) or len(set(names)) < len(names):
        return "NAMES are names of predicates with commas between them, without blanks beside them and each once: fits,near."
    if words[4] == "plain" and len(words) == 7:
        return "`plain` takes no sample, so it has no seed."
    if words[4] == "run" and len(words) == 6:
        return "The seed is missing, a number of your choice behind the script."
    if words[4] == "run" and not (words[6].isascii() and words[6].isdigit() and int(words[6]) <= GREATEST_SEED):
        return f"SEED is a whole number from 0 to {GREATEST_SEED:,}, and `{words[6]}` is none."
    return f"The form is `{FORM}`, or `plain SCRIPT` behind ANSWERS."


def of_scores(fault, words):
    """The record of the file of scores that is refused, and what to do."""
    if fault.variant == "InUse":
        return [], (
            "Another run of ranksql_ask has this file of scores open. Wait until it ends, or name another file. The file is free as soon as that run"
            " has ended, also where it was killed."
        )
    if fault.variant == "NotEnded":
        return [], (
            f"The last record of {fault.name} has no line feed behind it, or a quote in it is never closed, as where a run was broken off while it wrote."
            " Take this record away, and its question is asked again; all records before it count."
        )
    body, number = read_file(fault.name), fault.numbers[0]
    found = list(islice(records(body), number)) if body is not None else []
    if len(found) < number:
        return [], "The file has changed since the program read it. Start it again."
    record = found[-1]
    place = {"NotUtf8": fault.numbers[-1] - 1, "NotScore": len(record.starts) - 1, "NotAsked": 0}.get(fault.variant)
    return record_lines(fault.name, body, record, place), of_record(fault, record, words[0])


def of_record(fault, record, names):
    """What to do about a record that is no known score."""
    if fault.variant == "FieldCount":
        return f"A record has {RECORD}: 3 to {MOST_PARAMETERS + 2} fields. This one has {fault.numbers[1]}."
    if fault.variant == "NotAsked":
        name = record.fields[0].decode("utf-8", "replace")
        return f"`{name}` isn't among NAMES, which are {names}. Put it there, or take its records out of the file."
    if fault.variant == "NotUtf8":
        return "This field isn't UTF-8. The file was likely edited and saved in Latin-1; iconv -f CP1252 -t UTF-8 OLD >NEW writes it anew."
    if fault.variant == "NotScore":
        return "The last field of a record is its score, a whole number of digits alone."
    return "This question stands further up too. Take away the record whose score is wrong."


def of_ask(fault, parser):
    """What to do about a name of NAMES, or about two words that name one file."""
    if fault.variant != "no predicate":
        return (
            f"{fault.variant[0].upper()}{fault.variant[1:]}: what is written for one would be read by the other. Give each of QUESTIONS, ANSWERS and"
            " SCORES a path of its own, such as a FIFO or /dev/fd/3, and none that of standard output or standard error."
        )
    made = [statement.name.says for statement in parser.statements if isinstance(statement, Predicate)] if parser else []
    close = closest(fault.name, made)
    if close:
        return f"The script makes no predicate {fault.name}, so nothing would be asked for it. Did you mean {close}?"
    shown = f" It makes {', '.join(made[:12])}{', ..' if len(made) > 12 else ''}." if made else ""
    return f"The script makes no predicate {fault.name}, so nothing would be asked for it.{shown}"


def of_read(fault, words):
    """What to do where SCORES or ANSWERS can't be read, or nothing where the file is another one."""
    if fault.name == words[3]:
        if fault.variant == "missing":
            close = near_names(fault.name) if fault.name else None
            meant = f" Did you mean {close}?" if close else f" `mkfifo {fault.name}` makes a FIFO, into which who answers writes."
            return f"ANSWERS names {fault.name}, which isn't there.{meant}"
        return "ANSWERS can't be opened to be read. It is a path, such as a FIFO, /dev/fd/N or /dev/stdin."
    if fault.name == words[1]:
        if fault.variant == "too long":
            return f"A file of scores has {MOST_TABLE_BYTES:,} bytes at most. Take the records of other predicates and of old questions out of it."
        folder = os.path.dirname(fault.name)
        return f"SCORES can't be read.{f' There is no folder {folder}.' if folder and not os.path.isdir(folder) else ''}"
    return ""


def of_write():
    return "QUESTIONS or SCORES can't be opened to be written, or standard output took no more. What was answered is in SCORES."


def of_lost(words):
    """What to do where an answer couldn't be kept."""
    return (
        f"This score was paid for, and could not be written to SCORES: the disk is full, or the file may not be written. Put the line that stands here"
        f" behind the last one of {words[1]}, and it isn't asked for again."
    )


AGAIN = "What was answered is in SCORES: the same words again ask only for the rest."


def of_probe(fault):
    """What to do where the asking ended without an answer."""
    if fault.variant == "closed":
        return f"Who answers has ended: it reads no more questions, or its answers have ended. {AGAIN}"
    if fault.variant == "read":
        return f"ANSWERS could not be read. {AGAIN}"
    if fault.variant:
        return (
            f"The answer to a question of {fault.name} isn't a whole number in a line of its own. Answer with digits alone, from 0 to its MAX; for decimals"
            f" multiply all its scores and MAX by a power of ten. {AGAIN}"
        )
    return f"No answer came to a question of {fault.name}: who answers has ended, or put something that is no whole number. {AGAIN}"


def of_answer(fault):
    """What to do about an answer outside 0 to MAX."""
    score, most = fault.numbers
    name = fault.name.split(",")[0]
    return f"{bad_score(name, score, most)} It isn't kept, so the same words again ask for it once more."


def of_score(fault):
    """What to do about a known score outside 0 to MAX."""
    score, most = fault.numbers[:2]
    return f"{bad_score(fault.name, score, most)} Where it stands in SCORES, take its record away."


def bad_score(name, score, most):
    side = f"above MAX {most:,}" if score > most else "below 0"
    return f"The score {score} of {name} is {side}. Let who answers keep to 0 to {most:,}, or write another MAX in CREATE PREDICATE {name}."


def of_differs():
    return (
        "A run didn't begin with the rows that one before it put. No case of this is known: keep the script, its tables and SCORES, and tell who"
        " maintains the program."
    )
