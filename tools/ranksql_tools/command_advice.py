"""What to do about the words of the command line, about cursors, and about streams."""

import os

from ranksql_tools.limits import GREATEST_K, GREATEST_SCORE, GREATEST_SEED, MOST_CURSORS, MOST_GENERATED_ROWS
from ranksql_tools.word_forms import forms


def form_of(word):
    """A word of the program with what stands behind it, as it is called."""
    return f"ranksql {word} {forms()[word]}"


def count_of(word):
    """How many words there are, with this one."""
    return 1 + len(forms()[word].split())


def of_usage(words):
    """What to do about a faulty command line."""
    if not words:
        return "A word is missing that says what to do: `run SCRIPT SEED` and `plain SCRIPT` run a script."
    word = words[0]
    if word in ("--help", "-h", "help", "-?"):
        return "The program has no --help. `run SCRIPT SEED` and `plain SCRIPT` run a script; the manual page is ranksql(1)."
    if word in ("--version", "-V", "version"):
        return "The program has no --version."
    if word not in forms():
        if word.lower() in forms():
            return f"The word is written in lower case: {word.lower()}."
        if os.path.exists(word):
            return f"A word stands in front of the script: `ranksql run {word} 1`, or `ranksql plain {word}`."
        return f"`{word}` is no word of the program. `run SCRIPT SEED` and `plain SCRIPT` run a script."
    if len(words) != count_of(word):
        return of_count(word, words)
    return of_numbers(word, words)


def of_count(word, words):
    """What to do where there are too few or too many words."""
    if word == "run" and len(words) == 2:
        return (
            f"The seed is missing, a number of your choice behind the script: ranksql run {words[1]} 1. It chooses the rows of the sample by which"
            " the plan is made; the rows that are printed are the same for each."
        )
    if word == "plain" and len(words) == 3:
        return f"`plain` takes no sample, so it has no seed: ranksql plain {words[1]}."
    many = "many" if len(words) > count_of(word) else "few"
    return f"There are too {many} words. The form is `{form_of(word)}`; a name with blanks stands between quotes of the shell."


# From which number to which one the words are that are numbers.
RANGES = {
    "MAX": (1, GREATEST_SCORE), "K": (0, GREATEST_K), "SEED": (0, GREATEST_SEED),
    "NUMBER": (0, GREATEST_SCORE), "ROWS": (1, MOST_GENERATED_ROWS),
}


def of_numbers(word, words):
    """What to do where a number is none, or out of its range."""
    for place, name in enumerate(forms()[word].split(), 1):
        if name not in RANGES:
            continue
        least, most = RANGES[name]
        text = words[place]
        if not (text.isascii() and text.isdigit() and len(text) <= 20 and least <= int(text) <= most):
            return f"{name} is a whole number from {least:,} to {most:,}, and `{text}` is none. The form is `{form_of(word)}`."
    return f"The form is `{form_of(word)}`."


def of_session(fault):
    """What to do about a cursor."""
    if fault.variant == "Unknown":
        return (
            f"No cursor {fault.name} is open here. Open it first, by DECLARE {fault.name} CURSOR FOR SELECT ..; names are compared letter by letter,"
            " and CLOSE ends a cursor."
        )
    if fault.variant == "NameTaken":
        return f"The cursor {fault.name} is still open. Close it first, by CLOSE {fault.name};, or choose another name."
    return f"{MOST_CURSORS} cursors are open, and no more can be. Close some first, by CLOSE name;."


def of_ineligible(fault):
    """What to do about a statement that a word doesn't take."""
    if fault.name == "view":
        return (
            "`view` takes CREATE TABLE, CREATE PREDICATE, CREATE RANK INDEX, INSERT, FETCH, CLOSE, and DECLARE of a query of one SELECT without"
            " DISTINCT. `run SCRIPT SEED` takes all statements."
        )
    return (
        "`ta` takes CREATE TABLE, CREATE PREDICATE, CREATE RANK INDEX, INSERT, and queries of one SELECT without DISTINCT over one table, where each"
        " predicate of ORDER BY has a rank index with the same arguments. `run SCRIPT SEED` takes all statements."
    )


def of_write():
    return "Standard output took no more: the program that reads it has ended (as head does), or the disk is full."


def of_memory():
    return "There was not enough memory. `run` keeps fewer combinations than `plain`; a smaller table or a narrower WHERE needs less."


def of_probe(fault):
    return f"A call of the predicate {fault.name} failed. The program evaluates formulas itself and never ends so."
