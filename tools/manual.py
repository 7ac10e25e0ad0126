#!/usr/bin/env python3
"""Makes the manual page ranksql(1) from docs/FORMATS.md, docs/GRAMMAR.md and the examples, and ranksql_ask(1) from docs/ASKED.md, so
that they say what these say.

usage: tools/manual.py >docs/ranksql.1
       tools/manual.py ask >docs/ranksql_ask.1

checks/gate/documents.py compares the pages in docs with what this makes."""

import os
import re
import sys

ROOT = os.path.dirname(os.path.dirname(os.path.realpath(__file__)))


class Missing(Exception):
    """A part that the page needs isn't in its document."""


def read(name):
    with open(os.path.join(ROOT, name), encoding="utf-8") as file:
        return file.read()


def section(document, heading):
    """The lines of a section, up to the next heading."""
    lines = read(document).splitlines()
    for start, line in enumerate(lines):
        if line.lstrip("#") == " " + heading and line.startswith("#"):
            break
    else:
        raise Missing(f"{document} has no section {heading}")
    end = next((place for place in range(start + 1, len(lines)) if lines[place].startswith("#")), len(lines))
    return lines[start + 1:end]


def table(lines, first):
    """The rows of the table whose first column has this name."""
    for start, line in enumerate(lines):
        if line.startswith("|") and cells(line)[0] == first:
            rows = []
            for row in lines[start + 2:]:
                if not row.startswith("|"):
                    return rows
                rows.append(cells(row))
            return rows
    raise Missing(f"there is no table of {first}")


def cells(row):
    return [cell.strip() for cell in row.strip().strip("|").split("|")]


def blocks(lines):
    """The indented blocks of a section, each as its lines."""
    found, current = [], []
    for line in [*lines, ""]:
        if line.startswith("    "):
            current.append(line[4:])
        elif current:
            found.append(current)
            current = []
    return found


def escaped(text):
    """A text as roff has it: marks of the documents are taken away, code is bold, and a line never begins a request."""
    text = text.replace("\\", "\\e").replace("-", "\\-")
    text = re.sub(r"\[([^\]]*)\]\([^)]*\)", r"\1", text)
    text = re.sub(r"`([^`]*)`", r"\\fB\1\\fR", text)
    text = re.sub(r"\*\*([^*]*)\*\*", r"\\fB\1\\fR", text)
    return "\\&" + text if text[:1] in (".", "'") else text


def plain(text):
    """A text of an example, as it stands."""
    text = text.replace("\\", "\\e").replace("-", "\\-").replace("'", "\\(aq").replace("`", "\\(ga")
    return "\\&" + text if text[:1] == "." else text


def example(lines):
    return [".PP", ".RS 4", ".nf", *(plain(line) for line in lines), ".fi", ".RE"]


def entries(rows):
    """A list of words, each with what it means."""
    made = []
    for word, *meaning in rows:
        made += [".TP", escaped(word), escaped(". ".join(part for part in meaning if part)) + "."]
    return made


def statuses():
    """Each status with its fault lines as examples."""
    made = []
    for status, line, comes in table(section("docs/FORMATS.md", "Statuses and fault lines"), "status"):
        if status:
            made += [".TP", escaped(f"**{status}**")]
        else:
            made += [".br"]
        line = re.sub(r" ?` and a text .*", " TEXT`, with one of the texts below", line)
        made.append(escaped((f"{line}: " if line != "(none)" else "") + comes.rstrip(".")) + ".")
    return made


def texts():
    """The texts of the fault lines of tables and of scripts."""
    tables = section("docs/FORMATS.md", "Statuses and fault lines")
    scripts = section("docs/GRAMMAR.md", "How a wrong script is told")
    return [
        ".SS Texts of a table's fault", *entries(table(tables, "text")),
        ".SS Lines of a script's fault", "N is the place of a byte in the script, counted from 0.", *entries(table(scripts, "line")),
        ".PP", "VARIANT is one of these.", *entries(table(scripts, "variant")),
    ]


def words():
    """The forms of the command line, and what each word is."""
    lines = section("docs/FORMATS.md", "The command line")
    return blocks(lines)[0], table(lines, "word")


def examples():
    """A run of each word, with what it prints."""
    row = section("docs/FORMATS.md", "The printed row")
    generated = section("docs/FORMATS.md", "The generated input")
    file, printed = blocks(row)[1:3]
    scanned = read("examples/films/threshold.out").splitlines()
    script, rows = read("examples/first.sql").splitlines(), read("examples/first.out").splitlines()
    return [
        ".SS top", "The three rows of the greatest price, where the file h.csv is", *example(file), ".PP",
        *example(["$ ranksql top h.csv price 100 3", *printed]),
        ".SS plain", "A script, at the top of the repository; examples/first.sql is", *example(script), ".PP",
        *example(["$ ranksql plain examples/first.sql", *rows]),
        ".SS run", "The same script by a plan, with the seed 1, prints the same rows", *example(["$ ranksql run examples/first.sql 1", *rows]),
        ".SS gen", "Tables of one row, made from the number 0", *example(["$ ranksql gen 0 1", *blocks(generated)[-1]]),
        ".SS ta", "The best film and the ten best; examples/films/threshold.sql makes the table and its two indexes",
        *example(["$ ranksql ta examples/films/threshold.sql", *scanned]),
        ".SS view", "A board of offers that stays up to date, at the top of the repository",
        *example(["$ ranksql view examples/offers/board.sql", *read("examples/offers/board.out").splitlines()]),
        ".SS feed", "The five best districts for a dinner and a bed, at the top of the repository",
        *example(["$ ranksql feed examples/feeds/restaurants.csv examples/feeds/hotels.csv 5", *read("examples/feeds/best.out").splitlines()]),
    ]


def page():
    forms, meanings = words()
    made = [
        ".\\\" Made by tools/manual.py from the documents. Change those, and make it anew.",
        '.TH RANKSQL 1 "" "ranksql" "User Commands"',
        ".SH NAME",
        "ranksql \\- answers top\\-k queries over CSV files",
        ".SH SYNOPSIS",
    ]
    for form in forms:
        made += [".B " + plain(" ".join(form.split()[:2])), plain(" ".join(form.split()[2:])), ".br"]
    made += [
        ".SH DESCRIPTION",
        "Ranks the best few combinations of rows of several tables by a weighted sum of scores. A script makes tables from CSV files,",
        "predicates that give scores, and indexes by score, and asks queries. \\fBplain\\fR scores every combination and then prints.",
        "\\fBrun\\fR chooses a plan by a sample, prints each row before it looks for the next one, and calls predicates as the",
        "plan needs them. Both print the same rows in the same order.",
        "\\fBta\\fR answers queries over one table by threshold scans of its rank indexes, and says how many accesses each scan made.",
        "\\fBfeed\\fR joins two files that are ranked already, and draws exactly the rows that the thresholds of its join ask for.",
        "\\fBcert\\fR prints the rows that it drew with the answer, and \\fBcheck\\fR says whether they prove it.",
        "\\fBview\\fR keeps the first rows of its queries up to date while rows join their tables, and calls predicates for new combinations alone.",
        ".SH WORDS",
        *entries(meanings),
        ".SH STATEMENTS",
        "A script has these statements, separated by semicolons.",
    ]
    for what, shown in table(section("docs/GRAMMAR.md", "Statements"), "statement"):
        made += [".PP", escaped(what) + ":", *example([shown.strip("`")])]
    made += [
        ".SH EXIT STATUS",
        "Where something is wrong, one line on standard error says what and where.",
        *statuses(),
        *texts(),
        ".SH EXAMPLES",
        *examples(),
        ".SH SEE ALSO",
        "\\fBranksql\\-why\\fR, which runs a script and says what to do about its fault; \\fBranksql\\-prepare\\fR, which makes a table file",
        "and its CREATE TABLE from other files; \\fBranksql\\-advise\\fR, which says beforehand what a query costs. Each has \\fB\\-\\-help\\fR.",
    ]
    return "\n".join(made) + "\n"


ASKED = "docs/ASKED.md"


def paragraphs(lines):
    """The paragraphs of a section, without its tables and lists, each as one line."""
    found = [" ".join(block.split()) for block in "\n".join(lines).split("\n\n") if block.strip() and block[:1] not in "|-"]
    return [line for text in found for line in (".PP", escaped(text))]


def prose(heading):
    """A section as it stands: paragraphs, and indented blocks as examples."""
    made, text = [], []
    for line in [*section(ASKED, heading), ""]:
        if line.startswith("    "):
            text.append(line)
            continue
        if text and text[-1].startswith("    "):
            made += example([part[4:] for part in text])
            text = []
        if line:
            text.append(line)
        elif text:
            made += paragraphs(text)
            text = []
    return made


def asked_statuses():
    """Each status beside those of ranksql, with its line."""
    made = []
    for status, comes in table(section(ASKED, "Statuses"), "status"):
        number, _, line = status.partition(", ")
        made += [".TP", escaped(f"**{number}**" + (f", {line}" if line else "")), escaped(comes) + "."]
    return made


def asked_page():
    start = section(ASKED, "Scores that are asked for")
    form = blocks(start)[0][0].split()
    return "\n".join([
        ".\\\" Made by tools/manual.py from docs/ASKED.md. Change that, and make it anew.",
        '.TH RANKSQL_ASK 1 "" "ranksql" "User Commands"',
        ".SH NAME",
        "ranksql_ask \\- answers top\\-k queries over CSV files, and asks a process for scores",
        ".SH SYNOPSIS",
        ".B " + plain(form[0]),
        plain(" ".join(form[1:5])) + " \\fBrun\\fR SCRIPT SEED",
        ".br",
        ".B " + plain(form[0]),
        plain(" ".join(form[1:5])) + " \\fBplain\\fR SCRIPT",
        ".SH DESCRIPTION",
        *(line for line in paragraphs([line for line in start if not line.startswith(("    ", "|"))])[1:]),
        ".SH WORDS",
        *entries(table(start, "word")),
        ".SH HOW TO ATTACH A SERVICE", *prose("How to attach a service")[1:],
        ".SH FILES AND PIPES", *prose("Files and pipes")[1:],
        ".SH THE GUESS", *prose("What the guess is for")[1:],
        ".SH HOW TO RESUME", *prose("How to resume")[1:],
        ".SH HOW TO STOP AT A BUDGET", *prose("How to stop at a budget")[1:],
        ".SH EXIT STATUS",
        "The statuses and lines are those of \\fBranksql\\fR(1). Besides,",
        *asked_statuses(),
        ".SH SEE ALSO",
        "\\fBranksql\\fR(1), whose scripts and tables these are; docs/ASKED.md says what is proved.",
    ]) + "\n"


def main():
    pages = {(): page, ("ask",): asked_page}
    make = pages.get(tuple(sys.argv[1:]))
    if not make:
        print(__doc__)
        return 0 if sys.argv[1] in ("--help", "-h") else 2
    try:
        sys.stdout.buffer.write(make().encode())
        sys.stdout.flush()
    except (OSError, Missing, ValueError) as fault:
        print(f"manual.py: {fault}", file=sys.stderr)
        return 1
    return 0


if __name__ == "__main__":
    sys.exit(main())
