"""The fault lines of the programs."""

import re
from typing import NamedTuple

SCRIPT = re.compile(r"script: (?:(lex|parse|bind|catalogue) )?(\w+) at (\d+)")
INELIGIBLE = re.compile(r"script: (ta|view) NotEligible statement (\d+)")
SCORE = re.compile(r"score: (.*) rows((?: \d+)+): (-?\d+) is not in 0\.\.(\d+)")
TABLE = re.compile(
    r"table: (.*): (NoHeader|NoColumn|TooManyRows|TooManyColumns found \d+|HeaderDiffers column \d+"
    r"|FieldCount row \d+ found \d+|NotUtf8 row \d+ column \d+|NotInt row \d+ column \d+|OutOfOrder row \d+ before \d+ got \d+"
    r"|CertTooLong|CertForm record \d+)",
    re.DOTALL,
)
READ = re.compile(r"read: (.*): (missing|too long|failed)", re.DOTALL)
SESSION = re.compile(r"session: (NameTaken|Unknown|Full) (.*)", re.DOTALL)
PROBE = re.compile(r"probe: (.*?)(?:: (closed|read|more than \d+ bytes|\".*\" is no whole number))?", re.DOTALL)
SCORES = re.compile(
    r"scores: (.*): (NotEnded|InUse|FieldCount record \d+ found \d+|NotAsked record \d+|NotUtf8 record \d+ field \d+|NotScore record \d+"
    r"|Twice record \d+)",
    re.DOTALL,
)
ASK = re.compile(r"ask: (?:no predicate (.*)|((?:QUESTIONS|ANSWERS|SCORES) (?:is standard \w+|and \w+ are one file)))", re.DOTALL)
ANSWER = re.compile(r"score: (-?\d+) is not in 0\.\.(\d+): (.*)", re.DOTALL)
NOT_KEPT = "write: not kept:"
COUNTS = re.compile(r"calls=\d+ questions=\d+ known=\d+")


class Fault(NamedTuple):
    """What a fault line says: its first word, the step of a script that refuses, what is wrong, the name or the file, the
    place in the script, and the numbers behind it."""

    kind: str
    step: str = ""
    variant: str = ""
    name: str = ""
    place: int = 0
    numbers: tuple = ()


def read_fault(line):
    """The fault of a line without its line feed, or None where it is none that the program puts."""
    found = SCRIPT.fullmatch(line)
    if found:
        return Fault("script", found[1] or "", found[2], place=int(found[3]))
    found = INELIGIBLE.fullmatch(line)
    if found:
        return Fault("ineligible", name=found[1], numbers=(int(found[2]),))
    found = SCORE.fullmatch(line)
    if found:
        rows = tuple(int(row) for row in found[2].split())
        return Fault("score", name=found[1], numbers=(int(found[3]), int(found[4]), *rows))
    found = TABLE.fullmatch(line)
    if found:
        variant, *rest = found[2].split()
        numbers = tuple(int(word) for word in rest if word.isdigit())
        return Fault("table", variant=variant, name=found[1], numbers=numbers)
    found = READ.fullmatch(line)
    if found:
        return Fault("read", variant=found[2], name=found[1])
    found = SESSION.fullmatch(line)
    if found:
        return Fault("session", variant=found[1], name=found[2])
    found = PROBE.fullmatch(line)
    if found:
        return Fault("probe", variant=found[2] or "", name=found[1])
    if line.startswith("usage: "):
        return Fault("usage")
    if line in ("write", "memory"):
        return Fault(line)
    return None


def read_asking_fault(line):
    """The fault of a line of ranksql_ask, or None where it is none."""
    found = SCORES.fullmatch(line)
    if found:
        variant, *rest = found[2].split()
        return Fault("scores", variant=variant, name=found[1], numbers=tuple(int(word) for word in rest if word.isdigit()))
    found = ASK.fullmatch(line)
    if found:
        return Fault("ask", variant=found[2] or "no predicate", name=found[1] or "")
    found = ANSWER.fullmatch(line)
    if found:
        return Fault("answer", name=found[3], numbers=(int(found[1]), int(found[2])))
    if line.startswith(NOT_KEPT + "\n"):
        return Fault("lost", name=line[len(NOT_KEPT) + 1:])
    return Fault(line) if line == "differs" else read_fault(line)


def lines_of(said):
    """What ranksql_ask says, without the line of its counts: the whole, and then each line, since a name may have line feeds."""
    lines = [line for line in said.split("\n") if not COUNTS.fullmatch(line)]
    return ["\n".join(lines), *lines]
