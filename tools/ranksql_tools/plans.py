"""Reads the plans that EXPLAIN and EXPLAIN ANALYZE print."""

import re
from typing import NamedTuple, Optional

LINE = re.compile(
    r"(?P<indent> *)(?P<what>\w+.*?) est=(?P<est>\d+) cost=(?P<cost>\d+)"
    r"(?: asked=(?P<asked>\d+) gave=(?P<gave>\d+)(?: calls=(?P<calls>\d+))?(?: drawn=(?P<drawn>\d+))?)?"
)
TERM = re.compile(r" term (\d+)$")
COUNTS = re.compile(r" asked=\d+ gave=\d+(?: calls=\d+)?(?: drawn=\d+)?$")
SCANS = ("SeqScan", "RankScan")


class Operator(NamedTuple):
    """A line of a plan: how deep it stands, its first word, its term if it has one, its estimate and cost, and what it did."""

    depth: int
    word: str
    term: Optional[int]
    est: int
    cost: int
    asked: Optional[int]
    gave: Optional[int]
    calls: int


def read_plan(text):
    """The operators of a plan, the root first."""
    operators = []
    for line in text.splitlines():
        match = LINE.fullmatch(line)
        if match is None:
            raise ValueError("no line of a plan: " + line)
        term = TERM.search(match["what"])
        asked, gave = (None if match[name] is None else int(match[name]) for name in ("asked", "gave"))
        operators.append(Operator(len(match["indent"]) // 2, match["what"].split(" ")[0], int(term[1]) if term else None,
                                  int(match["est"]), int(match["cost"]), asked, gave, int(match["calls"] or 0)))
    return operators


def shape_of(text):
    """The operators of a plan without their numbers: two plans of one shape do the same."""
    return re.sub(r"(?m) est=\d+ cost=\d+(?: asked=\d+ gave=\d+(?: calls=\d+)?(?: drawn=\d+)?)?$", "", text)


def calls_by_term(operators):
    """How often a plan called the predicate of each term."""
    calls = {}
    for operator in operators:
        if operator.word == "Rank":
            calls[operator.term] = calls.get(operator.term, 0) + operator.calls
    return calls


def scanned_terms(operators):
    """The terms whose scores a plan takes from a rank index."""
    return {operator.term for operator in operators if operator.word == "RankScan"}


def with_estimates(analyzed, plan):
    """What EXPLAIN ANALYZE prints, with the estimates and costs that EXPLAIN prints of a plan of the same shape."""
    lines = zip(analyzed.splitlines(), plan.splitlines())
    return "".join(line + COUNTS.search(done)[0] + "\n" for done, line in lines)


def all_combinations(operators, count):
    """How many combinations of so many tables satisfy the condition, where an operator over all of them gave its last row; else
    None. Where DISTINCT stands below an operator, that has lost rows."""
    for place, operator in enumerate(operators):
        below = operators[place:]
        behind = next((index for index, other in enumerate(below[1:], 1) if other.depth <= operator.depth), len(below))
        words = [other.word for other in below[:behind]]
        if "Distinct" not in words and sum(word in SCANS for word in words) == count and operator.asked > operator.gave:
            return operator.gave
    return None
