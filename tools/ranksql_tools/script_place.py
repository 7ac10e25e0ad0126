"""Where a parse stops in a script, and what stands round it."""

import difflib
from typing import NamedTuple

from ranksql_tools.script_parse import Predicate

STATEMENTS = ("CREATE", "SELECT", "EXPLAIN", "DECLARE", "FETCH", "CLOSE", "INSERT")


class Scoring(NamedTuple):
    """A predicate that a script makes, and its formula as it is written."""

    made: Predicate
    formula: str

    @property
    def name(self):
        return self.made.name.text

    @property
    def parameters(self):
        """The names of the parameters, as a call could have them."""
        return ", ".join(column[0].text for column in self.made.columns)


def scorings(parser):
    """The predicates that a script makes up to where its parse stops, by their names."""
    made = {}
    for start, statement in zip(parser.starts, parser.statements):
        if not isinstance(statement, Predicate):
            continue
        first = next(index for index in range(start, len(parser.tokens)) if parser.tokens[index].start == statement.formula.start)
        # A bracket in front of the formula's first part belongs to it.
        while parser.tokens[first - 1].is_symbol("("):
            first -= 1
        behind = next(index for index in range(first, len(parser.tokens)) if parser.tokens[index].is_symbol(";") or parser.tokens[index].sort == "end")
        made.setdefault(statement.name.says, Scoring(statement, spelt(parser.tokens[first:behind])))
    return made


def spelt(tokens):
    """Tokens as one text, with blanks where the script has some."""
    made = ""
    for before, token in zip([None, *tokens], tokens):
        if before is not None and before.end != token.start:
            made += " "
        made += token.text
    return made


class Place:
    """The token at which a parse stops, those round it, where in the grammar it stands, and the predicates that are made."""

    def __init__(self, tokens, index, trail, ended, expected, start, predicates):
        self.tokens, self.index, self.trail, self.ended, self.expected = tokens, index, trail, ended, expected
        # The first token of the statement.
        self.start = start
        self.predicates = predicates

    @property
    def token(self):
        return self.tokens[self.index]

    def near(self, steps):
        """The token so many steps behind this one, or in front of it, and the end where there is none."""
        index = self.index + steps
        return self.tokens[index] if 0 <= index < len(self.tokens) else self.tokens[-1]

    def inside(self, *parts):
        """Whether the innermost part of the grammar, or one that ends in front of the token, is one of these."""
        return self.trail[-1] in parts or any(part in self.ended for part in parts)

    def within(self, *parts):
        """Whether some part of the grammar round the token, or one that ends in front of it, is one of these."""
        return any(part in self.trail or part in self.ended for part in parts)

    def of_statement(self):
        """The tokens of the statement in front of this one."""
        return self.tokens[self.start:self.index]

    def after(self):
        """The tokens from this one up to the end of the statement."""
        made = []
        for token in self.tokens[self.index:]:
            if token.is_symbol(";") or token.sort == "end":
                break
            made.append(token)
        return made

    def operand(self):
        """The column, number or text that ends in front of this token, as it is written, without a NOT behind it."""
        index = self.index - 1
        if index >= 0 and self.tokens[index].is_word("NOT"):
            index -= 1
        if index < 0:
            return "x"
        made = self.tokens[index].text
        if index >= 2 and self.tokens[index - 1].is_symbol("."):
            made = self.tokens[index - 2].text + "." + made
        return made

    def column_in_front(self):
        """The last name in front of the token, without its alias."""
        return self.near(-1).text


def closest(word, words):
    """The one of these words that is nearly this one."""
    found = difflib.get_close_matches(word, words, 1, 0.75)
    return found[0] if found else None


def behind_statement(place):
    """What stands behind a statement that could end here."""
    token = place.token
    if token.is_word(*STATEMENTS):
        return "A `;` is missing in front of this statement."
    return None
