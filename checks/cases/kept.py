#!/usr/bin/env python3
"""Works out what the lines `view` of the program cases_data tell, from the definitions: a view of the query that comes first is made,
and grows behind each INSERT. Queries and their calls are those of queries.py. This makes the cases anew, at the top of the repository:

    cases=crates/cases_data
    python3 checks/cases/kept.py <$cases/stdout >cases.new && mv cases.new $cases/stdout
"""

import os
import re
import sys

sys.path.insert(0, os.path.join(os.path.dirname(os.path.abspath(__file__)), "..", "model"))

from front import Front
from queries import Ended, Unread, Words, read_query
from runs import MOST_KEPT, statements


class Kept(Front):
    """What the lines `make` made, with one view."""

    def __init__(self):
        super().__init__()
        self.names, self.old, self.rows = [], None, []

    def view(self, failing, text):
        self.made, self.fails, self.old, self.rows = [], {"call": failing}, None, []
        (_, query), *inserts = statements(text)
        lines = [self.grown(query)]
        for place, insert in inserts if self.old else []:
            words = Words(insert)
            words.want("INSERT", "INTO")
            self.insert(words, place)
            lines.append(self.grown(query))
        calls = ", ".join(" ".join([name, *map(str, args)]) for name, args in self.made)
        return [*lines, f"; calls {calls}" if calls else ""]

    def grown(self, text):
        """The rows of the view behind one more growth, or its fault."""
        query = read_query(Words(text), self)
        old = self.old or [0] * len(query.tables)
        for rows in query.combinations(query.all):
            if not any(row > seen for row, seen in zip(rows, old)):
                continue
            for term in sorted(query.every):
                call, _, most = query.told_call(rows, term)
                number = self.names.index(call[0])
                try:
                    got = self.score(call)
                except Ended:
                    return f"Probe {{ predicate: {number} }}"
                if not 0 <= got <= most:
                    entries = query.terms[term][3]
                    ids = ids_of([row if entry in entries else 0 for entry, row in enumerate(rows)])
                    mask = sum(1 << entry for entry in entries)
                    return f"BadScore {{ predicate: {number}, ids: Ids {{ block: 1, mask: {mask}, rows: {ids} }}, got: {got}, max: {most} }}"
        most = MOST_KEPT if query.limit is None else query.limit
        mask = 2 ** len(query.tables) - 1
        self.rows = [
            f"; 1 {mask} {ids_of(rows)} {query.score(rows)} [{', '.join(f'Int({cell})' for cell in query.outputs(rows))}]"
            for rows in query.answer[:most]
        ]
        self.old = [len(table.rows) for table in query.tables]
        return "rows" + "".join(self.rows)


def ids_of(rows):
    return str([*rows, *[0] * (6 - len(rows))])


def main():
    run, lines, at = Kept(), sys.stdin.read().split("\n"), 0
    while at < len(lines):
        line = lines[at]
        at += 1
        print(line, end="" if at == len(lines) else "\n")
        if line.startswith("make ") and at < len(lines) and re.match("table|predicate ", lines[at]):
            make(run, line.removeprefix("make "))
        found = re.fullmatch(r"view (\d+) (SELECT .*)", line)
        if found:
            # An answer has one line for each statement, and one for the calls; a view that isn't made has two.
            while at < len(lines) and re.match("rows|Probe |BadScore |; calls", lines[at]):
                at += 1
            print("\n".join(run.view(int(found[1]), found[2])))


def make(run, text):
    """Makes what this statement makes, where it can be read. Predicates are numbered in any case."""
    if text.startswith("CREATE PREDICATE "):
        run.names.append(text.split()[2])
    words = Words(text)
    try:
        run.statement(words, 0)
    except (Unread, Ended):
        pass


if __name__ == "__main__":
    main()
