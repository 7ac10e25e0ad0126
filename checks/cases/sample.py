#!/usr/bin/env python3
"""Prints samples of random tables, and what is expected by them, as cases of the program cases_plans.

The tables have more rows than are sampled of them. The samples and estimates are those of queries.py. The cases are the last ones of
the tests of rs_sample in crates/cases_plans/stdout, at its end. This makes them anew, at the top of the repository:

    cases=crates/cases_plans
    sed -i '/^# Random .*sample.py/,$d' $cases/stdout && python3 checks/cases/sample.py >>$cases/stdout
    grep -v '^  ' $cases/stdout >$cases/stdin
"""

import itertools
import os
import random
import sys

sys.path.insert(0, os.path.join(os.path.dirname(os.path.abspath(__file__)), "..", "model"))

from front import Front, blocks_of, members
from queries import words_of

# The first two words of seed 0 make this number, as rand_pcg's own tests have it.
assert [low + high * 2**32 for low, high in [itertools.islice(words_of(0), 2)]] == [18195738587432868099]

# The formulas of the predicates, and their greatest scores. Some answers are below 0, and some are above the greatest score.
PREDICATES = {"p": (60, "v - 10"), "q": (50, "v"), "r": (90, "100 - ABS(v - w) * 2")}


def front(tables):
    """The statements that make the tables and the predicates."""
    made = []
    for number, table in enumerate(tables):
        rows = "".join(f"\\n{','.join(map(str, row))}" for row in table)
        made.append(f"CREATE TABLE t{number} (x INT, y INT) FROM 'x,y{rows}'")
    for name, (greatest, formula) in PREDICATES.items():
        parameters = "v INT, w INT" if "w" in formula else "v INT"
        made.append(f"CREATE PREDICATE {name} ({parameters}) MAX {greatest} AS {formula}")
    return "; ".join(made) + ";"


def column(chance, entries):
    """A column of one of these entries, with its entry."""
    entry = chance.choice(entries)
    return entry, f"{'abcdef'[entry - 1]}.{'xy'[chance.randint(0, 1)]}"


def condition(chance, entries):
    """A condition on one or two entries."""
    (first, one), (second, other) = column(chance, entries), column(chance, entries)
    return f"{one} > {chance.randint(10, 50)}" if first == second else f"{one} <= {other} + 5"


def term(chance, entries):
    """A term over one or two entries, one of whose arguments may be a number."""
    name = chance.choice("pqr")
    args = [column(chance, entries)[1] for _ in range(2 if name == "r" else 1)]
    if name == "r" and chance.random() < 0.3:
        args[1] = chance.randint(0, 80)
    return f"{chance.randint(1, 4)} * {name}({', '.join(map(str, args))})"


def block(select, tables, conditions):
    """The text of a block over tables of these numbers."""
    entries = ", ".join(f"t{table} {alias}" for table, alias in zip(tables, "abcdef"))
    return f"SELECT {select} FROM {entries}{' WHERE ' if conditions else ''}{' AND '.join(conditions)}"


def estimates(number, block):
    """The lines of the estimates of a block of this number: for each set of its entries, and for each index that a term may have."""
    for entries in map(members, range(1, 2 ** len(block.tables))):
        inside = [terms for terms in map(members, range(2 ** len(block.terms))) if all(block.terms[t][3] <= entries for t in terms)]
        yield f"  {number} {sum(1 << e for e in entries)}: {' '.join(str(block.estimate(entries, terms)) for terms in inside)}"
    for place, (*_, entries) in enumerate(block.terms):
        if len(entries) == 1:
            (entry,) = entries
            yield f"  {number} index {entry + 1} {place + 1}: {block.index_estimate(entry, place)}"


def tell(ask, seed, made, select):
    """A case: the calls of a sample, or all estimates by it."""
    query = made.query(select, seed)
    calls = [" ".join([predicate, *map(str, args)]) for predicate, args in query.sample_calls()]
    print(ask, seed, select)
    if ask == "calls":
        print(f"  cards; calls {', '.join(calls)}")
        return
    for number, one in enumerate(blocks_of(query), 1):
        print("\n".join(estimates(number, one)))
    print(f"  calls {len(calls)}")


def limit_text(limit):
    return "" if limit is None else f" LIMIT {limit}"


def new_tables(chance, sizes):
    """Two tables, printed as the line `front`, and what they make."""
    text = front([[[chance.randint(0, 80) for _ in "xy"] for _ in range(size())] for size in sizes])
    print("front\nfront", text)
    return Front(text)


def main():
    print("# Random tables with more rows than are sampled: see checks/cases/sample.py.")
    chance = random.Random(1)
    for entries, size, terms in (1, 300, 2), (2, 90, 3), (3, 40, 4), (4, 20, 3), (5, 11, 3), (6, 9, 3), (6, 8, 8):
        made = new_tables(chance, [lambda: size + chance.randint(0, 9)] * 2)
        numbers = list(range(1, entries + 1))
        for limit in (None, 0) if entries == 6 else (None, 1, 400):
            seed = chance.choice([1, chance.randrange(2**64)])
            conditions = [condition(chance, numbers) for _ in range(chance.randint(0, entries))]
            text = block("a.x", [chance.randint(0, 1) for _ in numbers], conditions)
            select = f"{text} ORDER BY {' + '.join(term(chance, numbers) for _ in range(terms))}{limit_text(limit)}"
            for ask in ("calls", "cards") if entries == 1 else ("cards",):
                tell(ask, seed, made, select)
    # Both blocks of a set query are sampled by the words of one seed. Their terms call for the same output columns.
    made = new_tables(chance, [lambda: 280, lambda: 100])
    for operator, sides in ("UNION", ([0], [1, 1])), ("EXCEPT", ([1, 1, 1], [0])):
        seed = chance.randrange(2**64)
        blocks = []
        for side in sides:
            numbers = list(range(1, len(side) + 1))
            blocks.append(block("a.x, a.y", side, [condition(chance, numbers) for _ in numbers[1:]]))
        tell("cards", seed, made, f"{f' {operator} '.join(blocks)} ORDER BY 2 * p(x) + 3 * q(y) LIMIT 20")


if __name__ == "__main__":
    main()
