#!/usr/bin/env python3
r"""Prints the least plans of queries over random tables, and the least costs of their signatures, as cases of the program cases_plans.

The tables are no larger than their samples, so all rows are sampled, whatever the seed is. Plans and costs are those of queries.py.
The cases are the last ones of the tests of rs_enum in crates/cases_plans/stdout. This makes them anew, at the top of the repository:

    cases=crates/cases_plans
    sed -i -e '/^# Tests of rs_exec/e python3 checks/cases/planner.py; echo' \
        -e '/^# Random .*planner.py/,/^# Tests of rs_exec/{/^# Tests/!d}' $cases/stdout
    grep -v '^  ' $cases/stdout >$cases/stdin
"""

import itertools
import os
import random
import sys
from dataclasses import dataclass

sys.path.insert(0, os.path.join(os.path.dirname(os.path.abspath(__file__)), "..", "model"))

from front import Front, blocks_of
from queries import mask

ALIASES = "abcdef"
COSTS = {"p": 1, "q": 20, "near": 3}
MOST = 9  # the greatest score of each predicate
OPERATORS = ["UNION ALL", "UNION", "INTERSECT", "EXCEPT"]


@dataclass(frozen=True)
class Term:
    """A predicate of columns, each an entry from 1 and a name, with a weight."""

    weight: int
    predicate: str
    columns: tuple

    def text(self, name):
        return f"{self.weight} * {self.predicate}({', '.join(map(name, self.columns))})"


def column_text(column):
    return f"{ALIASES[column[0] - 1]}.{column[1]}"


def block_text(names, conjuncts, outputs=((1, "x"),), distinct=False):
    entries = ", ".join(f"{name} {alias}" for name, alias in zip(names, ALIASES))
    where = f" WHERE {' AND '.join(conjuncts)}" if conjuncts else ""
    return f"SELECT {'DISTINCT ' if distinct else ''}{', '.join(map(column_text, outputs))} FROM {entries}{where}"


def query_text(body, terms, limit, name=column_text):
    return f"{body} ORDER BY {' + '.join(term.text(name) for term in terms)}{'' if limit is None else f' LIMIT {limit}'}"


def subsets(numbers):
    ordered = sorted(numbers)
    return [frozenset(part) for size in range(len(ordered) + 1) for part in itertools.combinations(ordered, size)]


def signatures(block):
    """Each set of entries with each set of evaluated terms."""
    return itertools.product(subsets(block.all), subsets(block.every))


def least_cost(block, entries, terms):
    """The least cost of the plans without Distinct of a signature, or None where it has none."""
    plan = block.best(entries, terms)
    return plan and plan.cost


def tell_plan(seed, made, text):
    """A line that asks for the text of the least plan, and the text behind two spaces."""
    print(f"plan {seed} {text}")
    print("".join(made.query(text, seed).plan.lines(1)), end="")


def tell_costs(seed, text, told):
    """A line that asks for the least costs of signatures, each with the number of its block, and the costs."""
    sought = ",".join(f"{block}:{mask(entries)}:{mask(terms)}" for (block, entries, terms), _ in told)
    costs = " ".join("none" if cost is None else str(cost) for _, cost in told)
    print(f"costs {seed} {sought} {text}\n  {costs}")


def all_costs(query):
    """Of each block and each signature the least cost, or None."""
    return [((block.number, *one), least_cost(block, *one)) for block in blocks_of(query) for one in signatures(block)]


def some_costs(chance, block):
    """The same of all entries and terms, and of some signatures of a block with many."""
    by_size = sorted(signatures(block), key=lambda signature: [len(part) for part in signature])
    costs = {signature: least_cost(block, *signature) for signature in by_size}
    found = [signature for signature, cost in costs.items() if cost is not None]
    absent = [signature for signature in signatures(block) if costs[signature] is None]
    chosen = [(block.all, block.every)] + chance.sample(found, 29) + chance.sample(absent, 2)
    return [((1, *signature), costs[signature]) for signature in chosen]


def front(tables, indexes):
    """The statements that make the tables, the predicates and the rank indexes."""
    made = []
    for name, rows in tables.items():
        text = "".join(f"\\n{','.join(map(str, row))}" for row in rows)
        made.append(f"CREATE TABLE {name} (x INT, y INT, k INT) FROM 'x,y,k{text}'")
    made += [f"CREATE PREDICATE {name} (v INT) MAX {MOST} COST {COSTS[name]} AS v" for name in "pq"]
    made.append(f"CREATE PREDICATE near (v INT, w INT) MAX {MOST} COST {COSTS['near']} AS {MOST} - ABS(v - w)")
    pairs = enumerate(indexes, 1)
    made += [f"CREATE RANK INDEX i{number} ON {name} ({predicate}({', '.join(columns)}))" for number, (name, predicate, columns) in pairs]
    return "; ".join(made) + ";"


def random_column(chance, count, names="xy"):
    return chance.randint(1, count), chance.choice(names)


def random_term(chance, count):
    predicate = chance.choice(["p", "p", "q", "near"])
    columns = [random_column(chance, count)]
    if predicate == "near":
        columns.append(random_column(chance, count, "y" if columns[0][1] == "x" else "x"))
    return Term(chance.randint(1, 3), predicate, tuple(columns))


def random_conjuncts(chance, count):
    for second in range(2, count + 1):
        if chance.random() < 0.7:
            yield f"{column_text((chance.randint(1, second - 1), 'k'))} = {column_text((second, 'k'))}"
    if chance.random() < 0.3:
        yield f"{column_text(random_column(chance, count))} {chance.choice('< = <>'.split())} {chance.randint(2, 7)}"
    if count > 1 and chance.random() < 0.2:
        yield "a.x < b.y"


def random_table(chance, sizes=(0, 1, 3, 6, 8, 9, 10, 10, 12, 12), most=MOST):
    return [[chance.randint(0, most), chance.randint(0, most), chance.randint(0, 2)] for _ in range(chance.choice(sizes))]


def random_indexes(chance):
    wanted = [(name, predicate, (column,)) for name in "tu" for predicate in "pq" for column in "xy"] + [("t", "near", ("x", "y"))]
    return chance.sample(wanted, chance.randint(1, 5))


def random_limit(chance):
    return chance.choice([None, 0, 1, 2, 3])


def random_block(chance):
    count = chance.choice([1, 2, 3, 3])
    names = [chance.choice("ttu") for _ in range(count)]
    terms = [random_term(chance, count) for _ in range(chance.randint(1, 3))]
    limit = random_limit(chance)
    return query_text(block_text(names, list(random_conjuncts(chance, count))), terms, limit)


def random_distinct(chance):
    count = chance.choice([1, 2, 2])
    names = [chance.choice("ttu") for _ in range(count)]
    terms = [random_term(chance, count) for _ in range(chance.randint(1, 3))]
    outputs = sorted({column for term in terms for column in term.columns})
    limit = random_limit(chance)
    return query_text(block_text(names, list(random_conjuncts(chance, count)), outputs, True), terms, limit)


def wide_block(chance):
    """As many entries and terms as a query can have, most of them joined by equalities."""
    names = [chance.choice("tu") for _ in ALIASES]
    terms = [random_term(chance, len(names)) for _ in range(8)]
    return query_text(block_text(names, list(random_conjuncts(chance, len(names)))), terms, chance.choice([1, 3, 10]))


def random_pair(chance):
    """The output columns are x and y of one entry on each side."""
    shapes = [(chance.choice("p q near near".split()), chance.choice("xy")) for _ in range(chance.randint(1, 2))]
    weights = [chance.randint(1, 3) for _ in shapes]
    limit = random_limit(chance)
    sides, entries = [], []
    for _ in range(2):
        count = chance.choice([1, 1, 2])
        entry = chance.randint(1, count)
        names = [chance.choice("ttu") for _ in range(count)]
        conjuncts = list(random_conjuncts(chance, count))
        sides.append(block_text(names, conjuncts, ((entry, "x"), (entry, "y")), chance.random() < 0.3))
        entries.append(entry)
    columns = [(("x", "y") if predicate == "near" else (name,)) for predicate, name in shapes]
    terms = [Term(weight, predicate, own) for weight, (predicate, _), own in zip(weights, shapes, columns)]
    return query_text(f" {chance.choice(OPERATORS)} ".join(sides), terms, limit, str)


def new_front(chance, **of_tables):
    """Two tables and some indexes, printed as the line `front`, and what they make."""
    text = front({name: random_table(chance, **of_tables) for name in "tu"}, random_indexes(chance))
    print("front\nfront", text)
    return Front(text)


def tell_queries(chance, count, most=MOST):
    """Queries of each kind, over so many pairs of tables whose numbers are no greater than this."""
    for _ in range(count):
        made = new_front(chance, most=most)
        for number, make in enumerate([random_block] * 4 + [random_distinct, random_pair]):
            text, seed = make(chance), chance.randint(0, 9)
            tell_plan(seed, made, text)
            if number in (0, 4, 5):
                tell_costs(seed, text, all_costs(made.query(text, seed)))


def main():
    print("# Random tables, and the least plans of queries of one to three entries and terms: see checks/cases/planner.py.")
    chance = random.Random(4)
    tell_queries(chance, 13)
    print("# Queries of six entries and eight terms, over tables of two or three rows.")
    for _ in range(3):
        made = new_front(chance, sizes=[2, 2, 3])
        text, seed = wide_block(chance), chance.randint(0, 9)
        tell_costs(seed, text, some_costs(chance, made.query(text, seed)))
    print("# Rank indexes whose first scores lie far below MAX.")
    tell_queries(chance, 6, most=3)


if __name__ == "__main__":
    main()
