#!/usr/bin/env python3
r"""Prints what plans of queries give and call as cases of the program cases_plans.

The tables are small, and most are random. Of one table there are queries of one, two and three terms, and of each query all
plans. Of two and three tables there are queries with joins of every shape, in which the terms are evaluated at places taken by
chance. So there are of DISTINCT and of the four set operators over pairs of tables. What a plan gives is that of queries.py. The
cases are the last ones of the tests of rs_exec in crates/cases_plans/stdout. This makes them anew, at the top of the repository:

    cases=crates/cases_plans
    sed -i -e '/^# Tests of rs_sample/e python3 checks/cases/executor.py; echo' \
        -e '/^# Random .*executor.py/,/^# Tests of rs_sample/{/^# Tests/!d}' $cases/stdout
    grep -v '^  ' $cases/stdout >$cases/stdin
"""

import functools
import itertools
import os
import random
import re
import sys
from dataclasses import dataclass

sys.path.insert(0, os.path.join(os.path.dirname(os.path.abspath(__file__)), "..", "model"))

from front import Front, blocks_of
from queries import Distinct, HashJoin, IndexScan, NestedJoin, Rank, Scan, SetPlan

JOINS = {"N": NestedJoin, "H": HashJoin}  # by their letters
SET_OPERATORS = ("UNION ALL", "UNION", "INTERSECT", "EXCEPT")


@dataclass(eq=False)
class Table:
    name: str
    columns: str  # each has one letter
    rows: list  # of lists of numbers


@dataclass(eq=False)
class Predicate:
    name: str
    most: int
    formula: str = "v"


@dataclass(eq=False)
class Condition:
    """What has to hold for some columns, which are pairs of an entry's number and a letter. In the text each is a brace pair."""

    text: str
    columns: list


@dataclass(eq=False)
class Term:
    weight: int
    predicate: Predicate
    columns: list


@dataclass(eq=False)
class Query:
    """The text of a query of one block, or of a block of one. Its entries count from 1."""

    tables: list  # one for each entry
    conditions: list
    terms: list
    limit: int = None  # or how many rows are wanted at most
    outputs: list = None  # columns; None is all of them
    distinct: bool = False

    def names(self, columns):
        """Columns as they are written: with the entry's name where there are several."""
        several = len(self.tables) > 1
        return [f"{self.alias(entry)}.{letter}" if several else letter for entry, letter in columns]

    def alias(self, entry):
        """An entry has its table's name, or that and its number where it isn't the first one of this table."""
        table = self.tables[entry - 1]
        return table.name + (str(entry) if table in self.tables[: entry - 1] else "")

    def block(self):
        """The text of the block."""
        aliases = [self.alias(entry) for entry in range(1, len(self.tables) + 1)]
        tables = [table.name if table.name == alias else f"{table.name} {alias}" for table, alias in zip(self.tables, aliases)]
        conditions = " AND ".join(one.text.format(*self.names(one.columns)) for one in self.conditions)
        where = f" WHERE {conditions}" if conditions else ""
        outputs = ("DISTINCT " if self.distinct else "") + (", ".join(self.names(self.outputs)) if self.outputs else "*")
        return f"SELECT {outputs} FROM {', '.join(tables)}{where}"

    def text(self):
        return self.block() + ordered(self.terms, self.limit, self.names)


def set_text(operator, left, right, limit):
    """The text of a set operator over two blocks, whose terms speak of output columns."""
    return f"{left.block()} {operator} {right.block()}" + ordered(left.terms, limit, lambda columns: [letter for _, letter in columns])


def ordered(terms, limit, names):
    """The end of a query's text, with the columns as they are written there."""
    written = " + ".join(f"{term.weight} * {term.predicate.name}({', '.join(names(term.columns))})" for term in terms)
    return f" ORDER BY {written}{f' LIMIT {limit}' if limit else ''}"


def front_of(tables, predicates, indexes):
    """The line in front of queries, and what it makes: the tables, the predicates, and the rank indexes, each for a predicate and a
    column of a table."""
    statements = []
    for table in tables:
        rows = "".join(f"\\n{','.join(map(str, row))}" for row in table.rows)
        columns = ", ".join(f"{letter} INT" for letter in table.columns)
        statements.append(f"CREATE TABLE {table.name} ({columns}) FROM '{','.join(table.columns)}{rows}'")
    for one in predicates:
        parameters = ", ".join(f"{letter} INT" for letter in "uv" if letter in one.formula)
        statements.append(f"CREATE PREDICATE {one.name} ({parameters}) MAX {one.most} AS {one.formula}")
    for predicate, table, letter in indexes:
        statements.append(f"CREATE RANK INDEX i{letter} ON {table.name} ({predicate.name}({letter}))")
    text = "; ".join(statements) + ";"
    print("front\nfront", text)
    return Front(text)


# ---- plans, each with the word that cases_plans has for it


@dataclass(eq=False)
class Worded:
    """A plan and its word, the entries that it has, and whether duplicates of its block are dropped there or below."""

    word: str
    plan: object
    entries: frozenset
    drops: bool = False

    def on_top(self):
        """How many operators for terms stand above everything else."""
        return re.match(r"(R\d+\()*", self.word)[0].count("R")


def scans(block, entry):
    """The scans of an entry: of its table, and of each index that is for a term."""
    own = frozenset([entry - 1])
    yield Worded(f"S{entry}", Scan(block, entry - 1), own)
    for index, key in enumerate(block.indexes):
        for term in sorted(block.every):
            if block.terms[term][3] == own and block.key_of_index(entry - 1, term) == key:
                yield Worded(f"I{entry}:{term + 1}:{index}", IndexScan(block, entry - 1, term), own)


def parts(block, shape):
    """All plans of a shape, whatever terms they evaluate. It is an entry's number, or a kind of joins and two shapes."""
    if isinstance(shape, int):
        bottoms = scans(block, shape)
    else:
        kind, *sides = shape
        bottoms = joins(block, kind, *(list(parts(block, side)) for side in sides))
    for bottom in bottoms:
        yield from above(block, bottom)


def joins(block, kind, lefts, rights):
    for left, right in itertools.product(lefts, rights):
        if kind == "N" or any(block.equates(part, left.entries, right.entries) for part in block.parts):
            plan = JOINS[kind](block, left.plan, right.plan)
            yield Worded(f"{kind}({left.word},{right.word})", plan, left.entries | right.entries)


def above(query, below):
    """A plan, and those with operators above it, in each order."""
    yield below
    if getattr(query, "distinct", False) and not below.drops and below.entries == query.all:
        yield from above(query, Worded(f"D({below.word})", Distinct(query, below.plan), below.entries, True))
    for term, (*_, entries) in enumerate(blocks_of(query)[0].terms):
        if term not in below.plan.terms and entries <= below.entries:
            yield from above(query, Worded(f"R{term + 1}({below.word})", Rank(query, term, below.plan), below.entries, below.drops))


def complete(block, shape):
    """The plans of a shape that drop duplicates where the block says so, whatever terms they evaluate."""
    return [one for one in parts(block, shape) if one.drops == block.distinct]


def plans_of(query, *shapes):
    """All plans of a query whose block, or whose blocks, have these shapes."""
    made = [complete(block, shape) for block, shape in zip(blocks_of(query), shapes)]
    if len(made) == 1:
        (found,) = made
    else:
        pairs = [(left, right) for left, right in itertools.product(*made) if left.plan.terms == right.plan.terms]
        tops = [Worded(f"O({left.word},{right.word})", SetPlan(query, left.plan, right.plan), left.entries) for left, right in pairs]
        found = itertools.chain.from_iterable(above(query, top) for top in tops)
    return [one for one in found if one.plan.terms == query.every]


def some_plan(chance, plans):
    """A plan, taken by how many operators it has on top."""
    on_top = chance.choice(sorted({plan.on_top() for plan in plans}))
    return chance.choice([plan for plan in plans if plan.on_top() == on_top])


# ---- cases


def ids_of(query, row):
    """The number of a row's block, the mask of its entries, and its row numbers."""
    number, rows = row if len(blocks_of(query)) == 2 else (1, row)
    return f"{number} {sum(1 << entry for entry, one in enumerate(rows) if one)} {[*rows, *[0] * (6 - len(rows))]}"


def answer(query, row):
    values = ", ".join(f"Int({value})" for value in query.outputs(row))
    return f"{ids_of(query, row)} {query.score(row)} [{values}]"


def counts(plan, asks):
    """Of a plan and of each one below: how often it was asked, how many rows it gave, called for, and drew."""
    own = f"{asks} {plan.gave(asks)} {plan.called(asks)} {plan.drawn(asks)}"
    return sum((counts(child, below) for child, below in zip(plan.children, plan.asked_below(asks))), [own])


def tell_case(query, text, one, count):
    """The line of so many asks of a plan, what each gives and calls, and the counts behind them."""
    print(f"ask {one.word} {count} {text}")
    rows, asks = one.plan.rows, 0
    for _ in range(count):
        is_over = asks > len(rows) or asks == query.limit
        asks += not is_over
        given = "none" if is_over or asks > len(rows) else answer(query, rows[asks - 1])
        calls = [] if is_over else [" ".join([name, *map(str, args)]) for (name, args), *_ in one.plan.part(asks)]
        print(f"  {given}{'; calls ' if calls else ''}{', '.join(calls)}")
    print(f"  counts {', '.join(counts(one.plan, asks))}; limit {f'Some({query.limit})' if query.limit else None}")


def within(query, count):
    """At most one ask behind the limit."""
    return min(count, query.limit + 1) if query.limit else count


def tell_one_table(chance, size, beyond=0):
    """All plans of queries of one table, whose predicates have a MAX so much greater than their scores."""
    # A row that is good in one column is so in the others: not all rows have to be drawn.
    rows = [[mean + chance.randint(-2, 2) for _ in "xyz"] for mean in chance.choices(range(2, 10), k=size)]
    table = Table("t", "xyz", rows)
    predicates = [Predicate(name, max(column) + chance.randint(0, 1) + beyond) for name, column in zip("pqr", zip(*rows))]
    indexes = [(predicates[term - 1], table, "xyz"[term - 1]) for term in chance.sample([1, 2, 3], 3)]
    made = front_of([table], predicates, indexes)
    for count in (1, 2, 3):
        terms = [Term(chance.randint(1, 3), predicate, [(1, letter)]) for predicate, letter in zip(predicates[:count], "xyz")]
        dropped = chance.choice(rows)[-1]
        conditions = [Condition(f"{{}} <> {dropped}", [(1, "z")])]
        text = Query([table], conditions, terms, chance.choice([None, 2, 3])).text()
        query = made.query(text)
        for one in plans_of(query, 1):
            tell_case(query, text, one, chance.choice([1, 2, 4, size + 1]))


def shapes(entries):
    """All shapes of joins of some entries: an entry's number, or a pair of shapes."""
    if len(entries) == 1:
        yield entries[0]
    for size in range(1, len(entries)):
        for left in itertools.combinations(entries, size):
            right = [entry for entry in entries if entry not in left]
            yield from itertools.product(shapes(left), shapes(right))


def with_kinds(shape):
    """A shape with joins of each kind: in each pair the kind comes first."""
    if isinstance(shape, int):
        yield shape
    else:
        yield from itertools.product(JOINS, *map(with_kinds, shape))


def equality(one, other):
    return Condition("{} = {}", [(one, "g"), (other, "g")])


def tell_joins(chance, tables, conditions, with_nearness=False, kinds=None, most=9):
    """A query with joins of each shape and of all kinds, or of so many. Where its terms are evaluated is taken by chance."""
    letters = [table.columns[1] for table in tables]
    predicates = {letter: Predicate(name, most) for name, letter in zip("pqr", "xyz") if letter in letters}
    columns = list(enumerate(letters, 1))
    terms = [Term(chance.randint(1, 3), predicates[letter], [(entry, letter)]) for entry, letter in columns]
    if with_nearness:
        predicates["near"] = Predicate("near", 9, "9 - ABS(u - v)")
        terms.append(Term(chance.randint(1, 3), predicates["near"], chance.sample(columns, 2)))
    chance.shuffle(terms)
    text = Query(tables, conditions, terms, chance.choice([None, None, 3])).text()
    stored = sorted(set(tables), key=lambda table: table.name)
    indexes = [(predicates[table.columns[1]], table, table.columns[1]) for table in chance.sample(stored, len(stored))]
    query = front_of(stored, predicates.values(), indexes).query(text)
    for shape in shapes(range(1, len(tables) + 1)):
        of_kinds = [plans for plans in (plans_of(query, one) for one in with_kinds(shape)) if plans]
        for plans in chance.sample(of_kinds, min(kinds or len(of_kinds), len(of_kinds))):
            one = some_plan(chance, plans)
            count = chance.choice([1, 2, 2, 3, 3, len(one.plan.rows) + 1])
            tell_case(query, text, one, within(query, count))


def random_rows(chance, numbers, count):
    return [[chance.choice(numbers), chance.randint(0, 9)] for _ in range(count)]


def tell_three_tables(chance, what, tables, pairs, kinds=None, most=9):
    """Joins of three tables of these rows, in an order taken by chance, with equalities of these pairs of entries."""
    print(f"# Joins of three tables: {what}")
    tables = [Table(name, "g" + letter, rows) for name, letter, rows in zip("abc", "xyz", tables)]
    tell_joins(chance, chance.sample(tables, 3), [equality(*pair) for pair in pairs], with_nearness=True, kinds=kinds, most=most)


def tell_two_tables(chance, what, lefts, rights, conditions, most=9):
    """Joins of the tables a and b of these rows."""
    print(f"# Joins of two tables: {what}")
    tell_joins(chance, [Table("a", "gx", lefts), Table("b", "gy", rights)], conditions, most=most)


def tell_kinds_of_tables(chance):
    """Joins of tables and with conditions of all kinds."""
    equal = [equality(1, 2)]
    few = functools.partial(random_rows, chance, [1, 2, 3])
    less = Condition("{} < {}", [(1, "g"), (2, "g")])
    together = Condition("{} + {} < 12", [(1, "x"), (2, "y")])
    scores = Condition("{} = {}", [(2, "y"), (1, "x")])
    great = Condition("{} > 9", [(2, "y")])
    other = Condition("{} <> 2", [(1, "g")])
    tell_two_tables(chance, "rows that are equal to some of the other table.", few(5), few(6), equal)
    tell_two_tables(chance, "the first table has no row.", [], few(3), equal)
    tell_two_tables(chance, "the second table has no row.", few(4), [], equal)
    tell_two_tables(chance, "neither table has a row.", [], [], equal)
    tell_two_tables(chance, "no row of the second table satisfies the condition on it.", few(3), few(3), [*equal, great])
    tell_two_tables(chance, "all rows have one score.", [[g, 5] for g in (1, 2, 1, 3)], [[g, 5] for g in (2, 1, 1)], equal)
    tell_two_tables(chance, "all join values are equal.", random_rows(chance, [1], 4), random_rows(chance, [1], 3), equal)
    tell_two_tables(chance, "no row matches another.", few(4), random_rows(chance, [7, 8], 4), equal)
    tell_two_tables(chance, "no equality.", few(4), few(4), [less])
    tell_two_tables(chance, "no condition at all.", few(3), few(3), [])
    tell_two_tables(chance, "a condition on both tables beside the equality, and one on the first.", few(6), few(6), [together, *equal, other])
    tell_two_tables(chance, "two equalities.", [[g, x] for g in (1, 2) for x in (4, 7, 4)], [[g, y] for g in (2, 1) for y in (7, 4)], [scores, *equal])
    print("# Joins of two tables: a table with itself.")
    table = Table("a", "gx", few(5))
    tell_joins(chance, [table, table], equal)


def tell_distinct(chance):
    """Queries with DISTINCT, of one table with all plans, and of a join."""
    print("# Duplicates are dropped: of a table.")
    table = Table("t", "xyz", [[chance.randint(1, 3), chance.randint(1, 2), chance.randint(0, 9)] for _ in range(8)])
    predicates = [Predicate(name, 4) for name in "pq"]
    made = front_of([table], predicates, [(predicates[0], table, "x")])
    terms = [Term(weight, predicate, [(1, letter)]) for weight, predicate, letter in zip((2, 3), predicates, "xy")]
    for terms, limit in ((terms[:1], None), (terms, None), (terms, 2)):
        text = Query([table], [], terms, limit, outputs=[(1, "x"), (1, "y")], distinct=True).text()
        query = made.query(text)
        plans = plans_of(query, 1)
        for one in chance.sample(plans, 3) if limit else plans:
            tell_case(query, text, one, chance.choice([1, 2, 4, len(query.base) + 1]))
    print("# Duplicates are dropped: of a join.")
    tables = [Table("a", "gx", random_rows(chance, [1, 2], 5)), Table("b", "hy", random_rows(chance, [1, 2], 4))]
    terms = [Term(1, predicate, [(entry, letter)]) for entry, (predicate, letter) in enumerate(zip(predicates, "gh"), 1)]
    made = front_of(tables, predicates, [(predicates[1], tables[1], "h")])
    for condition in (Condition("{} = {}", [(1, "g"), (2, "h")]), Condition("{} > {}", [(1, "x"), (2, "y")])):
        text = Query(tables, [condition], terms, outputs=[(2, "h"), (1, "g")], distinct=True).text()
        query = made.query(text)
        for shape in with_kinds((1, 2)):
            plans = plans_of(query, shape)
            for one in chance.sample(plans, min(3, len(plans))):
                tell_case(query, text, one, len(query.base) + 1)


def tell_set_operators(chance, what, lefts, rights, conditions=(), wanted=(), most=4):
    """Each operator over two tables of these rows, with conditions on them; and where it is wanted DISTINCT in a block."""
    print(f"# Set operators over two tables: {what}")
    tables = [Table("a", "gx", lefts), Table("b", "hy", rights)]
    predicates = [Predicate(name, most) for name in "pq"]
    places = [(number, column) for number in (0, 1) for column in (0, 1)]
    indexes = [(predicates[column], tables[number], tables[number].columns[column]) for number, column in chance.sample(places, 2)]
    made = front_of(tables, predicates, indexes)
    for operator in SET_OPERATORS:
        weights = chance.choices((1, 2), k=2)
        blocks = []
        for number, table in enumerate(tables, 1):
            terms = [Term(weight, predicate, [(1, letter)]) for weight, predicate, letter in zip(weights, predicates, table.columns)]
            outputs = [(1, letter) for letter in table.columns] if number in wanted else None
            inside = [condition for place, condition in conditions if place == number]
            blocks.append(Query([table], inside, terms, outputs=outputs, distinct=number in wanted))
        text = set_text(operator, *blocks, chance.choice([None, None, 2]))
        query = made.query(text)
        plans = plans_of(query, 1, 1)
        for one in (some_plan(chance, plans) for _ in range(3)):
            tell_case(query, text, one, within(query, chance.choice([1, 2, 3, len(query.base) + 1])))


def tell_kinds_of_sides(chance):
    """Set operators over tables of all kinds."""
    few = lambda count: [[chance.randint(1, 3), chance.randint(1, 3)] for _ in range(count)]
    tell = functools.partial(tell_set_operators, chance)
    lefts, rights = few(6), few(6)
    both = [lefts[0], lefts[0], rights[0]]
    tell("duplicates inside and across.", lefts + both, rights + both)
    tell("the first one has no row.", [], few(4))
    tell("the second one has no row.", few(4), [])
    tell("neither has a row.", [], [])
    tell("all rows are equal.", [[2, 3]] * 3, [[2, 3]] * 2)
    tell("all scores are equal, and no two rows.", [[1, 3], [3, 1], [2, 2]], [[2, 2], [1, 3], [4, 0]])
    tell("no row of the one is in the other.", [[1, 1], [3, 3], [1, 1]], [[2, 2], [4, 4], [2, 2]])
    other = Condition("{} <> 2", [(1, "g")])
    great = Condition("{} > 1", [(1, "y")])
    tell("a condition on each.", few(7), few(7), [(1, other), (2, great)])
    tell("DISTINCT in both blocks.", few(7), few(7), wanted=(1, 2))
    tell("DISTINCT in the second block.", few(5), few(7), wanted=(2,))


def tell_joined_sides(chance):
    """Each operator over a join and a table, by plans taken by chance."""
    print("# Set operators over a join and a table.")
    some = lambda count: [[chance.randint(1, 2), chance.randint(1, 3)] for _ in range(count)]
    tables = [Table("a", "gx", some(4)), Table("b", "hy", some(4)), Table("c", "kz", some(5))]
    predicates = [Predicate(name, 4) for name in "pq"]
    made = front_of(tables, predicates, [(predicates[0], tables[0], "g"), (predicates[1], tables[2], "z")])
    equal = Condition("{} = {}", [(1, "g"), (2, "h")])
    joined = [(1, "g"), (2, "y")]
    left_terms = [Term(weight, predicate, [column]) for weight, predicate, column in zip((1, 2), predicates, joined)]
    right_terms = [Term(weight, predicate, [(1, letter)]) for weight, predicate, letter in zip((1, 2), predicates, "kz")]
    left = Query(tables[:2], [equal], left_terms, outputs=joined)
    right = Query(tables[2:], [], right_terms)
    for operator in SET_OPERATORS:
        text = set_text(operator, left, right, None)
        query = made.query(text)
        for kind in JOINS:
            one = some_plan(chance, plans_of(query, (kind, 1, 2), 1))
            tell_case(query, text, one, chance.choice([2, len(query.base) + 1]))


def tell_low_tops(chance):
    """Queries by indexes whose first scores lie far below MAX."""
    print("# Rank indexes whose first scores lie far below MAX: all plans of queries of one table.")
    tell_one_table(chance, 8, beyond=20)
    some = functools.partial(random_rows, chance)
    tell_two_tables(chance, "first scores far below MAX.", some([1, 2, 3], 6), some([1, 2, 3], 6), [equality(1, 2)], most=40)
    tell_two_tables(chance, "first scores far below MAX, and that of an empty index.", some([1, 2], 4), [], [equality(1, 2)], most=40)
    tell_three_tables(chance, "first scores far below MAX.", [some([1, 2], 4), some([1, 2], 3), some([1, 2], 4)], [(1, 2), (2, 3)], kinds=1, most=40)
    few = lambda count: [[chance.randint(1, 3), chance.randint(1, 3)] for _ in range(count)]
    tell = functools.partial(tell_set_operators, chance, most=20)
    tell("first scores far below MAX.", few(6), few(5))
    tell("first scores far below MAX, those of the second table greater.", few(5), [[x + 4, y + 2] for x, y in few(5)])
    tell("first scores far below MAX, and the first table has no row.", [], few(4))
    tell("first scores far below MAX, with DISTINCT in both blocks.", few(6), few(6), wanted=(1, 2))


def main():
    print("# Random tables, and all plans of queries of one, two and three terms: see checks/cases/executor.py.")
    chance = random.Random(1)
    for size in (6, 8, 10):
        tell_one_table(chance, size)
    tell_kinds_of_tables(chance)
    some = functools.partial(random_rows, chance)
    tell_three_tables(chance, "an equality of each two.", [some([1, 2], 4), some([1, 2], 3), some([1, 2], 4)], [(1, 2), (3, 1), (2, 3)])
    tell_three_tables(chance, "two equalities.", [some([1, 2], 4), some([1, 2], 4), some([1, 2], 3)], [(1, 2), (2, 3)], kinds=1)
    tell_three_tables(chance, "one of them has no row.", [some([1, 2], 3), [], some([1, 2], 3)], [(1, 2), (2, 3)], kinds=1)
    tell_three_tables(chance, "no row matches two others.", [some([1], 2), some([1, 2], 3), some([2], 2)], [(1, 2), (2, 3)], kinds=1)
    tell_three_tables(chance, "all keys and join values are equal.", [[[1, 5]] * 2] * 3, [(1, 2), (2, 3)], kinds=1)
    tell_three_tables(chance, "no condition.", [some([1], 2), some([1], 2), some([1], 2)], [])

    tell_distinct(chance)
    tell_kinds_of_sides(chance)
    tell_joined_sides(chance)
    tell_low_tops(chance)


if __name__ == "__main__":
    main()
