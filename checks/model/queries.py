"""Queries as the word `run` sees them: what is read of a script, the sample, the least plan, and what its asks call.

A plan is chosen among all that there are for each set of entries and of evaluated terms, and its asks and calls are counted
over finished lists: there is no queue and no threshold here. It serves runs.py.
"""

import functools
import itertools
import math
import re

SAMPLE_SIZES = [256, 64, 24, 12, 8, 6]


def rotated(word, count):
    return (word >> count | word << (32 - count)) & 0xFFFFFFFF


def permuted(state):
    return rotated(((state >> 18 ^ state) >> 27) & 0xFFFFFFFF, state >> 59)


def words_of(seed):
    """The words of a generator of this seed: PCG32, whose state and increment are made of the seed by a generator of that kind."""
    most, factor = (1 << 64) - 1, 6364136223846793005
    made = []
    for _ in range(4):
        seed = seed * factor + 11634580027462260723 & most
        made.append(permuted(seed))
    increment = (made[2] | made[3] << 32) | 1
    state = ((made[0] | made[1] << 32) + increment) * factor + increment & most
    while True:
        yield permuted(state)
        state = state * factor + increment & most


def taken(size, needed, words):
    """The rows that are taken of a table, by selection sampling."""
    rows = []
    for row in range(1, size + 1):
        if needed == len(rows):
            break
        if next(words) % (size - row + 1) < needed - len(rows):
            rows.append(row)
    return rows


class Unread(Exception):
    """A script that isn't read here."""


class Ended(Exception):
    """A run that ends with this status and line."""


# ---- words and expressions

TOKEN = re.compile(r"\s*('(?:[^']|'')*'|\w+|<=|>=|<>|[-+*/(),.;=<>])")


class Words:
    """The words of a statement, and how many bytes of it stand in front of each."""

    def __init__(self, text):
        self.words, self.places, at, text = [], [], 0, text.rstrip()
        while at < len(text):
            found = TOKEN.match(text, at)
            if not found:
                raise Unread
            self.words.append(found.group(1))
            self.places.append(len(text[: found.start(1)].encode(errors="surrogateescape")))
            at = found.end()
        self.at = 0

    def place(self):
        """The place of the word that comes."""
        return self.places[self.at] if self.at < len(self.places) else None

    def next(self):
        return self.words[self.at] if self.at < len(self.words) else None

    def take(self):
        word = self.next()
        if word is None:
            raise Unread
        self.at += 1
        return word

    def skip(self, *words):
        """Whether these words come, which are taken then."""
        if self.words[self.at : self.at + len(words)] != list(words):
            return False
        self.at += len(words)
        return True

    def want(self, *words):
        if not self.skip(*words):
            raise Unread


def listed(words, item):
    items = [item(words)]
    while words.skip(","):
        items.append(item(words))
    return items


def column(words):
    name = words.take()
    if not re.match(r"[A-Za-z_]", name):
        raise Unread
    return ("column", name, words.take()) if words.skip(".") else ("column", None, name)


def primary(words):
    word = words.next()
    if words.skip("("):
        inner = either(words)
        words.want(")")
        return inner
    if words.skip("-"):
        return ("negated", primary(words))
    for function in ("ABS", "MIN", "MAX"):
        if words.skip(function, "("):
            parts = listed(words, total)
            words.want(")")
            return (function, *parts)
    if word and word.isdigit():
        return ("number", int(words.take()))
    if word and word.startswith("'"):
        return ("text", words.take()[1:-1].replace("''", "'"))
    return column(words)


def product(words):
    left = primary(words)
    while words.next() in ("*", "/"):
        left = (words.take(), left, primary(words))
    return left


def total(words):
    left = product(words)
    while words.next() in ("+", "-"):
        left = (words.take(), left, product(words))
    return left


def compared(words):
    left = total(words)
    return (words.take(), left, total(words)) if words.next() in ("=", "<>", "<", "<=", ">", ">=") else left


def both(words):
    left = compared(words)
    while words.skip("AND"):
        left = ("AND", left, compared(words))
    return left


def either(words):
    left = both(words)
    while words.skip("OR"):
        left = ("OR", left, both(words))
    return left


def divided(a, b):
    return abs(a) // abs(b) * (1 if (a < 0) == (b < 0) else -1)


MEANINGS = {
    "+": lambda a, b: a + b,
    "-": lambda a, b: a - b,
    "*": lambda a, b: a * b,
    "/": divided,
    "=": lambda a, b: a == b,
    "<>": lambda a, b: a != b,
    "<": lambda a, b: a < b,
    "<=": lambda a, b: a <= b,
    ">": lambda a, b: a > b,
    ">=": lambda a, b: a >= b,
    "AND": lambda a, b: a and b,
    "OR": lambda a, b: a or b,
    "MIN": min,
    "MAX": max,
    "ABS": abs,
    "negated": lambda a: -a,
}


def value(expression, named):
    """The value of an expression, where `named` is that of a column."""
    kind, *parts = expression
    if kind in ("number", "text"):
        return parts[0]
    if kind == "column":
        return named(*parts)
    return MEANINGS[kind](*(value(part, named) for part in parts))


def columns_in(expression):
    kind, *parts = expression
    if kind == "column":
        return [tuple(parts)]
    return [c for part in parts if isinstance(part, tuple) for c in columns_in(part)]


# ---- queries


def listed_terms(words):
    terms = [term(words)]
    while words.skip("+"):
        terms.append(term(words))
    return terms


def term(words):
    weight = int(words.take()) if words.next().isdigit() else 1
    words.skip("*")
    predicate = words.take()
    words.want("(")
    args = listed(words, total)
    words.want(")")
    return weight, predicate, args


def entry(words):
    table = words.take()
    alias = words.next()
    return (table, words.take() if alias and re.match(r"[a-z]", alias) else table)


def conjuncts(part):
    return conjuncts(part[1]) + conjuncts(part[2]) if part[0] == "AND" else [part]


OPERATORS = {"UNION": "Union", "INTERSECT": "Intersect", "EXCEPT": "Except"}


def operator(words):
    """The name of the set operator that comes, if one does."""
    if words.next() not in OPERATORS:
        return None
    word = words.take()
    return "UnionAll" if word == "UNION" and words.skip("ALL") else OPERATORS[word]


def read_query(words, run):
    """A query of one block, or of two with a set operator between them."""
    left = Block(words, run, 1)
    name = operator(words)
    right = Block(words, run, 2) if name else None
    words.want("ORDER", "BY")
    terms = listed_terms(words)
    limit = int(words.take()) if words.skip("LIMIT") else None
    drawn = words_of(run.seed or 0)
    if right is None:
        left.order(terms, limit, drawn)
        return left
    columns = [[left.output_named(*a[1:]) if a[0] == "column" else None for a in args] for _, _, args in terms]
    for block in (left, right):
        block.order(terms, limit, drawn, columns)
    return Pair(name, left, right)


class Block:
    """A query of one block, or one of the two blocks of a query."""

    def __init__(self, words, run, number):
        self.run, self.number = run, number
        words.want("SELECT")
        self.distinct = words.skip("DISTINCT")
        items = None if words.skip("*") else listed(words, column)
        words.want("FROM")
        self.names = listed(words, entry)
        self.parts = conjuncts(either(words)) if words.skip("WHERE") else []
        if any(table not in run.tables for table, _ in self.names):
            raise Unread
        # What joins later changes nothing: rows make a new table, and the indexes are those of now.
        self.tables = [run.tables[table] for table, _ in self.names]
        self.indexes = list(run.indexes)
        everything = [(e, c) for e, table in enumerate(self.tables) for c in range(len(table.columns))]
        self.items = everything if items is None else [self.found(*item[1:]) for item in items]
        self.conjuncts = [(part, frozenset(self.found(*c)[0] for c in columns_in(part))) for part in self.parts]
        self.all = frozenset(range(len(self.tables)))

    def order(self, terms, limit, drawn, columns=None):
        """The terms and LIMIT of the query. Of two blocks, the terms speak of output columns, whose places are given."""
        self.limit, self.terms = limit, []
        for number, (weight, predicate, args) in enumerate(terms):
            if predicate not in self.run.predicates:
                raise Unread
            places = [self.place(a, columns[number][n] if columns else None) for n, a in enumerate(args)]
            if self.distinct and any(a[0] != "value" and a not in self.items for a in places):
                raise Unread
            self.terms.append((weight, predicate, places, frozenset(a[0] for a in places if a[0] != "value")))
        self.every = frozenset(range(len(terms)))
        most = SAMPLE_SIZES[len(self.tables) - 1]
        self.samples = [taken(len(table.rows), min(most, len(table.rows)), drawn) for table in self.tables]
        self.tops = [self.top(number) for number in range(len(terms))]

    def key_of_index(self, entry, term):
        """What an index of an entry for a term is of."""
        _, predicate, args, _ = self.terms[term]
        return (self.names[entry][0], predicate, tuple(a if a[0] == "value" else a[1] for a in args))

    def top(self, term):
        """The first score of the index of a term, as it is now, or 0 where it is empty; MAX where the term has no index or several
        entries. A scorer answers the same to each call."""
        entries = self.terms[term][3]
        if len(entries) != 1:
            return self.most(term)
        (entry,) = entries
        if self.key_of_index(entry, term) not in self.indexes:
            return self.most(term)
        others = (0,) * len(self.tables)
        rows = [others[:entry] + (row,) + others[entry + 1 :] for row in range(1, len(self.tables[entry].rows) + 1)]
        return max((self.run.answer(*self.call(row, term)) for row in rows), default=0)

    def place(self, argument, output):
        if argument[0] != "column":
            return ("value", value(argument, None))
        return self.found(*argument[1:]) if output is None else self.items[output]

    def output_named(self, alias, name):
        """The place of the output column of this name."""
        places = [n for n, (e, c) in enumerate(self.items) if self.tables[e].columns[c][0] == name]
        if alias is not None or len(places) != 1:
            raise Unread
        return places[0]

    def found(self, alias, name):
        places = [
            (e, [c for c, _ in table.columns].index(name))
            for e, table in enumerate(self.tables)
            if alias in (None, self.names[e][1]) and name in [c for c, _ in table.columns]
        ]
        if len(places) != 1:
            raise Unread
        return places[0]

    def cell(self, rows, place):
        entry, column = place
        return self.tables[entry].rows[rows[entry] - 1][column]

    def outputs(self, rows):
        return [self.cell(rows, place) for place in self.items]

    def call(self, rows, term):
        _, predicate, args, _ = self.terms[term]
        return predicate, tuple(a[1] if a[0] == "value" else self.cell(rows, a) for a in args)

    def predicate(self, term):
        return self.run.predicates[self.terms[term][1]]

    def most(self, term):
        return self.predicate(term).most

    def worth(self, rows, term, answer):
        return max(0, min(self.most(term), answer(*self.call(rows, term))))

    @functools.lru_cache(None)
    def sampled_choices(self, entries):
        """Each choice of a sampled row for each of these entries, with 0 at the others, in lexicographic order."""
        return list(itertools.product(*(rows if e in entries else [0] for e, rows in enumerate(self.samples))))

    def satisfies(self, rows, part):
        return value(part, lambda alias, name: self.cell(rows, self.found(alias, name)))

    @functools.lru_cache(None)
    def sampled(self, entries):
        """Those of them for which each condition holds that speaks of these entries alone."""
        inside = [part for part, own in self.conjuncts if own <= entries]
        return [rows for rows in self.sampled_choices(entries) if all(self.satisfies(rows, part) for part in inside)]

    @functools.lru_cache(None)
    def combinations(self, entries):
        """The same of all rows."""
        made = [((0,) * len(self.tables), frozenset())]
        for entry, table in enumerate(self.tables):
            if entry not in entries:
                continue
            longer = []
            for rows, own in made:
                now = own | {entry}
                inside = [part for part, read in self.conjuncts if read <= now and (entry in read or not own)]
                for row in range(1, len(table.rows) + 1):
                    more = rows[:entry] + (row,) + rows[entry + 1 :]
                    if all(self.satisfies(more, part) for part in inside):
                        longer.append((more, now))
            made = longer
        return [rows for rows, _ in made]

    @functools.cached_property
    def base(self):
        """The rows of the block: with DISTINCT, the first one of each list of output values."""
        rows = self.combinations(self.all)
        return firsts([(self.outputs(row), row) for row in rows]) if self.distinct else rows

    @functools.lru_cache(None)
    def bound(self, rows, terms):
        return self.bound_by(self.worths(rows, self.run.answer), terms)

    def sampled_bound(self, rows, terms):
        """The same of a row of the sample, as the sample is scored."""
        return self.bound_by(self.sampled_worths(rows), terms)

    @functools.lru_cache(None)
    def sampled_worths(self, rows):
        return self.worths(rows, self.run.sampled_answer)

    def worths(self, rows, answer):
        """Of each term its worth, where a row is there of each entry that it speaks of."""
        return [self.worth(rows, t, answer) if all(rows[e] for e in term[3]) else None for t, term in enumerate(self.terms)]

    def bound_by(self, worths, terms):
        return sum(w * (worths[t] if t in terms else self.tops[t]) for t, (w, *_) in enumerate(self.terms))

    def key(self, rows, terms):
        return -self.bound(rows, terms), self.number, rows

    @functools.lru_cache(None)
    def listed_rows(self, entries, terms):
        return sorted(self.combinations(entries), key=lambda rows: self.key(rows, terms))

    @property
    def answer(self):
        """All rows in the order of their scores."""
        return sorted(self.base, key=lambda row: self.key(row, self.every))

    def all_calls(self):
        """The calls of all terms for all rows, each with the row numbers that a fault would tell of."""
        return [self.told_call(rows, t) for rows in self.combinations(self.all) for t in sorted(self.every)]

    def told_call(self, rows, term):
        return self.call(rows, term), [rows[e] for e in sorted(self.terms[term][3])], self.most(term)

    # -- the sample, and what is expected by it

    def sample_calls(self):
        return [self.call(rows, t) for t, term in enumerate(self.terms) for rows in self.sampled_choices(term[3])]

    def scaled(self, entries, count):
        """A number that was counted among samples, for all rows, rounded up."""
        sizes = math.prod(len(self.tables[e].rows) for e in entries)
        return -(-count * sizes // math.prod(len(self.samples[e]) for e in entries)) if sizes else 0

    @functools.cached_property
    def cutoff(self):
        sizes = math.prod(len(table.rows) for table in self.tables)
        wanted = (10 if self.limit is None else self.limit) * math.prod(map(len, self.samples))
        place = max(1, -(-wanted // sizes) if sizes else 0)
        scores = sorted((self.sampled_bound(rows, self.every) for rows in self.sampled(self.all)), reverse=True)
        return scores[place - 1] if place <= len(scores) else 0

    @functools.lru_cache(None)
    def estimate(self, entries, terms):
        return self.scaled(entries, sum(self.sampled_bound(rows, terms) >= self.cutoff for rows in self.sampled(entries)))

    def expected(self, terms):
        return self.estimate(self.all, terms)

    def index_estimate(self, entry, term):
        own = frozenset([entry])
        return self.scaled(own, sum(self.sampled_bound(rows, frozenset([term])) >= self.cutoff for rows in self.sampled_choices(own)))

    # -- the least plan

    @functools.lru_cache(None)
    def best(self, entries, terms):
        """The least plan of these entries and evaluated terms, or None."""
        found = []
        if len(entries) == 1:
            (entry,) = entries
            if not terms:
                found.append(Scan(self, entry))
            if len(terms) == 1:
                (term,) = terms
                if self.terms[term][3] == entries and self.key_of_index(entry, term) in self.indexes:
                    found.append(IndexScan(self, entry, term))
        for term in terms:
            child = self.best(entries, terms - {term}) if self.terms[term][3] <= entries else None
            if child:
                found.append(Rank(self, term, child))
        for count in range(1, len(entries)):
            for chosen in itertools.combinations(sorted(entries), count):
                found += self.joins(frozenset(chosen), entries - frozenset(chosen), terms)
        return min(found, key=Plan.order) if found else None

    def joins(self, left, right, terms):
        sides = [frozenset(t for t in terms if self.terms[t][3] <= side) for side in (left, right)]
        if sides[0] | sides[1] != terms:
            return []
        a, b = self.best(left, sides[0]), self.best(right, sides[1])
        if not (a and b):
            return []
        is_hashed = any(self.equates(part, left, right) for part in self.parts)
        return [NestedJoin(self, a, b)] + ([HashJoin(self, a, b)] if is_hashed else [])

    def equates(self, part, left, right):
        if part[0] != "=" or part[1][0] != "column" or part[2][0] != "column":
            return False
        one, two = self.found(*part[1][1:])[0], self.found(*part[2][1:])[0]
        return (one in left and two in right) or (one in right and two in left)

    @functools.lru_cache(None)
    def whole(self, terms):
        """The least plan of the block that evaluates these terms."""
        part = self.best(self.all, terms)
        if not self.distinct:
            return part
        return min([Distinct(self, part)] * bool(part) + ranked(self, terms), key=Plan.order, default=None)

    @property
    def plan(self):
        return self.whole(self.every)

    def score(self, rows):
        return self.bound(rows, self.every)


class Pair:
    """A query of two blocks. A row of it is the number of a block, and a row of that block."""

    def __init__(self, name, left, right):
        self.name, self.blocks, self.limit, self.every = name, (left, right), left.limit, left.every
        if len(left.items) != len(right.items):
            raise Unread
        # The tops of both blocks are the greater ones.
        left.tops = right.tops = list(map(max, left.tops, right.tops))

    def block(self, row):
        return self.blocks[row[0] - 1]

    def outputs(self, row):
        return self.block(row).outputs(row[1])

    def told_call(self, row, term):
        return self.block(row).told_call(row[1], term)

    def predicate(self, term):
        return self.blocks[0].predicate(term)

    def key(self, row, terms):
        return self.block(row).key(row[1], terms)

    @property
    def answer(self):
        return sorted(self.base, key=lambda row: self.key(row, self.every))

    def all_calls(self):
        return [call for block in self.blocks for call in block.all_calls()]

    def score(self, row):
        return -self.key(row, self.every)[0]

    @functools.cached_property
    def base(self):
        left, right = ([(block.outputs(rows), (block.number, rows)) for rows in block.base] for block in self.blocks)
        there = [values for values, _ in right]
        if self.name == "UnionAll":
            return [row for _, row in left + right]
        if self.name == "Union":
            return firsts(left + right)
        return firsts([(values, row) for values, row in left if (values in there) == (self.name == "Intersect")])

    def sample_calls(self):
        return [call for block in self.blocks for call in block.sample_calls()]

    def expected(self, terms):
        return sum(block.expected(terms) for block in self.blocks)

    @functools.lru_cache(None)
    def whole(self, terms):
        sides = [block.whole(terms) for block in self.blocks]
        return min([SetPlan(self, *sides)] * all(sides) + ranked(self, terms), key=Plan.order, default=None)

    @property
    def plan(self):
        return self.whole(self.every)


def firsts(rows):
    """The first one of the rows with the same values."""
    made, seen = [], []
    for values, row in rows:
        if values not in seen:
            seen.append(values)
            made.append(row)
    return made


def ranked(query, terms):
    """Rank operators, each over the least plan of the query that evaluates the other terms."""
    below = [(term, query.whole(terms - {term})) for term in terms]
    return [Rank(query, term, plan) for term, plan in below if plan]


def mask(numbers):
    return sum(1 << n for n in numbers)


# ---- plans


class Plan:
    """A node of a plan, with its entries, or None where it gives rows of the query, and the terms that are evaluated."""

    def __init__(self, query, entries, terms, children, cost, code):
        self.query, self.entries, self.terms, self.children = query, entries, terms, children
        self.cost = cost + sum(child.cost for child in children)
        self.code = code + tuple(number for child in children for number in child.code)

    def order(self):
        return self.cost, self.code

    @functools.cached_property
    def rows(self):
        if self.entries is None:
            return sorted(self.query.base, key=self.key)
        return self.query.listed_rows(self.entries, self.terms)

    def key(self, row):
        return self.query.key(row, self.terms)

    @property
    def estimate(self):
        return self.query.expected(self.terms) if self.entries is None else self.query.estimate(self.entries, self.terms)

    def before(self, key, asks):
        """Whether a key comes before that of the last answer of so many asks, which lies beyond all keys where there are fewer rows."""
        return asks > len(self.rows) or key < self.key(self.rows[asks - 1])

    def alone(self, rows, asks):
        """How often an only child with these rows is asked."""
        return 1 + sum(self.before(key, asks) for key in rows)

    @functools.lru_cache(None)
    def schedule(self, asks):
        """The asks of the children in their order, each a child's place and the number of the ask."""
        return self.asks_below(asks) if asks else []

    def asks_below(self, asks):
        return []

    @functools.lru_cache(None)
    def calls(self, asks):
        """The calls of so many asks, each with the row numbers that a fault would tell of."""
        made = []
        for side, ask in self.schedule(asks):
            made += self.children[side].part(ask) + self.own_call(ask)
        return made

    def own_call(self, ask):
        return []

    def part(self, ask):
        """The calls of this ask alone."""
        return self.calls(ask)[len(self.calls(ask - 1)) :]

    def gave(self, asks):
        """How many rows it has given once it was asked so often."""
        return min(asks, len(self.rows))

    def drawn(self, asks):
        """How far it has read its table or index by then."""
        return 0

    def called(self, asks):
        """How often it has called its own predicate by then."""
        return 0

    def told(self, asks):
        """What the node has done by then."""
        return f" asked={asks} gave={self.gave(asks)}"

    def lines(self, level=0, asks=None):
        """The lines of the node and of all below it, with what they have done where the node was asked so often."""
        told = "" if asks is None else self.told(asks)
        yield f"{'  ' * level}{self.word()} est={self.estimate} cost={self.cost}{told}\n"
        below = [0] * len(self.children) if asks is None else self.asked_below(asks)
        for child, count in zip(self.children, below):
            yield from child.lines(level + 1, None if asks is None else count)

    def asked_below(self, asks):
        sides = [side for side, _ in self.schedule(asks)]
        return [sides.count(place) for place in range(len(self.children))]

    def text(self, asks=None):
        return "".join(self.lines(0, asks))


class Scan(Plan):
    def __init__(self, query, entry):
        super().__init__(query, frozenset([entry]), frozenset(), (), len(query.tables[entry].rows), (1, entry + 1))
        self.entry = entry

    def word(self):
        return "SeqScan " + " ".join(self.query.names[self.entry])

    def source(self):
        """The rows of the table in the order in which they are drawn."""
        return list(range(1, len(self.query.tables[self.entry].rows) + 1))

    def drawn(self, asks):
        source = self.source()
        return len(source) if asks > len(self.rows) else source.index(self.rows[asks - 1][self.entry]) + 1 if asks else 0

    def told(self, asks):
        return super().told(asks) + f" drawn={self.drawn(asks)}"


class IndexScan(Scan):
    def __init__(self, query, entry, term):
        code = (2, entry + 1, term + 1)
        Plan.__init__(self, query, frozenset([entry]), frozenset([term]), (), 2 * query.index_estimate(entry, term), code)
        self.entry, self.term = entry, term

    def word(self):
        return f"RankScan {' '.join(self.query.names[self.entry])} term {self.term + 1}"

    def source(self):
        empty = (0,) * len(self.query.tables)
        numbered = [empty[: self.entry] + (row,) + empty[self.entry + 1 :] for row in super().source()]
        return [rows[self.entry] for rows in sorted(numbered, key=self.key)]


class Rank(Plan):
    def __init__(self, query, term, child):
        calls = child.estimate * query.predicate(term).cost
        super().__init__(query, child.entries, child.terms | {term}, (child,), calls, (3, term + 1))
        self.term, self.child = term, child

    def word(self):
        return f"Rank term {self.term + 1}"

    def asks_below(self, asks):
        return [(0, ask + 1) for ask in range(self.alone([self.child.key(row) for row in self.child.rows], asks))]

    def own_call(self, ask):
        return [self.query.told_call(row, self.term) for row in self.child.rows[ask - 1 : ask]]

    def called(self, asks):
        return self.child.gave(self.asked_below(asks)[0])

    def told(self, asks):
        return super().told(asks) + f" calls={self.called(asks)}"


class Distinct(Plan):
    def __init__(self, query, child):
        super().__init__(query, None, child.terms, (child,), child.estimate, (6,))

    def word(self):
        return "Distinct"

    def asks_below(self, asks):
        (child,) = self.children
        return [(0, ask + 1) for ask in range(self.alone([child.key(row) for row in child.rows], asks))]


def by_keys(plan, lefts, rights, asks):
    """The first ask of each side, and then each ask behind a key that comes before that of the last answer."""
    later = [(key, 0, n + 2) for n, key in enumerate(lefts) if plan.before(key, asks)]
    later += [(key, 1, n + 2) for n, key in enumerate(rights) if plan.before(key, asks)]
    return [(0, 1), (1, 1)] + [(side, ask) for _, side, ask in sorted(later)]


class Join(Plan):
    def __init__(self, query, left, right, kind, tried):
        entries, terms = left.entries | right.entries, left.terms | right.terms
        cost = tried + query.estimate(entries, terms)
        super().__init__(query, entries, terms, (left, right), cost, (kind, mask(left.entries), mask(left.terms)))

    def asks_below(self, asks):
        left, right = (child.rows for child in self.children)
        if not left:
            return [(0, 1)]
        lefts = [self.merged(rows, right[0]) for rows in left] if right else []
        return by_keys(self, lefts, [self.merged(left[0], rows) for rows in right], asks)

    def merged(self, left, right):
        return self.key(tuple(a or b for a, b in zip(left, right)))


class HashJoin(Join):
    def __init__(self, query, left, right):
        super().__init__(query, left, right, 4, 2 * (left.estimate + right.estimate))

    def word(self):
        return "HashRankJoin"


class NestedJoin(Join):
    def __init__(self, query, left, right):
        super().__init__(query, left, right, 5, left.estimate * right.estimate)

    def word(self):
        return "NestedRankJoin"


class SetPlan(Plan):
    def __init__(self, query, left, right):
        super().__init__(query, None, left.terms, (left, right), left.estimate + right.estimate, (7,))

    def word(self):
        return self.query.name

    def asks_below(self, asks):
        lefts, rights = ([child.key(row) for row in child.rows] for child in self.children)
        if self.query.name in ("Union", "UnionAll"):
            return by_keys(self, lefts, rights, asks)
        made, asked = [], 0
        for number in range(1, self.alone(lefts, asks) + 1):
            made.append((0, number))
            if number <= len(lefts):
                wanted = 1 + sum(key[0] <= lefts[number - 1][0] for key in rights)
                made += [(1, ask) for ask in range(asked + 1, wanted + 1)]
                asked = max(asked, wanted)
        return made
