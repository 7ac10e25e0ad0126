"""Parses a script as the program does, and remembers where it stops and what could stand there."""

from typing import NamedTuple

RESERVED = frozenset(
    "ALL AND AS BY CASE CLOSE CREATE DECLARE DESC DISTINCT ELSE END EXCEPT EXPLAIN FETCH FOR FROM INSERT INTERSECT"
    " LIMIT NOT ON OR ORDER SELECT THEN UNION WHEN WHERE".split()
)
FOREIGN = frozenset(
    "ASC BETWEEN DELETE DROP EXISTS FULL GROUP HAVING IN INNER IS JOIN LEFT LIKE NULL OFFSET OUTER RIGHT"
    " UPDATE WITH".split()
)
# The parts of the grammar that go on as long as something fits, so that a stop right behind them is still a fault in them.
OPEN = frozenset(("items", "from", "where", "formula", "terms", "rows"))
COMPARISONS = ("=", "<>", "!=", "<", "<=", ">", ">=")


class Stopped(Exception):
    """The parse stops at a token: its place in the list, the parts of the grammar round it, those that end in front of it and
    could go on, and what could stand there."""

    def __init__(self, index, trail, ended, expected):
        super().__init__(index)
        self.index, self.trail, self.ended, self.expected = index, trail, ended, expected


class Column(NamedTuple):
    """A column that a script speaks of: its alias, if it has one, its name, and its first token."""

    alias: str
    name: str
    token: object

    @property
    def start(self):
        return self.token.start


class Node(NamedTuple):
    """A part of an expression: what it is, its parts, its first token, and the sign of a comparison."""

    kind: str
    parts: list
    token: object
    sign: str = ""

    @property
    def start(self):
        return self.token.start


class Table(NamedTuple):
    name: object
    columns: list
    file: object


class Predicate(NamedTuple):
    name: object
    columns: list
    most: object
    cost: object
    formula: Node


class Index(NamedTuple):
    name: object
    table: object
    predicate: object
    args: list


class Row(NamedTuple):
    """A row of an INSERT: its first bracket, and the first token of each of its values."""

    token: object
    cells: list

    @property
    def start(self):
        return self.token.start


class Insert(NamedTuple):
    table: object
    rows: list


class Term(NamedTuple):
    token: object
    weight: object
    predicate: object
    args: list

    @property
    def start(self):
        return self.token.start


class Block(NamedTuple):
    distinct: bool
    items: list
    sources: list
    where: object


class Select(NamedTuple):
    blocks: list
    terms: list
    limit: object


class Cursor(NamedTuple):
    word: str
    name: object
    number: object
    select: object


class Explain(NamedTuple):
    select: Select


class Parser:
    """Goes through the tokens. `tried` has what was looked for at the current token and isn't there; `trail` has the parts of the
    grammar round it, and `ended` those that end in front of it and could go on."""

    def __init__(self, tokens):
        self.tokens, self.index = tokens, 0
        self.trail, self.tried, self.ended = [], [], []
        self.statements, self.starts = [], []

    # ---- tokens

    @property
    def token(self):
        return self.tokens[self.index]

    def step(self):
        token = self.token
        self.index += 1
        self.tried, self.ended = [], []
        return token

    def stop(self):
        raise Stopped(self.index, tuple(self.trail), tuple(self.ended), list(self.tried))

    def takes(self, *wanted):
        """Steps over the token if it is one of these words and symbols."""
        if self.token.is_symbol(*wanted) or self.token.is_word(*wanted):
            return self.step()
        self.tried.extend(wanted)
        return None

    def needs(self, *wanted):
        return self.takes(*wanted) or self.stop()

    def is_name(self):
        token = self.token
        return token.sort == "quoted" or token.sort == "word" and token.text.upper() not in RESERVED | FOREIGN

    def takes_name(self):
        if self.is_name():
            return self.step()
        self.tried.append("a name")
        return None

    def needs_name(self):
        return self.takes_name() or self.stop()

    def takes_sort(self, sort, says):
        if self.token.sort == sort:
            return self.step()
        self.tried.append(says)
        return None

    def needs_number(self):
        return self.takes_sort("number", "a number") or self.stop()

    def needs_text(self):
        return self.takes_sort("literal", "a text") or self.stop()

    def within(self, what, part, *given):
        """What a part of the grammar gives, with its name on the trail as long as it isn't done."""
        self.trail.append(what)
        made = part(*given)
        self.trail.pop()
        if what in OPEN:
            self.ended.append(what)
        return made

    def list_of(self, part):
        made = [part()]
        while self.takes(","):
            made.append(part())
        return made

    # ---- statements

    def script(self):
        while self.token.sort != "end":
            self.starts.append(self.index)
            self.statements.append(self.within("statement", self.statement))
            if self.token.sort == "end":
                return
            self.within("behind", self.needs, ";")

    def statement(self):
        if self.takes("CREATE"):
            return self.within("create", self.create)
        if self.token.is_word("SELECT"):
            return self.within("select", self.select)
        self.tried.append("SELECT")
        if self.takes("EXPLAIN"):
            return self.within("explain", self.explain)
        if self.takes("DECLARE"):
            return self.within("declare", self.declare)
        if self.takes("FETCH"):
            return self.within("fetch", self.fetch)
        if self.takes("INSERT"):
            return self.within("insert", self.insert)
        self.needs("CLOSE")
        return self.within("close", lambda: Cursor("CLOSE", self.needs_name(), None, None))

    def explain(self):
        self.takes("ANALYZE")
        return Explain(self.within("select", self.select))

    def declare(self):
        name = self.needs_name()
        self.needs("CURSOR")
        self.needs("FOR")
        return Cursor("DECLARE", name, None, self.within("select", self.select))

    def fetch(self):
        number = self.needs_number()
        self.needs("FROM")
        return Cursor("FETCH", self.needs_name(), number, None)

    def insert(self):
        self.needs("INTO")
        table = self.needs_name()
        self.within("values", self.needs, "VALUES")
        return Insert(table, self.within("rows", self.list_of, self.row))

    def row(self):
        token = self.needs("(")
        cells = self.within("cells", self.list_of, self.cell)
        self.within("cells", self.needs, ")")
        return Row(token, cells)

    def cell(self):
        token = self.token
        if token.sort == "literal":
            return self.step()
        if self.takes("-"):
            self.needs_number()
            return token
        if token.sort == "number":
            return self.step()
        self.tried.extend(["a number", "a text"])
        return self.stop()

    def create(self):
        if self.takes("TABLE"):
            return self.within("table", self.table)
        if self.takes("PREDICATE"):
            return self.within("predicate", self.predicate)
        self.needs("RANK")
        return self.within("index", self.rank_index)

    def columns(self):
        self.needs("(")
        columns = self.list_of(self.column)
        self.needs(")")
        return columns

    def column(self):
        name = self.needs_name()
        return name, self.within("kind", self.needs, "INT", "INTEGER", "TEXT").text.upper().replace("INTEGER", "INT")

    def table(self):
        name = self.needs_name()
        columns = self.within("columns", self.columns)
        self.needs("FROM")
        return Table(name, columns, self.within("file", self.needs_text))

    def predicate(self):
        name = self.needs_name()
        columns = self.within("parameters", self.columns)
        self.needs("MAX")
        most = self.within("max", self.needs_number)
        cost = self.takes("COST") and self.within("cost", self.needs_number)
        self.needs("AS")
        return Predicate(name, columns, most, cost, self.within("formula", self.expression))

    def rank_index(self):
        self.needs("INDEX")
        name = self.needs_name()
        self.needs("ON")
        table = self.needs_name()
        self.needs("(")
        predicate = self.needs_name()
        self.within("call", self.needs, "(")
        args = self.within("args", self.list_of, self.argument)
        self.needs(")")
        self.needs(")")
        return Index(name, table, predicate, args)

    # ---- queries

    def select(self):
        blocks = [self.block()]
        if self.takes("UNION"):
            self.takes("ALL")
            blocks.append(self.within("second", self.block))
        elif self.takes("INTERSECT", "EXCEPT"):
            blocks.append(self.within("second", self.block))
        self.needs("ORDER")
        self.within("order", self.needs, "BY")
        terms = self.within("terms", self.terms)
        self.within("desc", self.takes, "DESC")
        limit = self.takes("LIMIT") and self.within("limit", self.needs_number)
        return Select(blocks, terms, limit)

    def terms(self):
        made = [self.term()]
        while self.takes("+"):
            made.append(self.term())
        return made

    def term(self):
        first, weight = self.token, None
        if self.token.sort == "number":
            weight = self.step()
            self.within("weight", self.needs, "*")
        else:
            self.tried.append("a number")
        predicate = self.needs_name()
        self.within("call", self.needs, "(")
        args = self.within("args", self.list_of, self.argument)
        self.within("args", self.needs, ")")
        return Term(first, weight, predicate, args)

    def argument(self):
        token = self.token
        if token.sort == "literal":
            return self.step()
        if self.takes("-"):
            self.needs_number()
            return token
        if token.sort == "number":
            return self.step()
        self.tried.extend(["a number", "a text"])
        return self.reference()

    def reference(self):
        name = self.needs_name()
        if self.takes("."):
            return Column(name.says, self.within("dot", self.needs_name).says, name)
        return Column("", name.says, name)

    def block(self):
        self.needs("SELECT")
        distinct = bool(self.takes("DISTINCT"))
        items = self.within("items", self.items)
        self.within("items", self.needs, "FROM")
        sources = self.within("from", self.list_of, self.source)
        where = None
        if self.takes("WHERE"):
            where = self.within("where", self.expression)
        return Block(distinct, items, sources, where)

    def items(self):
        star = self.takes("*")
        return [star] if star else self.list_of(self.reference)

    def source(self):
        table = self.needs_name()
        alias = self.needs_name() if self.takes("AS") else self.takes_name()
        return table, alias or table

    # ---- expressions

    def expression(self):
        return self.joined("or", self.conjunction, "OR")

    def conjunction(self):
        return self.joined("and", self.negation, "AND")

    def joined(self, kind, part, *symbols):
        left = part()
        while True:
            sign = self.takes(*symbols)
            if not sign:
                return left
            left = Node(kind if kind != "arith" else sign.text, [left, part()], left.token)

    def negation(self):
        token = self.token
        if self.takes("NOT"):
            return Node("not", [self.negation()], token)
        return self.comparison()

    def comparison(self):
        left = self.sum()
        sign = self.takes(*COMPARISONS)
        if sign:
            left = Node("compare", [left, self.within("right", self.sum)], left.token, sign.text)
            if self.token.is_symbol(*COMPARISONS):
                self.trail.append("twice")
                self.tried.extend(["AND", "OR"])
                self.stop()
        return left

    def sum(self):
        return self.joined("arith", self.product, "+", "-")

    def product(self):
        return self.joined("arith", self.sign, "*", "/")

    def sign(self):
        token = self.token
        if self.takes("-"):
            return Node("neg", [self.sign()], token)
        return self.base()

    def base(self):
        token, behind = self.token, self.tokens[min(self.index + 1, len(self.tokens) - 1)]
        if token.sort in ("number", "literal"):
            self.step()
            return Node(token.sort, [], token)
        self.tried.extend(["a number", "a text"])
        if self.takes("("):
            inner = self.within("brackets", self.expression)
            self.within("brackets", self.needs, ")")
            return inner
        if self.takes("CASE"):
            return self.within("case", self.case, token)
        if token.is_word("ABS", "MIN", "MAX") and behind.is_symbol("("):
            return self.within(token.text.upper(), self.function, token)
        column = self.within("operand", self.reference)
        return Node("column", [column], column.token)

    def function(self, token):
        self.step()
        self.step()
        parts = [self.expression()]
        if not token.is_word("ABS"):
            self.needs(",")
            parts.append(self.expression())
        self.needs(")")
        return Node(token.text.lower(), parts, token)

    def case(self, token):
        parts = []
        self.within("when", self.needs, "WHEN")
        while True:
            parts.append(self.expression())
            self.needs("THEN")
            parts.append(self.expression())
            if not self.takes("WHEN"):
                break
        self.within("else", self.needs, "ELSE")
        parts.append(self.expression())
        self.within("end", self.needs, "END")
        return Node("case", parts, token)


def parse(tokens):
    """The parser, behind its last step, and where it stopped, or None where the script parses. A script that nests too deep
    for the parser stops nowhere."""
    parser = Parser(tokens)
    try:
        parser.script()
    except Stopped as stopped:
        return parser, stopped
    except RecursionError:
        pass
    return parser, None
