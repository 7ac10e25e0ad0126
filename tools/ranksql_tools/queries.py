"""The queries of a script, each with what it stands on: its tables, predicates and rank indexes."""

from typing import NamedTuple, Optional

from .script_parse import Column, Cursor, Index, Insert, Predicate, Select, Table, parse
from .script_text import line_number, tokens_of

SET_OPERATORS = ("UNION", "INTERSECT", "EXCEPT")


class Statement(NamedTuple):
    """A statement: what the parser made of it, its tokens, and its first byte and the one behind it."""

    parsed: object
    tokens: list
    start: int
    end: int


class Query(NamedTuple):
    """A query of a script: its number, its line, its cursor if it is one's, how many rows are fetched from that, the SELECT,
    its tokens, and the CREATE and INSERT statements in front of it."""

    number: int
    line: int
    cursor: Optional[str]
    fetched: Optional[int]
    select: Select
    tokens: list
    creates: list

    def creates_of(self, kind):
        """The statements in front of it that are of one kind, or of several."""
        return [create for create in self.creates if isinstance(create.parsed, kind)]

    def table(self, name):
        return next(create for create in self.creates_of(Table) if create.parsed.name.says == name).parsed

    def predicate(self, name):
        return next(create for create in self.creates_of(Predicate) if create.parsed.name.says == name).parsed


class Argument(NamedTuple):
    """An argument of a term: the place of its table in FROM and its column, or its text as the script has it."""

    entry: Optional[int]
    text: str


def read_queries(body):
    """The queries of a script, or None where it doesn't parse."""
    tokens = tokens_of(body)
    parser, stopped = parse(tokens)
    if stopped is not None:
        return None
    statements = list(statements_of(parser, tokens))
    queries, creates = [], []
    for place, statement in enumerate(statements):
        parsed = statement.parsed
        if isinstance(parsed, (Table, Predicate, Index, Insert)):
            creates.append(statement)
            continue
        select = parsed if isinstance(parsed, Select) else getattr(parsed, "select", None)
        if select is None:
            continue
        first = next(index for index, token in enumerate(statement.tokens) if token.is_word("SELECT"))
        is_cursor = isinstance(parsed, Cursor)
        queries.append(Query(
            len(queries) + 1, line_number(body, statement.start), parsed.name.says if is_cursor else None,
            rows_fetched(parsed.name.says, statements[place + 1:]) if is_cursor else None,
            select, statement.tokens[first:], list(creates)))
    return queries


def statements_of(parser, tokens):
    """The statements, each with its tokens."""
    ends = parser.starts[1:] + [len(tokens)]
    for parsed, first, behind in zip(parser.statements, parser.starts, ends):
        own = [token for token in tokens[first:behind] if not token.is_symbol(";") and token.sort != "end"]
        yield Statement(parsed, own, own[0].start, own[-1].end)


def rows_fetched(name, statements):
    """How many rows are fetched from a cursor before it is closed."""
    rows = 0
    for statement in statements:
        parsed = statement.parsed
        if isinstance(parsed, Cursor) and parsed.name.says == name:
            if parsed.word == "CLOSE":
                break
            rows += int(parsed.number.text) if parsed.word == "FETCH" else 0
    return rows


def rows_wanted(query):
    """How many rows a query gives at most, or None where it gives all."""
    limits = [int(query.select.limit.text)] if query.select.limit else []
    if query.fetched is not None:
        limits.append(query.fetched)
    return min(limits) if limits else None


def sources_of(block):
    """The tables of FROM, each with its alias."""
    return [(table.says, alias.says) for table, alias in block.sources]


def place_of(query, block, column):
    """The place in FROM of the table that a column is of."""
    for place, (table, alias) in enumerate(sources_of(block)):
        if column.alias == alias:
            return place
        if not column.alias and column.name in [name.says for name, _ in query.table(table).columns]:
            return place
    raise LookupError(column.name)


def output_columns(query, block):
    """The output columns of a block: of each the place of its table in FROM, and its name."""
    if isinstance(block.items[0], Column):
        return [(place_of(query, block, column), column.name) for column in block.items]
    return [(place, name.says) for place, (table, _) in enumerate(sources_of(block)) for name, _ in query.table(table).columns]


def arguments_of(query, block, term):
    """The arguments of a term in a block. Of two blocks a column names an output column of the left one, and in the right one
    it is the output column at the same place."""
    blocks, made = query.select.blocks, []
    for argument in term.args:
        if not isinstance(argument, Column):
            made.append(Argument(None, literal_text(query, argument)))
        elif len(blocks) == 1:
            made.append(Argument(place_of(query, block, argument), argument.name))
        else:
            names = [name for _, name in output_columns(query, blocks[0])]
            made.append(Argument(*output_columns(query, block)[names.index(argument.name)]))
    return made


def literal_text(query, token, tokens=None):
    """An argument that is no column, as the script has it. Of a negative number the parser gives the sign."""
    tokens = query.tokens if tokens is None else tokens
    if not token.is_symbol("-"):
        return str(int(token.text)) if token.sort == "number" else token.text
    place = next(index for index, other in enumerate(tokens) if other.start == token.start)
    return "-%d" % int(tokens[place + 1].text)


def entries_of(query, block, term):
    """The places in FROM of the tables that a term reads."""
    return {argument.entry for argument in arguments_of(query, block, term) if argument.entry is not None}


def index_key(table, predicate, arguments):
    """What tells whether an index serves a term: the table, the predicate and the arguments."""
    return (table, predicate, tuple((argument.entry is not None, argument.text) for argument in arguments))


def indexes_of(query):
    """The key of each rank index in front of a query, and its statement."""
    made = {}
    for create in query.creates_of(Index):
        index = create.parsed
        arguments = [Argument(0, argument.name) if isinstance(argument, Column) else
                     Argument(None, literal_text(query, argument, create.tokens)) for argument in index.args]
        made[index_key(index.table.says, index.predicate.says, arguments)] = create
    return made


def key_of_term(query, block, term):
    """The key of the rank index that would serve a term in a block, or None where it reads several tables."""
    arguments = arguments_of(query, block, term)
    entries = {argument.entry for argument in arguments if argument.entry is not None}
    if len(entries) != 1:
        return None
    return index_key(sources_of(block)[entries.pop()][0], term.predicate.says, arguments)


def from_and_where(query):
    """The FROM and WHERE of each block, as tokens."""
    blocks, taking = [], False
    for token in query.tokens:
        if token.is_word("FROM"):
            blocks.append([])
            taking = True
        elif token.is_word("ORDER", *SET_OPERATORS):
            taking = False
        if taking:
            blocks[-1].append(token)
    return blocks
