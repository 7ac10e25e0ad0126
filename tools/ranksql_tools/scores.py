"""The values of formulas over rows of tables, to find the call that gave a bad score."""

from ranksql_tools.script_parse import Index, Predicate, Select, Table
from ranksql_tools.table_file import read_file, records


class Loaded:
    """A table with its rows: numbers and texts as the program has them. `records` has the rows of the file, from row 1."""

    def __init__(self, statement):
        self.statement, self.path = statement, statement.file.says
        self.body = read_file(self.path)
        self.columns = [column[0].says for column in statement.columns]
        self.records = []
        if self.body is not None:
            found = iter(records(self.body))
            next(found, None)
            self.records = list(found)

    def value(self, row, name):
        """The value of a column in a row, which counts from 1."""
        place = self.columns.index(name)
        cell = self.records[row - 1].fields[place]
        return int(cell) if self.statement.columns[place][1] == "INT" else cell


def value_of(node, given):
    """The value of an expression whose columns have the given values."""
    if node.kind == "number":
        return int(node.token.text)
    if node.kind == "literal":
        return node.token.says.encode()
    if node.kind == "column":
        return given[node.parts[0].name]
    if node.kind == "case":
        for place in range(0, len(node.parts) - 1, 2):
            if value_of(node.parts[place], given):
                return value_of(node.parts[place + 1], given)
        return value_of(node.parts[-1], given)
    parts = [value_of(part, given) for part in node.parts]
    return OPERATIONS[node.kind](node, *parts)


def quotient(left, right):
    """A quotient that is cut towards zero."""
    made = abs(left) // abs(right)
    return made if (left < 0) == (right < 0) else -made


def compared(node, left, right):
    sign = node.sign
    return {"=": left == right, "<>": left != right, "!=": left != right, "<": left < right, "<=": left <= right,
            ">": left > right, ">=": left >= right}[sign]


OPERATIONS = {
    "+": lambda node, left, right: left + right,
    "-": lambda node, left, right: left - right,
    "*": lambda node, left, right: left * right,
    "/": lambda node, left, right: quotient(left, right),
    "neg": lambda node, part: -part,
    "abs": lambda node, part: abs(part),
    "min": lambda node, left, right: min(left, right),
    "max": lambda node, left, right: max(left, right),
    "not": lambda node, part: not part,
    "and": lambda node, left, right: left and right,
    "or": lambda node, left, right: left or right,
    "compare": compared,
}


class Call:
    """A term or an index that calls a predicate: its first token, its arguments as the script has them, and for each the
    table's place among those that they speak of, with the column, or None with the value."""

    def __init__(self, token, predicate, arguments, tables, names):
        self.token, self.predicate, self.arguments, self.tables, self.names = token, predicate, arguments, tables, names

    def given(self, rows):
        """The values of the arguments for rows of the tables."""
        made = []
        for place, what in self.arguments:
            made.append(what if place is None else self.tables[place].value(rows[place], what))
        return made

    def score(self, rows):
        names = [column[0].says for column in self.predicate.columns]
        return value_of(self.predicate.formula, dict(zip(names, self.given(rows))))


def constant(argument, tokens):
    """The value of an argument that is no column."""
    if argument.sort == "literal":
        return argument.says.encode()
    if argument.is_symbol("-"):
        return -int(tokens[tokens.index(argument) + 1].text)
    return int(argument.text)


def calls_of(parser, predicate_name):
    """All terms and indexes of a script that call a predicate, in their order, as far as their tables can be read."""
    tables, predicates, loaded, made = {}, {}, {}, []

    def rows_of(name):
        if name not in loaded:
            loaded[name] = Loaded(tables[name])
        return loaded[name]

    for statement in parser.statements:
        if isinstance(statement, Table):
            tables.setdefault(statement.name.says, statement)
        elif isinstance(statement, Predicate):
            predicates.setdefault(statement.name.says, statement)
        elif isinstance(statement, Index):
            if statement.predicate.says == predicate_name and statement.table.says in tables:
                block = [(statement.table, statement.table)]
                made += call_of(parser, statement.predicate, statement.args, block, None, predicates, tables, rows_of)
        else:
            select = statement if isinstance(statement, Select) else getattr(statement, "select", None)
            for term in select.terms if select else []:
                if term.predicate.says != predicate_name:
                    continue
                for number, block in enumerate(select.blocks):
                    outputs = (select.blocks, number) if len(select.blocks) == 2 else None
                    made += call_of(parser, term.token, term.args, block.sources, outputs, predicates, tables, rows_of, predicate_name)
    return made


def outputs_of(block, tables):
    """The output columns of a block: alias and name of each."""
    made = []
    for item in block.items:
        if hasattr(item, "alias"):
            made.append((item.alias, item.name))
        else:
            made += [(alias.says, column[0].says) for table, alias in block.sources if table.says in tables
                     for column in tables[table.says].columns]
    return made


def call_of(parser, token, args, sources, outputs, predicates, tables, rows_of, name=None):
    """The call of a term over these tables, in a list, or nothing where a name doesn't fit."""
    predicate = predicates.get(name or token.says)
    if predicate is None or any(table.says not in tables for table, _ in sources):
        return []
    owners = []
    for argument in args:
        if not hasattr(argument, "alias"):
            owners.append((None, constant(argument, parser.tokens)))
            continue
        alias, column = argument.alias, argument.name
        if outputs:
            blocks, number = outputs
            left = outputs_of(blocks[0], tables)
            places = [place for place, output in enumerate(left) if output[1] == column]
            if not places:
                return []
            alias, column = outputs_of(blocks[number], tables)[places[0]]
        found = [place for place, (table, other) in enumerate(sources) if alias in ("", other.says)
                 and column in [made[0].says for made in tables[table.says].columns]]
        if not found:
            return []
        owners.append((found[0], column))
    spoken = sorted({place for place, _ in owners if place is not None})
    arguments = [(None if place is None else spoken.index(place), what) for place, what in owners]
    return [Call(token, predicate, arguments, [rows_of(sources[place][0].says) for place in spoken], [sources[place][0].says for place in spoken])]
