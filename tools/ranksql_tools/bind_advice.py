"""What to do about names and kinds that don't fit."""

import difflib

from ranksql_tools.limits import (
    GREATEST_COST, GREATEST_LIMIT, GREATEST_SCORE, GREATEST_WEIGHT, MOST_COLUMNS, MOST_CONDITIONS, MOST_INDEXES, MOST_OUTPUTS, MOST_PARAMETERS,
    MOST_PREDICATES, MOST_ROWS, MOST_SOURCES, MOST_TABLES, MOST_TERMS
)
from ranksql_tools.script_parse import Explain, Index, Insert, Node, Predicate, Select, Table

FUNCTIONS = ("COUNT", "SUM", "AVG", "ABS", "MIN", "MAX", "RANDOM", "RAND", "LENGTH", "LOWER", "UPPER", "ROUND", "COALESCE")
NUMBER, TEXT, CONDITION = "a number", "a text", "a condition"


class Names:
    """What a script has made in front of a statement, and that statement."""

    def __init__(self, parser, place):
        self.tables, self.predicates, self.later = {}, {}, {}
        self.statement = None
        for start, statement in zip(parser.starts, parser.statements):
            first = parser.tokens[start].start
            if first <= place:
                if self.statement is not None:
                    self.make(self.statement, self.tables, self.predicates)
                self.statement = statement
            else:
                self.make(statement, self.later, self.later)
        self.select = self.statement
        if isinstance(self.statement, Explain) or hasattr(self.statement, "select"):
            self.select = self.statement.select

    @staticmethod
    def make(statement, tables, predicates):
        if isinstance(statement, Table):
            tables.setdefault(statement.name.says, statement)
        if isinstance(statement, Predicate):
            predicates.setdefault(statement.name.says, statement)


def closest(name, names):
    """The name that is likely meant: one that differs in capitals alone, or one that is nearly the same."""
    for other in names:
        if other.lower() == name.lower():
            return other
    found = difflib.get_close_matches(name, list(names), 1, 0.7)
    return found[0] if found else None


def listed(names):
    names = list(names)
    shown = names[:12]
    made = ", ".join(shown) + (", .." if len(names) > 12 else "")
    return made


def meant(name, close):
    """That a name is likely another one."""
    if close.lower() == name.lower():
        return f"Capitals count in names: write {close} in the place of {name}."
    return f"Did you mean {close}?"


def of_bind(parser, variant, token, place):
    """What to do about a fault of names and kinds at a token."""
    names = Names(parser, place)
    rule = RULES.get(variant)
    return rule(names, token, place) if rule else None


def of_catalogue(variant, token):
    """What to do where a name is taken, or where there is no room for it."""
    if variant == "NameTaken":
        return (
            f"There already is something of the name {token.says}. Tables, predicates and rank indexes share their names, so choose another one;"
            " a script makes each thing once."
        )
    return f"A run has at most {MOST_TABLES} tables, {MOST_PREDICATES} predicates and {MOST_INDEXES} rank indexes. Leave out what no query uses, or split the script."


def limit(names, token, place):
    statement, select = names.statement, names.select
    if isinstance(statement, Predicate):
        if statement.most.start == place:
            if token.text.strip("0") == "":
                return "MAX is from 1 on: the greatest score that the predicate can give. A MAX of 0 would give each row the same score."
            return f"MAX is at most {GREATEST_SCORE:,}. Let the formula divide, so that the scores are smaller: AS population / 1000."
        if statement.cost and statement.cost.start == place:
            return f"COST is from 0 to {GREATEST_COST:,}. It is what a call costs where reading a row of a table costs 1."
        return f"A predicate has {MOST_PARAMETERS} parameters at most. Compute a part of the formula in the file, as a column of its own."
    if isinstance(statement, Insert):
        return f"A table has {MOST_ROWS:,} rows at most: those of its file, and those that were put in. This row and those behind it are too many."
    if isinstance(statement, Table):
        return f"A table has {MOST_COLUMNS} columns at most. Keep those that the queries need; the helper `prepare` writes a file of the columns that you name."
    if isinstance(select, Select):
        return limit_of_query(select, token, place)
    if token.sort == "number":
        return f"FETCH has a number of rows from 0 to {GREATEST_LIMIT:,}."
    return None


def limit_of_query(select, token, place):
    if select.limit and select.limit.start == place:
        return f"LIMIT is from 0 to {GREATEST_LIMIT:,}. Without LIMIT all rows are printed."
    for count, term in enumerate(select.terms):
        if term.weight and term.weight.start == place:
            if term.weight.text.strip("0") == "":
                return "A weight is from 1 on. A term of the weight 0 changes no score, so leave the whole term out."
            if count < MOST_TERMS:
                return f"A weight is at most {GREATEST_WEIGHT:,}. Divide all weights by one number, or let a predicate's formula give smaller scores."
        if term.start == place:
            return f"ORDER BY has {MOST_TERMS} terms at most. Put two predicates over one table into one formula."
    for block in select.blocks:
        if any(source[0].start == place or source[1].start == place for source in block.sources[MOST_SOURCES:]):
            return f"FROM has {MOST_SOURCES} tables at most. Join some of them in a file beforehand."
        if block.where and block.where.start <= place:
            return f"WHERE has {MOST_CONDITIONS} parts at most that AND joins. Put several into one by brackets and NOT .. OR, or filter the file."
    return f"A query has {MOST_OUTPUTS} output columns at most. Name those that you need."


def name_twice(names, token, place):
    if isinstance(names.select, Select):
        return f"Two tables of FROM are called {token.says}. Give each another name behind it: FROM {token.says} a, {token.says} b."
    if isinstance(names.statement, Predicate):
        return f"Two parameters are called {token.says}. Give each a name of its own."
    return f"Two columns are called {token.says}. Give them two names, in the statement and in the header of the file."


def no_table(names, token, place):
    close = closest(token.says, names.tables)
    if close:
        return meant(token.says, close)
    if token.says in names.later:
        return f"{token.says} is made further down. Put its CREATE TABLE in front of this statement."
    if token.says in names.predicates:
        return f"{token.says} is a predicate, and here stands a table."
    if not names.tables:
        return f"No table is made yet. Put CREATE TABLE {token.text} (name TEXT, price INT) FROM 'file.csv'; in front, with the columns of the file."
    return f"There is no table {token.says}. The tables made so far: {listed(names.tables)}."


def no_predicate(names, token, place):
    close = closest(token.says, names.predicates)
    if close:
        return meant(token.says, close)
    if token.says in names.later:
        return f"{token.says} is made further down. Put its CREATE PREDICATE in front of this statement."
    if token.text.upper() in FUNCTIONS:
        return (
            f"{token.text.upper()} is no predicate. Make one that computes with it: CREATE PREDICATE near (price INT) MAX 400 AS"
            " MAX(0, 400 - ABS(price - 150)), and rank by it."
        )
    if token.says in names.tables:
        return f"{token.says} is a table, and here stands a predicate."
    if not names.predicates:
        return f"No predicate is made yet. Put CREATE PREDICATE {token.text} (price INT) MAX 400 AS 400 - price; in front, with a formula of yours."
    return f"There is no predicate {token.says}. The predicates made so far: {listed(names.predicates)}."


def columns_of(names, block):
    """The aliases of a block, with the columns of each table."""
    made = {}
    for table, alias in block.sources:
        if table.says in names.tables:
            made[alias.says] = [column[0].says for column in names.tables[table.says].columns]
    return made


def reference_at(names, place):
    """The block and the column of a query at a place; the block is None in a term of a query of two blocks."""
    select = names.select
    if not isinstance(select, Select):
        return None, None
    for block in select.blocks:
        for column in [*block.items, *references(block.where)]:
            if getattr(column, "start", None) == place and hasattr(column, "alias"):
                return block, column
    for term in select.terms:
        for argument in term.args:
            if argument.start == place and hasattr(argument, "alias"):
                return (select.blocks[0] if len(select.blocks) == 1 else None), argument
    return None, None


def references(node):
    """The columns in an expression."""
    if node is None:
        return []
    if node.kind == "column":
        return list(node.parts)
    return [column for part in node.parts for column in references(part)]


def no_column(names, token, place):
    if token.is_word("TRUE", "FALSE"):
        return f"There are no truth values. Write {'1 = 1' if token.is_word('TRUE') else '1 = 0'} for a condition that {'always' if token.is_word('TRUE') else 'never'} holds, or 1 and 0 as numbers."
    statement = names.statement
    if isinstance(statement, Predicate):
        return no_parameter(statement, token, place)
    if isinstance(statement, Index):
        table = names.tables.get(statement.table.says)
        return missing_column(token, [column[0].says for column in table.columns] if table else [], statement.table.says)
    if not isinstance(names.select, Select):
        return None
    block, column = reference_at(names, place)
    if block is None:
        if column is not None and column.alias:
            return f"Behind two blocks a term names an output column of the left block, without an alias: {column.name}."
        return f"Behind two blocks a term may use output columns of the left block alone. Put {token.says} behind SELECT in both blocks."
    aliases = columns_of(names, block)
    if column.alias:
        return no_dotted(names, block, column, aliases, token)
    every = [name for columns in aliases.values() for name in columns]
    return missing_column(token, every, listed(aliases), meant_text(names, block, token, place))


def no_parameter(statement, token, place):
    parameters = [column[0].says for column in statement.columns]
    if any(column.start == place and column.alias for column in references(statement.formula)):
        return "A formula speaks of its parameters alone, without a dot. Make the column a parameter, and give it in ORDER BY."
    close = closest(token.says, parameters)
    if close:
        return meant(token.says, close)
    if token.sort == "quoted":
        return f"A text stands between single quotes: '{token.says}'. Between double ones stands a name."
    compared_with = beside(statement.formula, place)
    if compared_with is not None and ("TEXT" in [kind for column, kind in statement.columns if column.says == named_in(compared_with)]):
        return f"A text stands between single quotes: '{token.says}'. Without them it is a name, and a formula has those of its parameters alone, here {listed(parameters)}."
    return (
        f"A formula speaks of its parameters alone, here {listed(parameters)}. Make {token.says} one of them, with its kind, and give the column in"
        " ORDER BY."
    )


def beside(node, place):
    """What is compared with the column at a place, or None where nothing is."""
    if node is None:
        return None
    if node.kind == "compare":
        for one, other in (node.parts, reversed(node.parts)):
            if one.kind == "column" and one.start == place:
                return other
    return next((found for part in node.parts if isinstance(part, Node) for found in [beside(part, place)] if found is not None), None)


def named_in(node):
    """The name of the column that a part of an expression is, if it is one."""
    return node.parts[0].name if node.kind == "column" else None


def meant_text(names, block, token, place):
    """That a word is meant for a text: one that is compared with a column of texts, or given where a predicate has a text."""
    compared_with, shown = beside(block.where, place), f"'{token.says}'"
    if compared_with is not None and named_in(compared_with) is not None:
        column = compared_with.parts[0]
        kinds = [made[1] for table, alias in block.sources if column.alias in ("", alias.says) and table.says in names.tables
                 for made in names.tables[table.says].columns if made[0].says == column.name]
        if kinds[:1] == ["TEXT"]:
            return f"A text stands between single quotes: {shown}."
    for term in names.select.terms:
        made = names.predicates.get(term.predicate.says)
        for argument, parameter in zip(term.args, made.columns if made else []):
            if argument.start == place and parameter[1] == "TEXT":
                return f"If it is a text, it stands between single quotes: {shown}."
    return ""


def missing_column(token, columns, where, says=""):
    close = closest(token.says, columns)
    if close:
        return meant(token.says, close)
    if says and token.sort != "quoted":
        return f"No column of {where} is called {token.says}. {says}"
    if token.sort == "quoted":
        return f"A text stands between single quotes: '{token.says}'. Between double ones stands a name, and no column has this one."
    return f"No column of {where} is called {token.says}. There are: {listed(columns)}."


def no_dotted(names, block, column, aliases, token):
    if column.alias in aliases:
        close = closest(column.name, aliases[column.alias])
        if close:
            return meant(f"{column.alias}.{column.name}", f"{column.alias}.{close}")
        return f"{column.alias} has no column {column.name}. It has: {listed(aliases[column.alias])}."
    for table, alias in block.sources:
        if table.says == column.alias:
            return f"The table {table.says} is called {alias.says} in this query. Write {alias.says}.{column.name}."
    close = closest(column.alias, aliases)
    if close:
        return meant(column.alias, close)
    return f"No table of FROM is called {column.alias}. There are: {listed(aliases)}."


def ambiguous(names, token, place):
    block, _ = reference_at(names, place)
    if block is None:
        return f"Two output columns are called {token.says}, so a term can't tell which one it means. Leave one of them out."
    owners = [alias for alias, columns in columns_of(names, block).items() if token.says in columns]
    return f"{listed(owners)} have a column {token.says}. Say whose it is: {owners[0] if owners else 'h'}.{token.text}."


def wrong_count(names, token, place):
    if isinstance(names.statement, Insert):
        return wrong_cells(names, place)
    call = call_at(names, place)
    if call is None:
        return None
    name, given = call
    made = names.predicates[name.says]
    wanted = ", ".join(f"{column[0].text} {column[1]}" for column in made.columns)
    return f"{name.says} has {len(made.columns)} parameter{'s' if len(made.columns) != 1 else ''} ({wanted}), and {len(given)} {'are' if len(given) != 1 else 'is'} given. Give one argument for each."


def wrong_cells(names, place):
    """A row of an INSERT that has too many or too few values."""
    insert = names.statement
    row = next((row for row in insert.rows if row.start == place), None)
    table = names.tables.get(insert.table.says)
    if row is None or table is None:
        return None
    wanted = ", ".join(f"{column[0].text} {column[1]}" for column in table.columns)
    count = len(row.cells)
    return (
        f"{insert.table.says} has {len(table.columns)} column{'s' if len(table.columns) != 1 else ''} ({wanted}), and this row has {count}"
        f" value{'s' if count != 1 else ''}. A row has a value for each column."
    )


def call_at(names, place):
    """The predicate that is named at a place, and its arguments."""
    if isinstance(names.statement, Index):
        return names.statement.predicate, names.statement.args
    if isinstance(names.select, Select):
        for term in names.select.terms:
            if term.start == place and term.predicate.says in names.predicates:
                return term.predicate, term.args
    return None


def constant_term(names, token, place):
    return "At least one argument has to be a column: a term without one gives each row the same score. Leave it out."


def distinct_output(names, token, place):
    for term in names.select.terms if isinstance(names.select, Select) else []:
        if term.start == place:
            columns = ", ".join(dict.fromkeys(argument.name for argument in term.args if hasattr(argument, "alias")))
            return f"With DISTINCT the columns of a term have to be printed too. Put {columns} behind SELECT, or leave DISTINCT out."
    return None


def set_columns(names, token, place):
    if not isinstance(names.select, Select) or len(names.select.blocks) < 2:
        return None
    counts, kinds = [], []
    for block in names.select.blocks:
        aliases = {alias.says: names.tables[table.says].columns for table, alias in block.sources if table.says in names.tables}
        of_block = []
        for item in block.items:
            if not hasattr(item, "alias"):
                of_block += [column[1] for columns in aliases.values() for column in columns]
                continue
            of_block += [column[1] for alias, columns in aliases.items() for column in columns
                         if column[0].says == item.name and item.alias in ("", alias)][:1]
        counts.append(len(of_block))
        kinds.append(of_block)
    if counts[0] != counts[1]:
        return f"Both blocks need as many output columns: the left one has {counts[0]}, the right one {counts[1]}."
    for number, (left, right) in enumerate(zip(*kinds), 1):
        if left != right:
            return f"Both blocks need output columns of the same kinds: column {number} is {left} in the left one and {right} in the right one."
    return None


def too_wide(names, token, place):
    return "The numbers of this part could be too great to compute with. Multiply two columns at most, or divide a product before the next one."


def bad_divisor(names, token, place):
    if token.sort == "number":
        return "Nothing can be divided by 0."
    return (
        "A divisor is a number that is written, such as `/ 100`, and no column. Make the quotient a column of the file, or compare by a product:"
        " price > 10 * people in the place of price / people > 10."
    )


# ---- kinds


def wrong_kind(names, token, place):
    statement = names.statement
    if isinstance(statement, Predicate):
        return kind_of_expression(statement.formula, {column[0].says: column[1] for column in statement.columns}, place, True)
    if isinstance(statement, Index):
        return kind_of_argument(names, statement.predicate, statement.args, place)
    if isinstance(statement, Insert):
        return kind_of_cell(names, place)
    if not isinstance(names.select, Select):
        return None
    for term in names.select.terms:
        says = kind_of_argument(names, term.predicate, term.args, place)
        if says:
            return says
    for block in names.select.blocks:
        if block.where is not None:
            scope = {}
            for table, alias in block.sources:
                for column in names.tables[table.says].columns if table.says in names.tables else []:
                    scope[column[0].says] = scope[(alias.says, column[0].says)] = column[1]
            says = kind_of_expression(block.where, scope, place, False)
            if says:
                return says
    return None


def kind_of_argument(names, predicate, args, place):
    made = names.predicates.get(predicate.says)
    if made is None:
        return None
    for argument, column in zip(args, made.columns):
        if argument.start == place:
            wanted = "a number" if column[1] == "INT" else "a text"
            other = "a text" if column[1] == "INT" else "a number"
            return f"The parameter {column[0].says} of {predicate.says} is {wanted}, and this argument is {other}."
    return None


def kind_of_cell(names, place):
    insert = names.statement
    table = names.tables.get(insert.table.says)
    for row in insert.rows if table else []:
        for cell, column in zip(row.cells, table.columns):
            if cell.start != place:
                continue
            if column[1] == "TEXT":
                return f"The column {column[0].says} of {insert.table.says} is a text. Write this number between single quotes, or make the column an INT in CREATE TABLE."
            if cell.says.lstrip("+-").isdigit():
                return f"The column {column[0].says} of {insert.table.says} is a number. Leave the quotes out: {cell.says}."
            return f"The column {column[0].says} of {insert.table.says} is a number, and this is a text."
    return None


class Mismatch(Exception):
    """The first node whose parts have other kinds than it needs."""


def kind_of_expression(node, scope, place, is_formula):
    """What is wrong in a formula, which is a number, or in a condition."""
    try:
        kind = kind_of(node, scope)
    except Mismatch as found:
        return str(found)
    if node.start != place:
        return None
    if is_formula and kind == CONDITION:
        return "A score is a number, and this is a condition. Write CASE WHEN .. THEN 1 ELSE 0 END round it."
    if is_formula and kind == TEXT:
        return "A score is a number, and this is a text. Write CASE WHEN city = 'York' THEN 1 ELSE 0 END."
    if not is_formula and kind != CONDITION:
        return "WHERE needs a condition, and this is " + kind + ". Compare it: price > 0."
    return None


def kind_of(node, scope):
    """The kind of an expression, where each part has the kind that is needed; else a Mismatch."""
    if node.kind == "number":
        return NUMBER
    if node.kind == "literal":
        return TEXT
    if node.kind == "column":
        column = node.parts[0]
        key = (column.alias, column.name) if column.alias else column.name
        return TEXT if scope.get(key) == "TEXT" else NUMBER
    parts = [kind_of(part, scope) for part in node.parts]
    if node.kind in ("and", "or", "not"):
        needs(parts, CONDITION, f"{node.kind.upper()} joins conditions, and here stands %s. Compare it: price > 0.")
        return CONDITION
    if node.kind == "compare":
        if CONDITION in parts:
            raise Mismatch("A condition can't be compared. Join conditions by AND and OR, and turn one round by NOT.")
        if parts[0] != parts[1]:
            raise Mismatch(compared(node, parts))
        return CONDITION
    if node.kind == "case":
        conditions, values = parts[:-1][0::2], [*parts[1::2], parts[-1]]
        needs(conditions, CONDITION, "Behind WHEN stands a condition, and here is %s. Compare it: price > 0.")
        needs(values, NUMBER, "CASE gives numbers, and here it would give %s.")
        return NUMBER
    needs(parts, NUMBER, "`" + (node.kind.upper() if node.kind.isalpha() and node.kind != "neg" else node.kind.replace("neg", "-"))
          + "` computes with numbers, and here stands %s. A column of numbers is INT in CREATE TABLE.")
    return NUMBER


def needs(parts, wanted, says):
    for part in parts:
        if part != wanted:
            raise Mismatch(says % part)


def compared(node, parts):
    """A number that is compared with a text."""
    for part in node.parts:
        if part.kind == "literal" and part.token.says.lstrip("+-").isdigit():
            return f"A number is compared with a text. Leave the quotes out: {part.token.says}."
    for part, kind in zip(node.parts, parts):
        if part.kind == "number" and kind == NUMBER:
            return f"A text is compared with a number. Write '{part.token.text}', or make the column an INT in CREATE TABLE."
    return "A number is compared with a text. Make both columns INT or both TEXT in CREATE TABLE."


RULES = {
    "LimitOf": limit, "NameTwice": name_twice, "NoTable": no_table, "NoPredicate": no_predicate, "NoColumn": no_column, "Ambiguous": ambiguous,
    "WrongCount": wrong_count, "WrongKind": wrong_kind, "BadDivisor": bad_divisor, "TooWide": too_wide, "ConstantTerm": constant_term,
    "DistinctNeedsOutput": distinct_output, "SetColumnsDiffer": set_columns,
}
