"""Runs copies of a script in which the formulas stand for the scores, so that nothing is paid for a call."""

from .plans import calls_by_term, read_plan, scanned_terms, shape_of
from .queries import from_and_where, rows_wanted, sources_of
from .script_parse import Insert, Predicate, Table
from .table_file import name_in_script

# The predicate of a copy that counts rows: each of its scores is 0.
COUNTING = "advise_counts_rows"


class Trial:
    """What a plan of a query does by one seed: its text, and the calls of each term."""

    def __init__(self, text):
        self.text = text
        self.shape = shape_of(text)
        self.operators = read_plan(text)
        self.calls = calls_by_term(self.operators)
        self.scanned = scanned_terms(self.operators)


class Copy:
    """A copy of the statements that a query stands on, and of the query behind EXPLAIN ANALYZE. Parts of it can be put
    otherwise, and rank indexes added."""

    def __init__(self, body, query):
        self.body, self.query = body, query
        self.changes, self.added = {}, []

    def script(self, word=b"EXPLAIN ANALYZE "):
        creates = [self.changed(create.start, create.end) for create in self.query.creates]
        return b";\n".join(creates + [added.encode() for added in self.added] + [word + self.select()])

    def plan_script(self):
        """The same without a run of the plan."""
        return self.script(b"EXPLAIN ")

    def changed(self, start, end):
        """The bytes between two places, with the changes in them."""
        made, place = b"", start
        for (first, behind), text in sorted(self.changes.items()):
            if start <= first and behind <= end:
                made += self.body[place:first] + text.encode()
                place = behind
        return made + self.body[place:end]

    def select(self):
        """The query. Of a cursor it is one for the rows that are fetched."""
        tokens, limit = self.query.tokens, self.query.select.limit
        text = self.body[tokens[0].start:tokens[-1].end]
        wanted = rows_wanted(self.query)
        if self.query.fetched is None or wanted == (limit and int(limit.text)):
            return text
        if limit:
            text = self.body[tokens[0].start:limit.start] + str(wanted).encode()
            return text
        return text + b" LIMIT %d" % wanted

    def set_cost(self, predicate, cost):
        """Gives a predicate another COST."""
        if predicate.cost:
            self.changes[predicate.cost.start, predicate.cost.end] = str(cost)
        else:
            text = self.changes.get((predicate.most.start, predicate.most.end), predicate.most.text)
            self.changes[predicate.most.start, predicate.most.end] = "%s COST %d" % (text, cost)

    def set_most(self, predicate, most):
        """Gives a predicate another MAX."""
        self.changes[predicate.most.start, predicate.most.end] = str(most)


def counting_script(body, query, table, rest):
    """A script that counts rows: the tables of a query, and EXPLAIN or EXPLAIN ANALYZE of all combinations of a FROM."""
    kind = table.columns[0][1]
    tables = [body[create.start:create.end] for create in query.creates_of((Table, Insert))]
    counts = "CREATE PREDICATE %s (value %s) MAX 1 AS 0" % (COUNTING, kind)
    return b";\n".join(tables + [counts.encode(), rest])


def rows_of_table(runner, body, query, name):
    """How many rows a table has: what a scan of it costs."""
    table = query.table(name)
    column = name_in_script(table.columns[0][0].says)
    select = "EXPLAIN SELECT %s FROM %s ORDER BY %s(%s)" % (column, name_in_script(name), COUNTING, column)
    plan = read_plan(runner.printed(counting_script(body, query, table, select.encode()), 1))
    return next(operator.cost for operator in plan if operator.word == "SeqScan")


def combinations(runner, body, query, block_number):
    """How many combinations of rows satisfy the condition of a block, which is what `plain` scores: a query whose scores are
    all the same gives all."""
    block, tokens = query.select.blocks[block_number], from_and_where(query)[block_number]
    name, alias = sources_of(block)[0]
    table = query.table(name)
    column = "%s.%s" % (name_in_script(alias), name_in_script(table.columns[0][0].says))
    select = "EXPLAIN ANALYZE SELECT %s " % column
    order = " ORDER BY %s(%s)" % (COUNTING, column)
    source = body[tokens[0].start:tokens[-1].end]
    return read_plan(runner.printed(counting_script(body, query, table, select.encode() + source + order.encode()), 1))[0].gave


def greatest_score(runner, body, query, table, call):
    """The greatest score that a predicate gives for a row of a table."""
    column = name_in_script(query.table(table).columns[0][0].says)
    creates = [body[create.start:create.end] for create in query.creates_of((Table, Predicate, Insert))]
    select = "SELECT %s FROM %s ORDER BY %s LIMIT 1" % (column, name_in_script(table), call)
    line = runner.printed(b";\n".join(creates + [select.encode()]), 1)
    return int(line.split(",")[1]) if line else None


def call_of(predicate, arguments):
    """A call of a predicate on columns of one table, as a script has it."""
    parts = [argument.text if argument.entry is None else name_in_script(argument.text) for argument in arguments]
    return "%s(%s)" % (name_in_script(predicate), ", ".join(parts))
