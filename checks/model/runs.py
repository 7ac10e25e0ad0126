#!/usr/bin/env python3
"""Works out what the words `top`, `run`, `plain`, `gen`, `ta`, `feed`, `cert`, `check` and `view` and the lines `guess` do in the cases of the program cases_runs whose files it can read, from the definitions.

Queries, their plans and their calls are those of queries.py, threshold scans those of threshold.py, what joins of feeds give and draw is that of feeds.py, and certificates are read and checked by certificates.py. The cases that it can't read stay as they are: those in which a
name, a type or a file of a script is refused, and words of no form. Of refused scripts it reads those that pass a limit or
aren't UTF-8, and those whose INSERT is refused. This makes the cases anew, at the top of the repository:

    cases=crates/cases_runs
    python3 checks/model/runs.py <$cases/stdout >cases.new && mv cases.new $cases/stdout && grep -v '^  ' $cases/stdout >$cases/stdin

With a script and a seed it tells of a run in the current folder: what it prints, and how many calls it makes, of an index, of a
sample, and behind these, and how many of the last come before the first row.

    python3 checks/model/runs.py examples/films/best.sql 1

With the word `gen`, a number and a number of rows it prints what that word does.

    python3 checks/model/runs.py gen 7 600

With the word `ta` and a script it prints what that word does in the current folder.

    python3 checks/model/runs.py ta examples/films/threshold.sql

With the word `view` and a script it does the same, and tells how many calls it makes, and how many of these are of an index.

    python3 checks/model/runs.py view examples/offers/board.sql
"""

import csv
import io
import itertools
import os
import re
import sys

import certificates
import feeds
from generated import generated
from queries import Block, Ended, Unread, Words, either, listed, read_query, total, value
from threshold import Scan, by_score, key

STATUSES = ["Done", "Memory", "Usage", "Read", "Write", "Script", "Table", "BadScore", "Probe", "Session"]

MOST_CURSORS = 64
MOST_KEPT = 10  # of a view of a query without LIMIT
MOST_TABLES = 16
MOST_PREDICATES = 64
MOST_COLUMNS = 64
MOST_ROWS = 131_072
MOST_NUMBER = 4 * 10**18
MOST_OF_A_FILE = 1 << 25
MOST_OF_A_SCRIPT = 1 << 20
MOST_TOKENS = 100_000
MOST_STATEMENTS = 1_000
MOST_SIGNS = 256

sys.setrecursionlimit(5000)  # for formulas as deep as may be
csv.field_size_limit(MOST_OF_A_FILE)

# ---- runs


class Table:
    def __init__(self, columns, rows):
        self.columns, self.rows = columns, rows


class Predicate:
    def __init__(self, params, most, cost, formula):
        self.params, self.most, self.cost, self.formula = params, most, cost, formula


def read_cell(kind, cell):
    return int(cell) if kind.startswith("INT") else cell


def bytes_of(text):
    return text.encode(errors="surrogateescape")


def line_of(cells):
    line = io.StringIO()
    csv.writer(line, lineterminator="\n").writerow(cells)
    return line.getvalue()


def refusal(text):
    """What a script is refused for, where it isn't UTF-8 or passes a limit of its words or statements."""
    try:
        bytes_of(text).decode()
    except UnicodeDecodeError as error:
        return f"NotUtf8 at {error.start}"
    count = 0
    for token in re.finditer(r"'(?:[^']|'')*'|\w+|<=|>=|<>|[-+*/(),.;=<>]", text):
        count += 1
        if token[0].isdigit() and int(token[0]) > MOST_NUMBER:
            return f"lex NumberTooWide at {token.start()}"
        if count > MOST_TOKENS:
            return f"lex TooManyTokens at {token.start()}"
    for number, (place, part) in enumerate(statements(text), 1):
        if number > MOST_STATEMENTS:
            return f"parse TooManyStatements at {place}"
        signs = re.finditer(r"'(?:[^']|'')*'|([-+*/(]|\b(?:AND|OR|NOT|WHEN)\b)", part)
        for count, sign in enumerate((sign for sign in signs if sign[1]), 1):
            if count > MOST_SIGNS:
                return f"parse TooDeep at {place + sign.start()}"
    return None


class Run:
    def __init__(self, files, scores, fails, seed, guesses=False):
        self.files, self.scores, self.fails, self.seed, self.guesses = files, scores, fails, seed, guesses
        self.sampled, self.indexed, self.first = 0, 0, None
        self.tables, self.predicates, self.indexes, self.index_names, self.cursors = {}, {}, [], set(), {}
        self.made, self.put, self.fetched, self.puts = [], "", [], 0

    def answer(self, predicate, args):
        if (predicate, args) in self.scores:
            return self.scores[predicate, args]
        return self.formula(predicate, args)

    def sampled_answer(self, predicate, args):
        """What a sample has for a call: what the scorer answers, or by guesses what the formula gives."""
        return (self.formula if self.guesses else self.answer)(predicate, args)

    def formula(self, predicate, args):
        known = self.predicates[predicate]
        return value(known.formula, lambda _, name: args[known.params.index(name)])

    def score(self, call):
        self.made.append(call)
        if self.fails.get("call") == len(self.made):
            raise Ended("Probe", f"probe: {call[0]}")
        return self.answer(*call)

    def write(self, text):
        if self.first is None:
            self.first = len(self.made) - self.indexed - self.sampled
        self.puts += 1
        number, after = self.fails.get("out", (None, None))
        if number == self.puts:
            self.put += text[:after]
            raise Ended("Write", "write")
        self.put += text

    def bad(self, predicate, rows, got, most=None):
        rows = " ".join(str(row) for row in rows)
        raise Ended("BadScore", f"score: {predicate} rows {rows}: {got} is not in 0..{most or self.predicates[predicate].most}")

    def fetch(self, name, most):
        self.fetched.append(name)
        if len(self.fetched) == self.fails.get("fetch"):
            raise Ended("Read", f"read: {name}: failed")
        if name not in self.files:
            raise Ended("Read", f"read: {name}: missing")
        if len(bytes_of(self.files[name])) > most:
            raise Ended("Read", f"read: {name}: too long")
        return self.files[name]

    def sample(self, query):
        if self.guesses:
            return
        begun = len(self.made)
        for call in query.sample_calls():
            self.score(call)
        self.sampled += len(self.made) - begun

    def check(self, call, numbers, most):
        got = self.score(call)
        if not 0 <= got <= most:
            self.bad(call[0], numbers, got)

    def prepare(self, query):
        """Takes the sample of a query, or makes all its calls where no plan is chosen."""
        if self.seed is not None:
            self.sample(query)
            return
        for call in query.all_calls():
            self.check(*call)

    def ask(self, plan, ask):
        """Makes the calls of this ask of a plan, and gives its row, if there is one."""
        for call in plan.part(ask):
            self.check(*call)
        return plan.rows[ask - 1] if ask <= len(plan.rows) else None

    def row_of(self, query, ask):
        """The row of this ask of a query, if there is one. Where no plan is chosen all calls were made before."""
        if self.seed is not None:
            return self.ask(query.plan, ask)
        return query.answer[ask - 1] if ask <= len(query.answer) else None

    def asks_of(self, query):
        """How often a query is asked for all that it wants."""
        rows = len(query.answer)
        return rows + 1 if query.limit is None else min(query.limit, rows + 1)

    def select(self, query, begun=0, wanted=None):
        """Asks so often, or as often as the query wants, behind the asks that there were, and puts each row before the next ask."""
        most = self.asks_of(query)
        end = most if wanted is None else min(begun + wanted, most)
        for ask in range(begun + 1, end + 1):
            row = self.row_of(query, ask)
            if row is not None:
                self.write(line_of([ask, query.score(row), *query.outputs(row)]))
        return end

    def statement(self, words, place):
        if words.skip("CREATE", "TABLE"):
            self.create_table(words, place)
        elif words.skip("CREATE", "PREDICATE"):
            self.create_predicate(words, place)
        elif words.skip("CREATE", "RANK", "INDEX"):
            self.create_index(words)
        elif words.skip("INSERT", "INTO"):
            self.insert(words, place)
        elif words.skip("EXPLAIN"):
            analyzes = words.skip("ANALYZE")
            query = read_query(words, self)
            if self.seed is not None:
                self.explain(query, analyzes)
        elif words.skip("DECLARE"):
            self.declare(words)
        elif words.skip("FETCH"):
            count = int(words.take())
            words.want("FROM")
            name = self.open_cursor(words)
            query, asked = self.cursors[name]
            self.cursors[name] = query, self.select(query, asked, count)
        elif words.skip("CLOSE"):
            del self.cursors[self.open_cursor(words)]
        else:
            query = read_query(words, self)
            self.prepare(query)
            self.select(query)

    def explain(self, query, analyzes):
        self.sample(query)
        asks = self.asks_of(query) if analyzes else None
        for ask in range(1, (asks or 0) + 1):
            self.ask(query.plan, ask)
        self.write(query.plan.text(asks))

    def declare(self, words):
        name = words.take()
        words.want("CURSOR", "FOR")
        query = read_query(words, self)
        if name in self.cursors:
            raise Ended("Session", f"session: NameTaken {name}")
        if len(self.cursors) == MOST_CURSORS:
            raise Ended("Session", f"session: Full {name}")
        self.prepare(query)
        self.cursors[name] = query, 0

    def open_cursor(self, words):
        name = words.take()
        if name not in self.cursors:
            raise Ended("Session", f"session: Unknown {name}")
        return name

    def create_table(self, words, place):
        name = words.take()
        words.want("(")
        columns = listed(words, lambda w: (w.take(), w.take()))
        words.want(")", "FROM")
        file = words.take()[1:-1]
        if name in self.tables:
            raise Unread
        if len(self.tables) == MOST_TABLES:
            raise Ended("Script", f"script: catalogue Full at {place + len('CREATE TABLE ')}")
        header, *rows = records(self.fetch(file, MOST_OF_A_FILE)) or [[]]
        if header != [column for column, _ in columns] or any(len(row) != len(columns) for row in rows):
            raise Unread
        try:
            self.tables[name] = Table(columns, [[read_cell(kind, cell) for (_, kind), cell in zip(columns, row)] for row in rows])
        except ValueError as not_a_number:
            raise Unread from not_a_number

    def create_predicate(self, words, place):
        name = words.take()
        words.want("(")
        params = [param for param, _ in listed(words, lambda w: (w.take(), w.take()))]
        words.want(")", "MAX")
        most = int(words.take())
        cost = int(words.take()) if words.skip("COST") else 1
        words.want("AS")
        if name in self.predicates:
            raise Unread
        if len(self.predicates) == MOST_PREDICATES:
            raise Ended("Script", f"script: catalogue Full at {place + len('CREATE PREDICATE ')}")
        self.predicates[name] = Predicate(params, most, cost, either(words))

    def create_index(self, words):
        index = words.take()
        words.want("ON")
        name = words.take()
        words.want("(")
        predicate = words.take()
        words.want("(")
        args = listed(words, total)
        words.want(")", ")")
        if name not in self.tables or predicate not in self.predicates or any(a[0] == "column" and a[1] not in (None, name) for a in args):
            raise Unread
        if index in self.index_names or all(a[0] != "column" for a in args) or len(args) != len(self.predicates[predicate].params):
            raise Unread
        self.index_names.add(index)
        table = self.tables[name]
        columns = [c for c, _ in table.columns]
        places = tuple(columns.index(a[2]) if a[0] == "column" else ("value", value(a, None)) for a in args)
        self.score_rows(predicate, places, 1, table.rows)
        self.indexes.append((name, predicate, places))

    def score_rows(self, predicate, places, first, rows):
        """The calls of an index for rows, of which the first one has this number."""
        begun = len(self.made)
        for number, row in enumerate(rows, first):
            self.check((predicate, tuple(p[1] if isinstance(p, tuple) else row[p] for p in places)), [number], self.predicates[predicate].most)
        self.indexed += len(self.made) - begun

    def insert(self, words, place):
        name_place, name = words.place(), words.take()
        words.want("VALUES")
        rows = listed(words, read_row)
        if words.next() is not None:
            raise Unread
        if name not in self.tables:
            refuse("NoTable", place + name_place)
        table = self.tables[name]
        for number, (row_place, cells) in enumerate(rows, len(table.rows) + 1):
            if number > MOST_ROWS:
                refuse("LimitOf", place + row_place)
            if len(cells) != len(table.columns):
                refuse("WrongCount", place + row_place)
            for (cell_place, cell), (_, kind) in zip(cells, table.columns):
                if isinstance(cell, int) != kind.startswith("INT"):
                    refuse("WrongKind", place + cell_place)
        new = [[cell for _, cell in cells] for _, cells in rows]
        for of, predicate, places in self.indexes:
            if of == name:
                self.score_rows(predicate, places, len(table.rows) + 1, new)
        self.tables[name] = Table(table.columns, table.rows + new)

    def script(self, name):
        text = re.sub("--[^\n]*", "", self.fetch(name, MOST_OF_A_SCRIPT).removeprefix("\ufeff"))
        refused = refusal(text)
        if refused:
            raise Ended("Script", f"script: {refused}")
        self.statements(text)

    def statements(self, text):
        for place, part in statements(text):
            words = Words(part)
            self.statement(words, place)
            if words.next() is not None:
                raise Unread

    def top(self, name, column, most, wanted):
        try:
            header, *rows = records(self.fetch(name, MOST_OF_A_FILE))
        except ValueError:
            raise Ended("Table", f"table: {name}: NoHeader") from None
        if len(header) > MOST_COLUMNS:
            raise Ended("Table", f"table: {name}: TooManyColumns found {len(header)}")
        for place, field in enumerate(header, 1):
            self.want_utf8(name, field, 0, place)
        if column not in header:
            raise Ended("Table", f"table: {name}: NoColumn")
        chosen = header.index(column)
        for number, row in enumerate(rows, 1):
            if number > MOST_ROWS:
                raise Ended("Table", f"table: {name}: TooManyRows")
            if len(row) != len(header):
                raise Ended("Table", f"table: {name}: FieldCount row {number} found {len(row)}")
            for place, field in enumerate(row):
                if place != chosen:
                    self.want_utf8(name, field, number, place + 1)
                elif not re.fullmatch("[-+]?[0-9]+", field) or abs(int(field)) > MOST_NUMBER:
                    raise Ended("Table", f"table: {name}: NotInt row {number} column {place + 1}")
            row[chosen] = int(row[chosen])
        for number, row in enumerate(rows, 1):
            if not 0 <= row[chosen] <= most:
                self.bad(column, [number], row[chosen], most)
        best = sorted(rows, key=lambda row: -row[chosen])[:wanted]
        for rank, row in enumerate(best, 1):
            self.write(line_of([rank, row[chosen], *row]))

    def feed(self, left, right, wanted):
        """Puts the first pairs of two feeds, and how often both are drawn."""
        names = [left, right]
        sides = [self.feed_rows(name) for name in names]
        given, (side, row, before, got), draws = feeds.joined(sides)
        if wanted <= len(given):
            side, draws = 0, given[wanted - 1][2:] if wanted else (0, 0)
        for rank, (i, j, *_) in enumerate(given[:wanted], 1):
            text, left_score = sides[0][i - 1]
            right_score = sides[1][j - 1][1]
            self.write(line_of([rank, left_score + right_score, text, left_score, right_score]))
        if side:
            raise Ended("Table", f"table: {names[side - 1]}: OutOfOrder row {row} before {before} got {got}")
        self.write("left=%d right=%d\n" % tuple(draws))

    def cert(self, left, right, wanted):
        """Puts the certificate of the first pairs of two feeds."""
        names = [left, right]
        sides = [self.feed_rows(name) for name in names]
        given, (side, row, before, got), draws = feeds.joined(sides)
        if wanted <= len(given):
            side, draws = 0, given[wanted - 1][2:] if wanted else (0, 0)
        if side:
            raise Ended("Table", f"table: {names[side - 1]}: OutOfOrder row {row} before {before} got {got}")
        for name, rows, drawn in zip(names, sides, draws):
            if min(drawn, len(rows)) > 8192:
                raise Ended("Table", f"table: {name}: CertTooLong")
        told = [[(bytes_of(text), score) for text, score in rows] for rows in sides]
        self.write(certificates.written(wanted, told, draws, [(i, j) for i, j, *_ in given[:wanted]]).decode())

    def check_certificate(self, name):
        """Puts whether a certificate proves its answer."""
        told = certificates.line(bytes_of(self.fetch(name, MOST_OF_A_FILE)))
        if told.startswith("CertForm"):
            raise Ended("Table", f"table: {name}: {told}")
        self.write(told + "\n")

    def feed_rows(self, name):
        """The rows of a file that is a feed."""
        try:
            header, *rows = records(self.fetch(name, MOST_OF_A_FILE))
        except ValueError:
            raise Ended("Table", f"table: {name}: NoHeader") from None
        differs = [place for place, pair in enumerate(itertools.zip_longest(["key", "score"], header), 1) if pair[0] != pair[1]]
        if differs:
            raise Ended("Table", f"table: {name}: HeaderDiffers column {differs[0]}")
        for number, row in enumerate(rows, 1):
            if number > MOST_ROWS:
                raise Ended("Table", f"table: {name}: TooManyRows")
            if len(row) != 2:
                raise Ended("Table", f"table: {name}: FieldCount row {number} found {len(row)}")
            self.want_utf8(name, row[0], number, 1)
            if not re.fullmatch("[-+]?[0-9]+", row[1]) or abs(int(row[1])) > MOST_NUMBER:
                raise Ended("Table", f"table: {name}: NotInt row {number} column 2")
        scores = [int(score) for _, score in rows]
        for number, score in enumerate(scores, 1):
            if not 0 <= score <= feeds.MOST:
                self.bad("score", [number], score, feeds.MOST)
        return [(text, score) for (text, _), score in zip(rows, scores)]

    def want_utf8(self, name, field, row, column):
        try:
            bytes_of(field).decode()
        except UnicodeDecodeError:
            raise Ended("Table", f"table: {name}: NotUtf8 row {row} column {column}") from None

    def told(self, task, *words):
        """The lines that tell of a task: how it ended, what was put, the calls and the fetches."""
        status, error = "Done", ""
        try:
            task(*words)
        except Ended as end:
            status, error = end.args[0], end.args[1] + "\n"
        number, after = self.fails.get("err", (None, None))
        if number == 1:
            error = error[:after]
        yield f"  {status}"
        if self.put:
            yield "  out " + printed(self.put)
        if error:
            yield "  err " + printed(error)
        if self.made:
            yield "  calls " + "; ".join(" ".join([name, *map(str, args)]) for name, args in self.made)
        if self.fetched:
            yield "  fetched " + " ".join(printed(name) or "\\-" for name in self.fetched)


class Generated(Run):
    """A run of the generated script. Its files are made in memory, so nothing is fetched."""

    def __init__(self, number, rows, scores, fails):
        super().__init__(generated(number, rows), scores, fails, number)

    def fetch(self, name, most):
        """A file that was made, which is no fetch."""
        return self.files[name]


class Scans(Run):
    """A run of the word `ta`: its queries are answered by threshold scans."""

    def __init__(self, files, scores, fails):
        super().__init__(files, scores, fails, None)
        self.number = 0

    def statement(self, words, place):
        self.number += 1
        if words.next() in ("CREATE", "INSERT"):
            super().statement(words, place)
        elif words.next() == "SELECT":
            self.scan(read_query(words, self))
        else:
            self.refuse()

    def refuse(self):
        raise Ended("Script", f"script: ta NotEligible statement {self.number}")

    def scan(self, query):
        if not self.is_eligible(query):
            self.refuse()
        numbers = range(1, len(query.tables[0].rows) + 1)
        lists = [by_score([query.worth((n,), t, self.answer) for n in numbers]) for t in sorted(query.every)]
        answers = [key(query.score(row), row[0]) for row in query.answer]
        scan = Scan(lists, [weight for weight, *_ in query.terms], answers)
        self.select(query)
        self.write("depth={} sorted={} random={}\n".format(*scan.accesses(self.asks_of(query))))

    def is_eligible(self, query):
        """Whether a query is one block without DISTINCT over one table, each of whose terms has a rank index."""
        if not isinstance(query, Block) or query.distinct or len(query.tables) != 1:
            return False
        table = query.names[0][0]
        keys = [(table, predicate, tuple(a if a[0] == "value" else a[1] for a in args)) for _, predicate, args, _ in query.terms]
        return all(key in query.indexes for key in keys)


class View:
    """A view of a query. Each growth evaluates the query from scratch; of its calls it makes those for rows that have a new row."""

    def __init__(self, words):
        self.words, self.start, self.old, self.rows = words, words.at, None, []

    def grow(self, run):
        self.words.at = self.start
        query = read_query(self.words, run)
        old = self.old or [0] * len(query.tables)
        for rows in query.combinations(query.all):
            if any(row > seen for row, seen in zip(rows, old)):
                for term in sorted(query.every):
                    run.check(*query.told_call(rows, term))
        most = MOST_KEPT if query.limit is None else query.limit
        self.rows = [(query.score(rows), query.outputs(rows)) for rows in query.answer[:most]]
        self.old = [len(table.rows) for table in query.tables]


class Views(Run):
    """A run of the word `view`: its queries are kept as views, which grow as rows join."""

    def __init__(self, files, scores, fails):
        super().__init__(files, scores, fails, None)
        self.number = 0

    def statement(self, words, place):
        self.number += 1
        if words.skip("FETCH"):
            count = int(words.take())
            words.want("FROM")
            view = self.cursors[self.open_cursor(words)]
            for rank, (score, outputs) in enumerate(view.rows[:count], 1):
                self.write(line_of([rank, score, *outputs]))
        elif words.next() in ("CREATE", "INSERT", "DECLARE", "CLOSE"):
            super().statement(words, place)
        else:
            self.refuse()

    def refuse(self):
        raise Ended("Script", f"script: view NotEligible statement {self.number}")

    def declare(self, words):
        name = words.take()
        words.want("CURSOR", "FOR")
        view = View(words)
        query = read_query(words, self)
        if not isinstance(query, Block) or query.distinct:
            self.refuse()
        if name in self.cursors:
            raise Ended("Session", f"session: NameTaken {name}")
        if len(self.cursors) == MOST_CURSORS:
            raise Ended("Session", f"session: Full {name}")
        view.grow(self)
        self.cursors[name] = view

    def insert(self, words, place):
        super().insert(words, place)
        for view in self.cursors.values():
            view.grow(self)


def records(text):
    """The records of a file, whose mark in front is left out, without its blank lines. Quotes within a field aren't read here."""
    if re.search('[^,"\r\n]"[^,"\r\n]', text):
        raise Unread
    return [record for record in csv.reader(io.StringIO(text.removeprefix("\ufeff"), newline="")) if record]


def statements(text):
    """The statements of a script, each with the number of bytes in front of it."""
    parts = re.finditer(r"(?:'(?:[^']|'')*'|[^;\s])(?:'(?:[^']|'')*'|[^;])*", text)
    return [(len(bytes_of(text[: part.start()])), part[0]) for part in parts]


def read_row(words):
    """A row of an INSERT: its place, and each value with its own."""
    place = words.place()
    words.want("(")
    cells = listed(words, read_value)
    words.want(")")
    return place, cells


def read_value(words):
    place, negated, word = words.place(), words.skip("-"), words.take()
    if word.isdigit():
        return place, -int(word) if negated else int(word)
    if negated or not word.startswith("'"):
        raise Unread
    return place, word[1:-1].replace("''", "'")


def refuse(rule, place):
    """Ends a run at a statement that breaks this rule of names and types."""
    raise Ended("Script", f"script: bind {rule} at {place}")


# ---- the cases


SIGNS = {b"s": b" ", b"r": b"\r", b"n": b"\n", b"t": b"\t", b"-": b"", b"\\": b"\\"}


def written(text):
    """What escaped text stands for. Bytes that aren't UTF-8 stay as Python keeps them."""
    escape = rb"\\(?:x([0-9A-F]{2})|([^x#]))"
    return re.sub(escape, lambda it: bytes.fromhex(it[1].decode()) if it[1] else SIGNS[it[2]], bytes_of(text)).decode(errors="surrogateescape")


def printed(text):
    """Text as a line tells it: printable characters of ASCII as they are, and others as escapes."""
    signs = {"\n": "\\n", "\r": "\\r", "\\": "\\\\"}
    return "".join(signs.get(sign) or (sign if " " <= sign <= "~" else "".join(f"\\x{byte:02X}" for byte in bytes_of(sign))) for sign in text)


def main():
    files, front, scores, fails, old = {}, "", {}, {}, None
    lines = sys.stdin.read().split("\n")
    at = 0
    while at < len(lines):
        line = lines[at]
        at += 1
        print(line) if at < len(lines) else print(line, end="")
        word, _, rest = line.partition(" ")
        if word == "file":
            name, _, content = rest.partition(" ")
            files[name], more = written(content), name
        elif word == "front":
            front = front + written(rest) if rest else ""
        elif word == "script":
            files["s.sql"], more = front + written(rest), "s.sql"
        elif word == "more":
            count, _, content = rest.partition(" ")
            piece = written(content)
            files[more] += "".join(piece.replace("\\#", f"{n:02}") for n in range(1, int(count) + 1)) if "\\#" in piece else piece * int(count)
        elif word == "score":
            score, predicate, *args = rest.split(" ")
            scores[predicate, tuple(map(int, args))] = int(score)
        elif word == "fail":
            what, number, *after = rest.split(" ")
            fails[what] = (int(number), int(after[0])) if after else int(number)
        elif word in ("run", "guess"):
            old = []
            while at < len(lines) and lines[at].startswith("  "):
                old.append(lines[at])
                at += 1
            try:
                words = rest if word == "run" else f"guess {rest}"
                new = list(told(written(words).split(" "), files, scores, fails)) if can_be_read(words, old, files) else old
            except Unread:
                print(f"unread: {files['s.sql'][len(front):]}", file=sys.stderr)
                new = old
            print("\n".join(new))
            scores, fails = {}, {}


READ = "(?:ta|view) NotEligible statement|NotUtf8|lex NumberTooWide|lex TooManyTokens|parse TooManyStatements|parse TooDeep|catalogue Full"


def can_be_read(words, old, files):
    """Whether a run of these words can be read, which ended so. Of scripts that are refused, only those can that pass a limit or whose INSERT is."""
    if not re.fullmatch(r"top \S+ \S+ \d+ \d+|(plain|ta|view) \S+|(run|guess) \S+ \d+|gen \d+ \d+|(feed|cert) \S+ \S+ \d+|check \S+", words) or "  Usage" in old:
        return False
    if words.startswith(("top ", "feed ", "cert ", "check ")) or not set(old) & {"  Script", "  Table"}:
        return True
    return any(re.match(f"  err script: ({READ}) ", line) or is_of_insert(line, files[words.split()[1]]) for line in old)


def is_of_insert(line, text):
    """Whether a line tells of an INSERT that breaks a rule of names and types."""
    told = re.match(r"  err script: bind \w+ at (\d+)", line)
    return told is not None and [part for start, part in statements(text) if start <= int(told[1])][-1].startswith("INSERT")


def told(words, files, scores, fails):
    """The lines that tell of a run of these words."""
    word, *rest = words
    if word == "gen":
        run = Generated(int(rest[0]), int(rest[1]), scores, fails)
        return run.told(run.script, "gen.sql")
    if word == "ta":
        run = Scans(files, scores, fails)
        return run.told(run.script, rest[0])
    if word == "view":
        run = Views(files, scores, fails)
        return run.told(run.script, rest[0])
    if word == "feed":
        run = Run(files, scores, fails, None)
        return run.told(run.feed, rest[0], rest[1], int(rest[2]))
    if word == "cert":
        run = Run(files, scores, fails, None)
        return run.told(run.cert, rest[0], rest[1], int(rest[2]))
    if word == "check":
        run = Run(files, scores, fails, None)
        return run.told(run.check_certificate, rest[0])
    run = Run(files, scores, fails, int(rest[1]) if word in ("run", "guess") else None, word == "guess")
    if word == "top":
        return run.told(run.top, rest[0], rest[1], int(rest[2]), int(rest[3]))
    return run.told(run.script, rest[0])


class Folder(dict):
    """The files of the current folder."""

    def __contains__(self, name):
        return os.path.exists(name)

    def __getitem__(self, name):
        with open(name, encoding="utf-8") as file:
            return file.read()


def tell(name, seed):
    run = Run(Folder(), {}, {}, seed)
    status, *_ = run.told(run.script, name)
    print(run.put, end="")
    behind = len(run.made) - run.indexed - run.sampled
    print(f"{status.strip()}; calls {len(run.made)}: indexes {run.indexed}, samples {run.sampled}, then {behind}, {run.first or 0} of them before the first row")


if __name__ == "__main__":
    if len(sys.argv) == 4 and sys.argv[1] == "gen":
        generated_run = Generated(int(sys.argv[2]), int(sys.argv[3]), {}, {})
        generated_run.statements(generated_run.files["gen.sql"])
        print(generated_run.put, end="")
    elif len(sys.argv) == 3 and sys.argv[1] == "ta":
        scans = Scans(Folder(), {}, {})
        scans.script(sys.argv[2])
        print(scans.put, end="")
    elif len(sys.argv) == 3 and sys.argv[1] == "view":
        views = Views(Folder(), {}, {})
        status, *_ = views.told(views.script, sys.argv[2])
        print(views.put, end="")
        print(f"{status.strip()}; calls {len(views.made)}: indexes {views.indexed}")
    elif len(sys.argv) == 3:
        tell(sys.argv[1], int(sys.argv[2]))
    else:
        main()
