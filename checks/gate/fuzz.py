#!/usr/bin/env python3
"""Runs the built program on scripts that are made at random, beside runs.py, and prints the first case that differs:
checks/gate/fuzz.py N SEED tries N cases, which are the same at each run with that seed. The program is crates/ranksql/out/ranksql,
or the one that the variable RANKSQL names.

A case has small tables, and a script of the grammar, of which every second one has a few words exchanged, left out or doubled.
Many terms have an index, most of these with a first score
below MAX. Rows join the tables, and indexes are made, between the FETCHes of its cursors too. It is run by plans and plainly. Where the program runs the whole script, or ends it by a score, a cursor or a missing file,
status, rows and line have to be those of runs.py. Where it refuses a statement or a table, the rows of the statements in front
have to be, and of an INSERT the line too. A run may never crash, and its line has to be one of its status.
"""

import multiprocessing
import os
import random
import re
import subprocess
import sys
import tempfile

sys.dont_write_bytecode = True
sys.path.insert(0, os.path.join(os.path.dirname(os.path.abspath(__file__)), "..", "model"))
import runs
from queries import Ended, Words

ROOT = os.path.dirname(os.path.dirname(os.path.dirname(os.path.abspath(__file__))))
PROGRAM = os.environ.get("RANKSQL") or f"{ROOT}/crates/ranksql/out/ranksql"
SECONDS = 60

# ---- what a case is made of

TABLES = {"h": ["name TEXT", "price INT", "city INT"], "t": ["x INT", "y INT"], "u": ["v INT"], "a": ["g INT", "v INT"], "b": ["g INT", "w INT"]}
PREDICATES = {
    "p": (1, "CREATE PREDICATE p (v INT) MAX 10 AS v;"),
    "q": (1, "CREATE PREDICATE q (v INT) MAX 10 COST 100 AS v;"),
    "half": (1, "CREATE PREDICATE half (v INT) MAX 10 AS v / 2;"),
    "near": (2, "CREATE PREDICATE near (a INT, b INT) MAX 100 AS 100 - ABS(a - b);"),
    "best": (2, "CREATE PREDICATE best (a INT, b INT) MAX 20 COST 3 AS MAX(a, b);"),
    "far": (1, "CREATE PREDICATE far (v INT) MAX 60 COST 20 AS v;"),
}
LINES = {
    1: "memory",
    2: "usage: .*",
    3: "read: .*: (missing|too long|failed)",
    4: "write",
    5: "script: (NotUtf8|(lex|parse|bind|catalogue) [A-Za-z]+) at \\d+",
    6: "table: .*: [A-Za-z]+( row \\d+)?( column \\d+)?( found \\d+)?",
    7: "score: \\w+ rows [\\d ]+: -?\\d+ is not in 0\\.\\.\\d+",
    8: "probe: \\w+",
    9: "session: (NameTaken|Full|Unknown) \\w+",
}


class Case:
    """The files, the script and the seed of a case."""

    def __init__(self, seed, number):
        self.draw = random.Random(f"{seed} {number}")
        self.most = self.draw.choice([3, 9, 10, 12])
        self.files = {f"{name}.csv": self.table(columns) for name, columns in TABLES.items()}
        tables = [f"CREATE TABLE {name} ({', '.join(columns)}) FROM '{name}.csv';" for name, columns in TABLES.items()]
        self.indexed, self.favourite = [], self.draw.choice(list(TABLES))
        front = tables + [text for _, text in PREDICATES.values()] + [self.index() for _ in range(self.draw.randrange(6))]
        self.open = []
        script = front + [self.statement() for _ in range(self.draw.randrange(1, 12))]
        if number % 2:
            for _ in range(self.draw.randrange(1, 4)):
                script = self.changed(script, len(tables))
        self.script = "\n".join(script) + "\n"
        self.seed = self.draw.choice([0, 1, 7, (1 << 64) - 1])

    def table(self, columns):
        rows = [[self.cell(column) for column in columns] for _ in range(self.draw.randrange(7))]
        return "".join(",".join(row) + "\n" for row in [[column.split()[0] for column in columns], *rows])

    def cell(self, column):
        if column.endswith("TEXT"):
            return self.draw.choice(["a", "b", '"c,d"', '"e""f"', "", "\u00e9"])
        return str(self.draw.randrange(self.most + 1))

    def entries(self, most):
        names = [self.draw.choice(list(TABLES)) for _ in range(self.draw.randrange(1, most + 1))]
        return [(name, "xyz"[place]) for place, name in enumerate(names)]

    def column(self, entries, kind="INT"):
        of_kind = [f"{alias}.{column.split()[0]}" for name, alias in entries for column in TABLES[name] if column.endswith(kind)]
        return self.draw.choice(of_kind) if of_kind else self.column(entries)

    def term(self, entries):
        """A call of a query: often one that an index of its tables is of."""
        found = [re.sub(rf"\b{table}\.", f"{alias}.", call) for table, call in self.indexed for name, alias in entries if name == table]
        return self.draw.choice(found) if found and self.draw.random() < 0.6 else self.call(entries)

    def call(self, entries):
        name, (count, _) = self.draw.choice(list(PREDICATES.items()))
        args = [self.column(entries) if self.draw.random() < 0.85 else str(self.draw.randrange(9)) for _ in range(count)]
        return f"{name}({self.column(entries) if count == 1 else ', '.join(args)})"

    def grown(self):
        """The table of an index or an INSERT: one of them often, so that it has several indexes as rows join it."""
        return self.draw.choice(list(TABLES) + [self.favourite] * 4)

    def index(self):
        table = self.grown()
        self.indexed.append((table, self.call([(table, table)])))
        return f"CREATE RANK INDEX i{len(self.indexed)} ON {table} ({self.indexed[-1][1]});"

    def insert(self):
        table = self.grown()
        most = self.most if self.draw.random() < 0.8 else 14  # where many scores are bad, the order of the calls shows
        return f"INSERT INTO {table} VALUES {', '.join(self.row(TABLES[table], most) for _ in range(self.draw.choice([1, 1, 2, 3])))};"

    def row(self, columns, most):
        """A row of an INSERT. One of a hundred has a value too many, and one value of a hundred is of another kind."""
        kinds = [column.split()[1] for column in columns] + ["INT"] * (self.draw.random() < 0.01)
        return f"({', '.join(self.written(kind if self.draw.random() < 0.99 else 'TEXT', most) for kind in kinds)})"

    def written(self, kind, most):
        if kind == "TEXT":
            return self.draw.choice(["'a'", "'b'", "'c,d'", "'e\"f'", "''", "'\u00e9'", "'it''s'", "'x; y'"])
        number = self.draw.randrange(most + 1)
        return self.draw.choice([str(number)] * 20 + [f"-{number}", f"- {number}", f"00{number}", "4000000000000000000"])

    def condition(self, entries):
        if self.draw.random() < 0.5:
            return f"{self.column(entries)} = {self.column(entries)}"
        sign = self.draw.choice(["<", "<=", ">", ">=", "=", "<>"])
        other = self.draw.choice([str(self.draw.randrange(9)), self.column(entries), f"{self.column(entries)} + 1", f"2 * {self.column(entries)}"])
        return f"{self.column(entries)} {sign} {other}"

    def block(self, entries, items):
        where = " AND ".join(self.condition(entries) for _ in range(self.draw.choice([0, 0, 1, 1, 2])))
        return f"SELECT {items} FROM {', '.join(f'{name} {alias}' for name, alias in entries)}{' WHERE ' + where if where else ''}"

    def query(self):
        limit = self.draw.choice(["", "", " LIMIT 0", " LIMIT 1", " LIMIT 3", " LIMIT 50"])
        if self.draw.random() < 0.2:
            sides, columns, predicate = self.sides()
            word = self.draw.choice(["UNION", "UNION ALL", "INTERSECT", "EXCEPT"])
            blocks = [self.block(entries, column) for entries, column in zip(sides, columns)]
            order = f"{predicate}({columns[0].split('.')[1]})"
            if self.draw.random() < 0.5:
                order += f" + {self.draw.choice(['2 * ', ''])}{self.draw.choice(['p', 'q', 'half', 'far'])}({columns[0].split('.')[1]})"
            return f"{blocks[0]} {word} {blocks[1]} ORDER BY {order}{limit}"
        entries = self.entries(3)
        order = " + ".join(self.draw.choice(["", "", "2 * ", "1000000 * "]) + self.term(entries) for _ in range(self.draw.randrange(1, 4)))
        items = [self.column(entries, self.draw.choice(["INT", "TEXT"])) for _ in range(self.draw.randrange(1, 3))]
        if self.draw.random() < 0.25:
            items = sorted(set(items + re.findall(r"\b[xyz]\.\w+", order)))
            return f"{self.block(entries, 'DISTINCT ' + ', '.join(items))} ORDER BY {order}{limit}"
        return f"{self.block(entries, ', '.join(items))} ORDER BY {order}{limit}"

    def sides(self):
        """The entries of both blocks of a query, the output column of each, and a predicate of it: often with an index in each block."""
        calls = [(table, *call[:-1].split("(")) for table, call in self.indexed if re.fullmatch(r"\w+\(\w+\.\w+\)", call)]
        if not calls or self.draw.random() < 0.4:
            sides = [self.entries(2) for _ in range(2)]
            return sides, [self.column(entries) for entries in sides], self.draw.choice(["p", "q", "half", "far"])
        _, predicate, _ = self.draw.choice(calls)
        chosen = [self.draw.choice([(table, column) for table, name, column in calls if name == predicate]) for _ in range(2)]
        sides = [[(table, "v")] + self.entries(1) * self.draw.randrange(2) for table, _ in chosen]
        return sides, [f"v.{column.split('.')[1]}" for _, column in chosen], predicate

    def statement(self):
        """A statement behind the front. Most cursors are open where rows are fetched, and most names free where one is opened."""
        kind = self.draw.random()
        if kind < 0.2:
            return self.query() + ";"
        if kind < 0.28:
            return f"EXPLAIN {self.query()};"
        if kind < 0.36:
            return f"EXPLAIN ANALYZE {self.query()};"
        if kind < 0.56:
            return self.insert()
        if kind < 0.6:
            return self.index()
        if self.open and kind < 0.8 or kind < 0.61:
            return f"FETCH {self.draw.choice([0, 1, 1, 2, 9])} FROM {self.draw.choice(self.open or ['k'])};"
        if self.open and kind < 0.84 or kind < 0.62:
            closed = self.draw.choice(self.open or ["k"])
            self.open = [name for name in self.open if name != closed]
            return f"CLOSE {closed};"
        name = self.draw.choice([name for name in "klm" if name not in self.open or kind > 0.99] or ["k"])
        self.open.append(name)
        return f"DECLARE {name} CURSOR FOR {self.query()};"

    def changed(self, script, kept):
        """The script with a word exchanged, left out or doubled behind its tables, or with a statement moved or left out."""
        place = self.draw.randrange(kept, len(script))
        if self.draw.random() < 0.15:
            other = self.draw.randrange(kept, len(script))
            return script[:place] + script[place + 1 :] if self.draw.random() < 0.3 else script[:other] + [script[place]] + script[other:]
        words = re.findall(r"'[^']*'|\w+|\s+|<=|>=|<>|.", script[place])
        at = self.draw.choice([number for number, word in enumerate(words) if not word.isspace()])
        others = [word for line in script for word in re.findall(r"\w+|<=|>=|<>|[-+*/(),.;=<>]", line)] + ["0", "4000000000000000000", "-", "NOT", "CASE", "'a'"]
        like = [word for word in others if kind_of(word) == kind_of(words[at])] or others
        kind = self.draw.random()
        if kind < 0.8:
            words[at] = self.draw.choice(like if kind < 0.7 else others)
        else:
            words[at : at + 1] = [] if kind < 0.9 else [words[at], " ", words[at]]
        return script[:place] + ["".join(words)] + script[place + 1 :]


def kind_of(word):
    """What a word is: a number, a name, a word of the language, or a sign by its kind."""
    if word[0].isdigit():
        return "number"
    if word[0].isalpha():
        return "name" if word[0].islower() else "word"
    return "sign" if word in ("<", "<=", ">", ">=", "=", "<>") else "operator" if word in "+-*/" else word


# ---- what is wanted


class Wanted:
    """What runs.py says of a case, statement by statement, as far as it can read them."""

    def __init__(self, case, seed):
        self.run = runs.Run(case.files, {}, {}, seed)
        self.statements = list(runs.statements(case.script))
        self.ends = []  # what was put up to the end of each statement that was run
        self.end, self.unread = None, False
        for place, part in self.statements:
            try:
                words = Words(part)
                self.run.statement(words, place)
                if words.next() is not None:
                    raise ValueError
            except Ended as end:
                self.end = end.args
                return
            except Exception:  # runs.py doesn't read all that there is, and says so in several ways
                self.unread = True
                return
            self.ends.append(self.run.put)


def told_of(words):
    try:
        done = subprocess.run([PROGRAM, *words], stdin=subprocess.DEVNULL, capture_output=True, timeout=SECONDS, check=False)
    except subprocess.TimeoutExpired:
        return "no end", "", ""
    return done.returncode, done.stdout.decode(errors="surrogateescape"), done.stderr.decode(errors="surrogateescape")


def check(case, words, seed):
    """What differs in a run of a case, or nothing; and whether all of it was compared."""
    status, out, error = got = told_of(words)
    if status not in range(10) or (error != "" if status == 0 else not re.fullmatch(LINES[status] + "\n", error)):
        return f"a crash, or a line that isn't one of its status: {got}", False
    wanted = Wanted(case, seed)
    if status in (5, 6):
        return check_refused(got, wanted)
    if wanted.unread:
        return ("" if out.startswith(wanted.run.put) else f"got {got}, where runs.py puts {wanted.run.put!r} first"), False
    name, line = wanted.end or ("Done", "")
    told = runs.STATUSES.index(name), wanted.run.put, line + "\n" * bool(line)
    return "" if got == told else f"got {got}, where runs.py says {told}", True


def check_refused(got, wanted):
    """Of a refused script: nothing is put where a token or the parse is refused, and else what the statements in front put."""
    status, out, error = got
    if status == 6:
        return ("" if out.startswith(wanted.run.put) else f"got {got}, where runs.py puts {wanted.run.put!r} first"), False
    kind, place = error.split()[1], int(error.split()[-1])
    if kind in ("lex", "parse"):
        return ("" if out == "" else f"a refused script puts: {got}"), False
    front = sum(start <= place for start, _ in wanted.statements) - 1
    if len(wanted.ends) < front:
        return ("" if wanted.unread else f"got {got}, where runs.py says {wanted.end} before"), False
    put = wanted.ends[front - 1] if front > 0 else ""
    is_read = len(wanted.ends) > front or wanted.end
    if is_read and wanted.statements[front][1].startswith("INSERT") and wanted.end != ("Script", error.strip()):
        return f"got {got}, where runs.py says {wanted.end}", False
    return ("" if out == put else f"got {got}, where the statements in front put {put!r}"), True


def try_case(task):
    seed, number = task
    case = Case(seed, number)
    for name, content in case.files.items():
        with open(name, "w", encoding="utf-8", newline="") as file:
            file.write(content)
    with open("s.sql", "w", encoding="utf-8", newline="") as file:
        file.write(case.script)
    whole = 0
    for words, plan in ((["run", "s.sql", str(case.seed)], case.seed), (["plain", "s.sql"], None)):
        differs, compared = check(case, words, plan)
        if differs:
            files = "".join(f"--- {name}\n{content}" for name, content in case.files.items())
            return f"FAILED  case {number} of seed {seed}, {' '.join(words)}: {differs}\n{files}--- s.sql\n{case.script}", 0
        whole += compared
    return "", whole


def begin(folder):
    own = os.path.join(folder, str(os.getpid()))
    os.mkdir(own)
    os.chdir(own)


def main():
    if len(sys.argv) != 3 or not sys.argv[1].isdigit() or not sys.argv[2].isdigit():
        print("usage: checks/gate/fuzz.py N SEED", file=sys.stderr)
        return 2
    if not os.access(PROGRAM, os.X_OK):
        print(f"there is no program {PROGRAM}: ./ranksql builds it", file=sys.stderr)
        return 1
    count, seed = int(sys.argv[1]), int(sys.argv[2])
    whole = 0
    with tempfile.TemporaryDirectory() as folder, multiprocessing.Pool(len(os.sched_getaffinity(0)), begin, (folder,)) as pool:
        for differs, compared in pool.imap(try_case, ((seed, number) for number in range(count)), chunksize=8):
            if differs:
                print(differs)
                return 1
            whole += compared
    if whole < count:
        print(f"FAILED  of {2 * count} runs only {whole} were compared whole")
        return 1
    print(f"ok      {count} scripts of seed {seed}, each by plans and plainly: {whole} of {2 * count} runs were compared whole, the others as far as runs.py reads them")
    return 0


if __name__ == "__main__":
    sys.exit(main())
