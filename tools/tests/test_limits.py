"""Tests of ranksql_tools.limits: the program is asked for its usage line, its words, and each limit, at it and one beyond."""

import os
import shutil
import subprocess
import sys
import tempfile
import unittest

HERE = os.path.dirname(os.path.abspath(__file__))
sys.path.insert(0, os.path.dirname(HERE))

from ranksql_tools import limits, word_forms  # noqa: E402
from ranksql_tools.program import find_program  # noqa: E402

PROGRAM, ASKING = find_program(), find_program("ranksql_ask")
NEEDS_PROGRAM = unittest.skipUnless(PROGRAM, "no program is built: ./ranksql builds it")
NEEDS_ASKING = unittest.skipUnless(ASKING, "no ranksql_ask is built: ./ranksql_ask builds it")
FRONT = "CREATE TABLE t (a INT) FROM 't.csv'; CREATE PREDICATE p (a INT) MAX 9 AS a; "


class Limits(unittest.TestCase):
    def setUp(self):
        self.folder = tempfile.mkdtemp()
        self.addCleanup(shutil.rmtree, self.folder)
        self.write("t.csv", "a\n1\n")

    def write(self, name, text):
        with open(os.path.join(self.folder, name), "w", encoding="ascii") as file:
            file.write(text)

    def run_words(self, *words, program=PROGRAM):
        """The status and the line on standard error."""
        ended = subprocess.run([program, *words], cwd=self.folder, capture_output=True, timeout=120, check=False)
        return ended.returncode, ended.stderr.decode()

    def run_script(self, script):
        self.write("s.sql", script)
        return self.run_words("plain", "s.sql")

    def refused_beyond(self, most, made, says):
        """What is made of the limit isn't refused by a line in which this stands, and what is made of one more is."""
        self.assertNotIn(says, self.run_script(made(most))[1])
        self.assertIn(says, self.run_script(made(most + 1))[1])

    @NEEDS_PROGRAM
    def test_usage(self):
        self.assertEqual(self.run_words(), (2, word_forms.in_source("ranksql") + "\n"))

    @NEEDS_ASKING
    def test_usage_of_the_program_that_asks(self):
        self.assertEqual(self.run_words(program=ASKING), (2, word_forms.in_source("ranksql_ask") + "\n"))

    @NEEDS_PROGRAM
    def test_words(self):
        for word, form in word_forms.forms().items():
            given = ["1" if name in ("K", "MAX", "SEED", "NUMBER", "ROWS") else "x" for name in form.split()]
            self.assertNotEqual(self.run_words(word, *given)[0], 2)
            self.assertEqual(self.run_words(word, *given, "1")[0], 2)
            self.assertEqual(self.run_words(word, *given[1:])[0], 2)

    @NEEDS_PROGRAM
    def test_numbers_of_the_command_line(self):
        self.write("f.csv", "key,score\na,1\n")
        for most, words in (
            (limits.GREATEST_SCORE, lambda n: ("top", "t.csv", "a", n, "1")), (limits.GREATEST_K, lambda n: ("top", "t.csv", "a", "9", n)),
            (limits.GREATEST_K, lambda n: ("feed", "f.csv", "f.csv", n)), (limits.GREATEST_K, lambda n: ("cert", "f.csv", "f.csv", n)),
            (limits.GREATEST_SEED, lambda n: ("run", "t.csv", n)), (limits.GREATEST_SCORE, lambda n: ("gen", n, "1")),
            (limits.MOST_GENERATED_ROWS, lambda n: ("gen", "1", n)),
        ):
            with self.subTest(words("N")):
                self.assertNotEqual(self.run_words(*words(str(most)))[0], 2)
                self.assertEqual(self.run_words(*words(str(most + 1)))[0], 2)

    @NEEDS_PROGRAM
    def test_scripts(self):
        self.refused_beyond(limits.MOST_SCRIPT_BYTES, lambda n: " " * n, "too long")
        self.refused_beyond(limits.MOST_TOKENS, lambda n: "a " * n, "lex TooManyTokens")
        self.refused_beyond(limits.MOST_STATEMENTS, lambda n: "CLOSE c;" * n, "parse TooManyStatements")
        self.refused_beyond(limits.MOST_DEPTH, lambda n: "SELECT a FROM t WHERE " + "(" * n, "parse TooDeep")
        self.refused_beyond(limits.GREATEST_NUMBER, lambda n: "SELECT %d" % n, "lex NumberTooWide")

    @NEEDS_PROGRAM
    def test_what_a_script_makes(self):
        self.refused_beyond(limits.MOST_TABLES, lambda n: "".join(f"CREATE TABLE t{i} (a INT) FROM 't.csv';" for i in range(n)), "catalogue ")
        self.refused_beyond(limits.MOST_PREDICATES, lambda n: "".join(f"CREATE PREDICATE p{i} (a INT) MAX 9 AS a;" for i in range(n)), "catalogue ")
        self.refused_beyond(limits.MOST_INDEXES, lambda n: FRONT + "".join(f"CREATE RANK INDEX i{i} ON t (p(a));" for i in range(n)), "catalogue ")
        cursors = "DECLARE c%d CURSOR FOR SELECT a FROM t ORDER BY p(a);"
        self.refused_beyond(limits.MOST_CURSORS, lambda n: FRONT + "".join(cursors % i for i in range(n)), "session: Full")

    @NEEDS_PROGRAM
    def test_statements(self):
        limit = "bind LimitOf"
        parameters = "CREATE PREDICATE q (%s) MAX 9 AS 0"
        self.refused_beyond(limits.MOST_PARAMETERS, lambda n: parameters % ", ".join(f"a{i} INT" for i in range(n)), limit)
        self.refused_beyond(limits.GREATEST_COST, lambda n: f"CREATE PREDICATE q (a INT) MAX 9 COST {n} AS 0", limit)
        self.refused_beyond(limits.GREATEST_SCORE, lambda n: f"CREATE PREDICATE q (a INT) MAX {n} AS 0", limit)
        self.refused_beyond(limits.MOST_COLUMNS, lambda n: "CREATE TABLE u (%s) FROM 't.csv'" % ", ".join(f"a{i} INT" for i in range(n)), limit)
        self.refused_beyond(limits.GREATEST_WEIGHT, lambda n: FRONT + f"SELECT a FROM t ORDER BY {n} * p(a)", limit)
        self.refused_beyond(limits.GREATEST_LIMIT, lambda n: FRONT + f"SELECT a FROM t ORDER BY p(a) LIMIT {n}", limit)
        self.refused_beyond(limits.MOST_TERMS, lambda n: FRONT + "SELECT a FROM t ORDER BY " + " + ".join(["p(a)"] * n), limit)
        self.refused_beyond(limits.MOST_CONDITIONS, lambda n: FRONT + "SELECT a FROM t WHERE %s ORDER BY p(a)" % " AND ".join(["a = 1"] * n), limit)
        sources = FRONT + "SELECT t0.a FROM %s ORDER BY p(t0.a)"
        self.refused_beyond(limits.MOST_SOURCES, lambda n: sources % ", ".join(f"t t{i}" for i in range(n)), limit)
        self.refused_beyond(limits.MOST_OUTPUTS, lambda n: FRONT + "SELECT %s FROM t ORDER BY p(a)" % ", ".join(["a"] * n), limit)

    @NEEDS_PROGRAM
    def test_tables(self):
        for most, made, says in (
            (limits.MOST_ROWS, lambda n: "a\n" + "1\n" * n, "TooManyRows"),
            (limits.MOST_TABLE_BYTES, lambda n: "a\n" + "\n" * (n - 2), "too long"),
        ):
            self.write("t.csv", made(most))
            self.assertEqual(self.run_words("top", "t.csv", "a", "9", "0"), (0, ""))
            self.write("t.csv", made(most + 1))
            self.assertIn(says, self.run_words("top", "t.csv", "a", "9", "0")[1])

    @NEEDS_PROGRAM
    def test_certificates(self):
        for count, status in ((limits.MOST_CERTIFICATE_ROWS, 0), (limits.MOST_CERTIFICATE_ROWS + 1, 6)):
            for name in "lr":
                self.write(f"{name}.csv", "key,score\n" + "".join(f"{name}{row},1\n" for row in range(count)))
            self.assertEqual(self.run_words("cert", "l.csv", "r.csv", "1")[0], status)


if __name__ == "__main__":
    unittest.main()
