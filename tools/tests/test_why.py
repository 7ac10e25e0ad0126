"""Tests of `why`: the mistakes of mistakes.txt, each run through the program where it is built, and odd scripts and streams."""

import gzip
import os
import re
import shutil
import subprocess
import sys
import tempfile
import unittest

HERE = os.path.dirname(os.path.abspath(__file__))
TOOLS = os.path.dirname(HERE)
ROOT = os.path.dirname(TOOLS)
sys.path.insert(0, TOOLS)

from ranksql_tools import word_forms  # noqa: E402
from ranksql_tools.explain import explanation  # noqa: E402
from ranksql_tools.faults import read_fault  # noqa: E402
from ranksql_tools.program import find_program  # noqa: E402

WHY = os.path.join(TOOLS, "why")
PROGRAM = find_program()
NEEDS_PROGRAM = unittest.skipUnless(PROGRAM, "no program is built: ./ranksql builds it")


class Case:
    """A mistake: its name, its script, the files and the words of its run, and what `why` puts on standard error."""

    def __init__(self, text, front):
        self.name, text = text.split("\n", 1)
        parts = re.split(r"^--- (.*)\n", text, flags=re.MULTILINE)
        given = dict(zip(parts[1::2], parts[2::2]))
        self.script = bytes_of(front + parts[0])
        self.words = given.pop("words", "plain script.sql").split()
        self.why = re.sub(r"^USAGE$", word_forms.usage(), given.pop("why", ""), flags=re.MULTILINE)
        self.files = {name: bytes_of(content) for name, content in given.items()}

    def write(self, folder):
        """Puts the files into a folder."""
        for source in ("examples/hotels.csv", "examples/travel/museums.csv"):
            shutil.copy(os.path.join(ROOT, source), folder)
        for name, content in {**self.files, "script.sql": self.script}.items():
            with open(os.path.join(folder, name), "wb") as file:
                file.write(content)


def bytes_of(text):
    """The bytes of a text in which \\xNN stands for the byte NN."""
    return re.sub(rb"\\x([0-9a-f]{2})", lambda match: bytes([int(match[1], 16)]), text.encode())


def cases():
    with open(os.path.join(HERE, "mistakes.txt"), encoding="utf-8") as file:
        _, front, *rest = re.split(r"^=== ", file.read(), flags=re.MULTILINE)
    front = front.split("\n", 1)[1]
    return [Case(text, front) for text in rest]


def run(words, folder, **given):
    """What a run in a folder says: status, standard output and standard error."""
    environment = {**os.environ, "RANKSQL": PROGRAM or ""}
    ended = subprocess.run(words, cwd=folder, env=environment, capture_output=True, timeout=120, **given)
    return ended.returncode, ended.stdout, ended.stderr


class Mistakes(unittest.TestCase):
    maxDiff = None

    def test_there_are_enough(self):
        names = [case.name for case in cases()]
        self.assertGreaterEqual(len(names), 60)
        self.assertEqual(len(set(names)), len(names))

    def test_each_has_a_sentence(self):
        for case in cases():
            with self.subTest(case.name):
                line, *rest = case.why.splitlines()
                self.assertIsNotNone(read_fault(line))
                self.assertTrue(rest and rest[-1].endswith((".", "..", ";", "?")), rest)

    def test_each_fault_line_is_explained(self):
        for case in cases():
            with self.subTest(case.name), tempfile.TemporaryDirectory() as folder:
                case.write(folder)
                line, *rest = case.why.splitlines()
                before = os.getcwd()
                os.chdir(folder)
                try:
                    made = explanation(line, case.words, case.script if "script.sql" in case.words else None)
                finally:
                    os.chdir(before)
                self.assertEqual(made, rest)

    @NEEDS_PROGRAM
    def test_each_is_run_through_the_program(self):
        for number, case in enumerate(cases()):
            with self.subTest(case.name), tempfile.TemporaryDirectory() as folder:
                case.write(folder)
                status, out, said = run([PROGRAM, *case.words], folder)
                self.assertNotEqual(status, 0)
                self.assertEqual(said.decode(), case.why.splitlines()[0] + "\n")
                # The test above explains each line. The whole helper takes its time to start, so it is tried on some.
                if number % 12 == 0:
                    self.assertEqual(run([WHY, *case.words], folder), (status, out, case.why.encode()))


class Streams(unittest.TestCase):
    """Scripts and streams of every kind."""

    GOOD = (
        "CREATE TABLE hotels (name TEXT, city TEXT, price INT, rating INT) FROM 'hotels.csv';\n"
        "CREATE PREDICATE cheap (price INT) MAX 400 AS 400 - price;\n"
        "SELECT name FROM hotels ORDER BY cheap(price) LIMIT 1;\n"
    ).encode()
    ROW = b"1,400,Black Bear Lodge\n"

    def setUp(self):
        self.folder = tempfile.mkdtemp()
        self.addCleanup(shutil.rmtree, self.folder)
        shutil.copy(os.path.join(ROOT, "examples/hotels.csv"), self.folder)
        self.write("good.sql", self.GOOD)

    def write(self, name, content):
        with open(os.path.join(self.folder, name), "wb") as file:
            file.write(content)

    def test_help(self):
        status, out, said = run([WHY, "--help"], self.folder)
        self.assertEqual((status, said), (0, b""))
        self.assertIn(b"why SCRIPT SEED", out)

    def test_no_words(self):
        status, out, said = run([WHY], self.folder)
        self.assertEqual((status, out), (2, b""))
        self.assertIn(b"usage: why", said)

    def test_no_program(self):
        environment = {**os.environ, "RANKSQL": "/no/such/program"}
        ended = subprocess.run([WHY, "good.sql"], cwd=self.folder, env=environment, capture_output=True)
        self.assertEqual((ended.returncode, ended.stdout), (70, b""))
        self.assertTrue(ended.stderr.startswith(b"why: there is no program"))

    @NEEDS_PROGRAM
    def test_a_good_script(self):
        self.assertEqual(run([WHY, "good.sql"], self.folder), (0, self.ROW, b""))
        self.assertEqual(run([WHY, "good.sql", "1"], self.folder), (0, self.ROW, b""))
        self.assertEqual(run([WHY, "run", "good.sql", "1"], self.folder), (0, self.ROW, b""))

    @NEEDS_PROGRAM
    def test_rows_in_front_of_a_fault_stay(self):
        self.write("late.sql", self.GOOD + b"CLOSE c;")
        status, out, said = run([WHY, "late.sql"], self.folder)
        self.assertEqual((status, out), (9, self.ROW))
        self.assertTrue(said.startswith(b"session: Unknown c\n   4 | CLOSE c;\n"))

    @NEEDS_PROGRAM
    def test_standard_input(self):
        for words in (["/dev/stdin"], ["/dev/stdin", "1"], ["/dev/fd/0"]):
            self.assertEqual(run([WHY, *words], self.folder, input=self.GOOD), (0, self.ROW, b""))
        with open(os.path.join(self.folder, "good.sql"), "rb") as file:
            self.assertEqual(run([WHY, "/dev/stdin"], self.folder, stdin=file), (0, self.ROW, b""))
        status, out, said = run([WHY, "/dev/stdin"], self.folder, input=b"SELECT name")
        self.assertEqual((status, out), (5, b""))
        self.assertIn(b"   1 | SELECT name\n     |            ^\nA query needs FROM", said)

    @NEEDS_PROGRAM
    def test_a_named_pipe(self):
        os.mkfifo(os.path.join(self.folder, "pipe"))
        writer = subprocess.Popen(["sh", "-c", "cat good.sql >pipe"], cwd=self.folder)
        self.assertEqual(run([WHY, "pipe"], self.folder), (0, self.ROW, b""))
        self.assertEqual(writer.wait(), 0)

    @NEEDS_PROGRAM
    def test_odd_scripts(self):
        for content, status, says in (
            (b"", 0, b""),
            (b"-- only this", 0, b""),
            (b"\xef\xbb\xbf" + self.GOOD, 0, b""),
            (b"\xef\xbb\xbfSELECT name", 5, b"   1 | SELECT name\n     |            ^\n"),
            (b"S\0E\0L\0", 5, b"lex BadByte at 1"),
            ("SELECT name".encode("utf-16"), 5, b"iconv -f UTF-16"),
            (b"\xff\xfe", 5, b"iconv -f UTF-16"),
            (b"(" * 300, 5, b"parse Expected at 0"),
            (b"SELECT a FROM t WHERE " + b"(" * 300, 5, b"more than 256"),
            (b"SELECT a FROM t WHERE " + b"(" * 90000, 5, b"more than 256"),
            (b"x" * 5000, 5, b"..."),
            (b"\t\tSELECT\tx", 5, b"   1 |   SELECT x\n     |           ^\n"),
            ("SELECT a FROM t WHERE a = '\u6771\u4eac' x".encode(), 5, b"     | " + b" " * 33 + b"^\n"),
            (b"$" * 1048577, 3, b"A script has 1,048,576 bytes at most"),
        ):
            with self.subTest(content[:40]):
                self.write("odd.sql", content)
                made, out, said = run([WHY, "odd.sql"], self.folder)
                self.assertEqual(made, status)
                self.assertIn(says, said)
                self.assertNotIn(b"Traceback", said)
                self.assertNotIn(b"no explanation", said)

    @NEEDS_PROGRAM
    def test_files_that_are_no_script(self):
        table = b"This is a table's file, and here stands a script. tools/prepare "
        for name, content, says in (
            ("a b.csv", "name,city\nOtto,Köln\n".encode(), table + b"a b.csv >a b.sql makes"), ("t.TSV", b"a\tb\n1\t2\n", table + b"t.TSV >t.sql makes"),
            ("t", b'[{"a": 1}]\n', table + b"t >t.sql makes"), ("t.csv", "a,b\n1,2\n".encode("utf-16"), table + b"t.csv >t.sql makes"),
            ("s.gz", gzip.compress(self.GOOD), b"The script is packed by gzip, and has to be plain text: gunzip -c s.gz >NEW."),
        ):
            with self.subTest(name):
                self.write(name, content)
                status, out, said = run([WHY, name], self.folder)
                self.assertEqual((status, out), (5, b""))
                self.assertEqual(said.count(b"\n"), 2)
                self.assertIn(says, said)

    @NEEDS_PROGRAM
    def test_files_that_cannot_be_read(self):
        os.mkdir(os.path.join(self.folder, "scripts"))
        self.write("scripts/away.sql", self.GOOD.replace(b"hotels.csv", b"beside.csv"))
        self.write("scripts/beside.csv", b"name,city,price,rating\n")
        for word, says in (
            ("nothing.txt", b"There is no script nothing.txt here.\n"),
            ("god.sql", b"Did you mean good.sql?"),
            ("scripts", b"This is a folder."),
            ("/dev/zero", b"1,048,576 bytes at most"),
            ("scripts/away.sql", b"FROM 'scripts/beside.csv', or go to the script's folder first (cd scripts)."),
        ):
            with self.subTest(word):
                status, _, said = run([WHY, word], self.folder)
                self.assertEqual(status, 3)
                self.assertIn(says, said)

    @NEEDS_PROGRAM
    def test_closed_streams(self):
        status, _, said = run(["sh", "-c", '"$0" good.sql >&-; echo $? >status', WHY], self.folder)
        self.assertEqual(status, 0)
        with open(os.path.join(self.folder, "status"), encoding="ascii") as file:
            self.assertEqual(file.read(), "4\n")
        self.assertIn(b"Standard output took no more", said)
        for closed in ("2>&-", "<&-"):
            status, out, _ = run(["sh", "-c", f'"$0" good.sql {closed}', WHY], self.folder)
            self.assertEqual((status, out), (0, self.ROW))
        self.write("bad.sql", b"SELECT")
        self.assertEqual(run(["sh", "-c", '"$0" bad.sql 2>&-', WHY], self.folder), (5, b"", b""))
        status, _, said = run(["sh", "-c", '"$0" gen 7 600 | true', WHY], self.folder)
        self.assertNotIn(b"Traceback", said)


if __name__ == "__main__":
    unittest.main()
