"""Tests of `prepare` on small files made by hand: those of tables/, each with the script and the table that it makes, and
files that are odd byte by byte."""

import contextlib
import csv
import gzip
import io
import os
import re
import shutil
import subprocess
import sys
import tempfile
import unittest

HERE = os.path.dirname(os.path.abspath(__file__))
TOOLS = os.path.dirname(HERE)
sys.path.insert(0, TOOLS)

from ranksql_tools.csv_cells import moment_of, number_of, scaled  # noqa: E402
from ranksql_tools.csv_columns import plain_name  # noqa: E402
from ranksql_tools.prepare_command import main  # noqa: E402
from ranksql_tools.program import find_program  # noqa: E402

PREPARE = os.path.join(TOOLS, "prepare")
TABLES = os.path.join(HERE, "tables")
PROGRAM = find_program()
NEEDS_PROGRAM = unittest.skipUnless(PROGRAM, "no program is built: ./ranksql builds it")
PROPOSAL = re.compile(r"-- (CREATE PREDICATE (\w+) \((.+) INT\) MAX (\d+) AS .*;)")


class InFolder(unittest.TestCase):
    """A test that works in a folder of its own."""

    def setUp(self):
        self.folder = tempfile.mkdtemp(prefix="prepare")
        self.addCleanup(shutil.rmtree, self.folder)

    def put(self, name, data):
        with open(os.path.join(self.folder, name), "wb") as file:
            file.write(data if isinstance(data, bytes) else data.encode())

    def read(self, name):
        with open(os.path.join(self.folder, name), "rb") as file:
            return file.read().decode()

    def prepare(self, *words, status=0, data=b""):
        """Runs prepare, and gives what it prints and what it tells."""
        out, err = (io.TextIOWrapper(io.BytesIO(), encoding="utf-8") for _ in range(2))
        before = os.getcwd(), sys.stdin
        os.chdir(self.folder)
        sys.stdin = io.TextIOWrapper(io.BufferedReader(io.BytesIO(data)))
        try:
            with contextlib.redirect_stdout(out), contextlib.redirect_stderr(err):
                ended = main(list(words))
        except SystemExit as ends:
            ended = ends.code
        finally:
            os.chdir(before[0])
            sys.stdin = before[1]
        told = [stream.buffer.getvalue().decode() for stream in (out, err) if stream.flush() is None]
        self.assertEqual(status, ended, told[1])
        return told

    def table(self, data, *words):
        """The rows of the table that is made of a file, the header first."""
        self.put("t.csv", data)
        self.prepare("t.csv", *words)
        return list(csv.reader(io.StringIO(self.read("t.table.csv"), newline="")))

    def refused(self, data, status, sentence, *words):
        """A file that is refused with a sentence in which this stands."""
        self.put("t.csv", data)
        out, told = self.prepare("t.csv", *words, status=status)
        self.assertEqual("", out)
        self.assertIn(sentence, told)
        self.assertEqual(1, told.count("\n"), told)

    def run_program(self, script):
        """The rows that `ranksql plain` prints, each without its rank."""
        self.put("s.sql", script)
        ended = subprocess.run([PROGRAM, "plain", "s.sql"], cwd=self.folder, capture_output=True, check=False)
        self.assertEqual((0, ""), (ended.returncode, ended.stderr.decode()))
        return [row[1:] for row in csv.reader(io.StringIO(ended.stdout.decode(), newline=""))]

    def check_script(self, script, table):
        """The program reads the table row by row as it stands, and each proposed predicate gives 0 to MAX."""
        rows = list(csv.reader(io.StringIO(self.read(table + ".table.csv"), newline="")))
        first, kind = re.search(r'^CREATE TABLE .*\(\n    (".*"|\w+) (INT|TEXT)', script, re.MULTILINE).groups()
        all_rows = "CREATE PREDICATE same (v %s) MAX 1 AS 0; SELECT * FROM %s ORDER BY same(%s);" % (kind, table, first)
        self.assertEqual(rows[1:], [row[1:] for row in self.run_program(script + all_rows)])
        if not rows[1:]:
            return
        for proposal, name, column, most in PROPOSAL.findall(script):
            best = self.run_program("%s\n%s\nSELECT * FROM %s ORDER BY %s(%s);" % (script, proposal, table, name, column))
            self.assertEqual("0", best[-1][0])
            spread = len({row[0] for row in best}) > 1
            self.assertEqual(most if spread else "0", best[0][0], proposal)


class Tables(InFolder):
    """Each file of tables/ makes the script and the table that stand beside it."""

    def test_tables(self):
        names = sorted(name for name in os.listdir(TABLES) if name.endswith((".csv", ".tsv")))
        self.assertTrue(names)
        for name in names:
            stem = name.rpartition(".")[0]
            with self.subTest(name):
                shutil.copy(os.path.join(TABLES, name), self.folder)
                script, _ = self.prepare(name)
                with open(os.path.join(TABLES, stem + ".sql"), encoding="utf-8") as file:
                    self.assertEqual(file.read(), script)
                with open(os.path.join(TABLES, stem + ".table"), encoding="utf-8", newline="") as file:
                    self.assertEqual(file.read(), self.read(stem + ".table.csv"))
                if PROGRAM:
                    self.check_script(script, stem)

    @NEEDS_PROGRAM
    def test_kept_names(self):
        shutil.copy(os.path.join(TABLES, "odd_names.csv"), self.folder)
        script, _ = self.prepare("odd_names.csv", "--keep-names")
        self.assertIn('    "Größe (cm)" INT', script)
        self.assertIn('    "Order" INT', script)
        self.check_script(script, "odd_names")


class Bytes(InFolder):
    """Files that are odd byte by byte."""

    def test_encodings(self):
        wanted = [["name", "n"], ["Zürich", "1"]]
        text = "name,n\nZürich,1\n"
        for encoding in ("utf-8", "utf-8-sig", "latin-1", "cp1252", "utf-16", "utf-16-le", "utf-16-be"):
            with self.subTest(encoding):
                self.assertEqual(wanted, self.table(text.encode(encoding)))
        self.assertEqual([["name", "n"], ["Łódź", "1"]], self.table("name,n\nŁódź,1\n".encode("cp1250"), "--encoding", "cp1250"))
        self.put("t.csv", "name,n\nZürich,1\n".encode("latin-1"))
        self.assertIn("read as Windows-1252", self.prepare("t.csv")[0])

    def test_line_ends(self):
        for end in ("\n", "\r\n", "\r"):
            self.assertEqual([["a", "b"], ["1", "x"], ["2", "y"]], self.table(end.join(["a,b", "1,x", "2,y"])))

    def test_packed(self):
        self.put("t.csv.gz", gzip.compress(b"a,b\n1,x\n"))
        self.prepare("t.csv.gz")
        self.assertEqual("a,b\n1,x\n", self.read("t.table.csv"))

    def test_standard_input(self):
        out, _ = self.prepare("-", "--table", "piped", data=b"a,b\n1,x\n")
        self.assertIn("CREATE TABLE piped (", out)
        self.assertEqual("a,b\n1,x\n", self.read("piped.table.csv"))

    def test_refused(self):
        for data, status, sentence in (
                (b"", 6, "is empty"), (b"\n\n", 6, "is empty"), (b"\xef\xbb\xbf", 6, "is empty"), (b"a,b\n1,\0\n", 6, "NUL bytes"),
                (b"PK\x03\x04" + bytes(50), 6, "spreadsheet"), (b"%PDF-1.4\n", 6, "PDF"), (gzip.compress(b"a,b\n")[:-6], 3, "unpacked"),
                (b"a\n1,2,3\n2,3,4\n", 6, "more fields than the header"), (b"# made by\na,b\n1,2\n2,3\n", 6, "--skip 1"),
                (b'a,b\n1,"x\n2\n3,y,z\n', 6, "--no-quotes"), ("a,b\n1,x\n".encode("utf-16")[:-1], 6, "isn't in utf-16")):
            with self.subTest(data[:12]):
                self.refused(data, status, sentence)
        self.refused(",".join("c%d" % n for n in range(1, 66)) + "\n", 6, "--columns")
        self.refused(b"a\xff,b\n1,x\n", 6, "isn't in ascii", "--encoding", "ascii")
        self.refused(b"a,b\n1,x\n", 6, "no encoding nowhere", "--encoding", "nowhere")

    def test_paths(self):
        self.assertIn("no file none.csv", self.prepare("none.csv", status=3)[1])
        self.assertIn("is a folder", self.prepare(".", status=3)[1])
        self.assertIn("can't be read", self.prepare("a\\0.csv".replace("\\0", "\n") * 200, status=3)[1])
        self.put("t.csv", "a\n1\n")
        self.assertIn("over itself", self.prepare("t.csv", "--to", "t.csv", status=2)[1])
        self.assertIn("can't be written", self.prepare("t.csv", "--to", "no/t.csv", status=4)[1])
        self.assertIn("no folder", self.prepare("t.csv", "--folder", "no", status=2)[1])
        self.prepare("t.csv", "--to", "it's.csv")
        self.assertIn("FROM 'it''s.csv'", self.prepare("t.csv", "--to", "it's.csv")[0])

    @unittest.skipUnless(os.path.exists("/dev/full"), "there is no /dev/full")
    def test_streams(self):
        self.put("t.csv", "a\n1\n")
        with open("/dev/full", "wb") as full:
            ended = subprocess.run([sys.executable, "-S", PREPARE, "t.csv"], cwd=self.folder, stdout=full, stderr=subprocess.PIPE, check=False)
        self.assertEqual(4, ended.returncode)
        self.assertNotIn(b"Traceback", ended.stderr)
        ended = subprocess.run("exec 3>&1; { '%s' -S '%s' t.csv; echo $? >&3; } | true" % (sys.executable, PREPARE), shell=True, cwd=self.folder,
                               capture_output=True, check=False)
        self.assertIn(ended.stdout.strip(), (b"0", b"4"))
        self.assertNotIn(b"Traceback", ended.stderr)
        ended = subprocess.run("'%s' -S '%s' t.csv >&-" % (sys.executable, PREPARE), shell=True, cwd=self.folder, capture_output=True, check=False)
        self.assertEqual(4, ended.returncode)
        self.assertNotIn(b"Traceback", ended.stderr)


class Json(InFolder):
    """JSON files, whose objects are the rows."""

    WANTED = [["name", "price"], ["Ann, x", "15"], ["Bob", "-10"]]

    def test_rows(self):
        for text in ('[{"name": "Ann, x", "price": 1.5}, {"name": "Bob", "price": null}]', '[\n {"name": "Ann, x", "price": 1.5},\n {"name": "Bob"}\n]\n',
                     '{"name": "Ann, x", "price": 1.5}\n{"name": "Bob"}\n', '{"count": 2, "rows": [{"name": "Ann, x", "price": 1.5}, {"name": "Bob"}]}'):
            for encoding in ("utf-8", "utf-8-sig", "utf-16"):
                with self.subTest(text, encoding=encoding):
                    self.assertEqual(self.WANTED, self.table(text.encode(encoding)))
        self.put("t.json", '[{"a": 1}]')
        script, _ = self.prepare("t.json")
        self.assertIn("-- t.json: 1 row of 1 column, read as JSON.\nCREATE TABLE t (", script)

    def test_cells(self):
        values = '[{"a": true, "b": 12345678901234567890123, "c": 1e3, "d": "\\u00e9\\n\\"", "e": {"x": [1, 2.5]}}, {"a": false, "e": [], "f": ""}]'
        self.assertEqual([["a", "b", "c", "d", "e", "f"], ["1", "12345678901234567890123", "1000", 'é\n"', '{"x": [1, 2.5]}', ""], ["0", "", "-1", "", "[]", ""]],
                         self.table(values))

    def test_refused(self):
        for text, sentence in (("[1, 2]", "no list of objects"), ('[{"a": 1}, 2]', "no list of objects"), ('{"a": 1', "can't be read"), ("[[1, 2], [3, 4]]", "no list of objects"),
                               ("[{}]", "no names"), ("[" * 100_000, "JSON"), ('{"a": 1}\n[2]\n', "its lines aren't objects")):
            with self.subTest(text[:12]):
                self.refused(text, 6, sentence)

    def test_a_header_in_brackets(self):
        self.assertEqual([["id", "name"], ["1", "x"]], self.table("[id],[name]\n1,x\n"))


class Reading(InFolder):
    """How records, cells and columns are read, and what the words of the command change."""

    def test_delimiters(self):
        for delimiter in ",;\t|":
            self.assertEqual([["a", "b"], ["x", "1"]], self.table(delimiter.join("ab") + "\n" + delimiter.join("x1") + "\n"))
        self.assertEqual([["a", "b"], ["x", "1"]], self.table("sep=;\na;b\nx;1\n"))
        self.assertEqual([["a", "b"], ["x", "1"]], self.table("a   b\nx     1\n", "--delimiter", "space"))
        self.assertEqual([["a", "b"], ["x", "1"]], self.table("a~b\nx~1\n", "--delimiter", "~"))

    def test_quotes(self):
        self.assertEqual([["a", "b"], ['x "y" z', "1"]], self.table('a,b\n"x ""y"" z",1\n'))
        self.assertEqual([["a", "b"], ['x "y", z', "1"]], self.table('a,b\n"x \\"y\\", z",1\n'))
        self.assertEqual([["a", "b"], ['5" pipe', "1"], ['"6', "2"]], self.table('a\tb\n5" pipe\t1\n"6\t2\n'))
        self.assertEqual([["a", "b"], ["x", "1"]], self.table('"a", "b"\n"x", "1"\n'))
        self.assertEqual([["a", "b"], ["x\ny", "1"]], self.table('a,b\n"x\ny",1\n'))

    def test_row_names(self):
        self.assertEqual([["row", "a", "b"], ["one", "1", "2"], ["two", "3", "4"]], self.table("a b\none 1 2\ntwo 3 4\n", "--delimiter", "space"))
        self.assertEqual([["a", "b"], ["1", "2"], ["3", "4"]], self.table("a,b\n1,2,\n3,4,\n"))

    def test_blanks(self):
        for data in ("name price\nAnn 1\nBob 2\n", "name   price\nAnn    1\nBob   2\nCy and Di 3\n", '"a b" c\n"x y" 1\n', "a b\none 1 2\ntwo 3 4\n"):
            with self.subTest(data):
                self.put("t.csv", data)
                script, told = self.prepare("t.csv")
                self.assertIn("-- There is one column, and most rows have as many words as its name or one more: --delimiter space", script)
                self.assertIn("--delimiter space", told)
                self.assertNotIn("--delimiter space", "".join(self.prepare("t.csv", "--delimiter", ";")))
        for data in ("name\nAnn Lee\nBob Ray\n", "first name\nAnn\nBob\nMary Ann\n", "a b\n", "a b,c\nx y,1\n"):
            with self.subTest(data):
                self.put("t.csv", data)
                self.assertNotIn("--delimiter", "".join(self.prepare("t.csv")))

    def test_a_header_that_is_a_row(self):
        for data, numbers in (("Ann,120\nBob,95\n", "'120'"), ("1.5,x,7\n2.5,y,8\n", "'1.5', '7'"), ("2010,2011\n1,2\n", "'2010', '2011'"), ("-5,a\nNA,b\n3,c\n", "'-5'")):
            with self.subTest(data):
                self.put("t.csv", data)
                script, told = self.prepare("t.csv")
                self.assertIn("-- The header has numbers where the rows have: %s; if it is a row, --no-header keeps it." % numbers, script)
                self.assertIn("--no-header", told)
                self.assertNotIn("--no-header", "".join(self.prepare("t.csv", "--no-header")))
        for data in ("city,2010,2011\nBath,1,2\n", "name,7\nAnn,x\n", "name,120\n", "a,b\n1,2\n"):
            with self.subTest(data):
                self.put("t.csv", data)
                self.assertNotIn("--no-header", "".join(self.prepare("t.csv")))

    def test_no_header(self):
        self.assertEqual([["column_1", "column_2"], ["1", "x"], ["2", "y"]], self.table("1,x\n2,y\n", "--no-header"))

    def test_columns(self):
        header = ",".join("c%d" % n for n in range(1, 301))
        cells = ",".join(map(str, range(1, 301)))
        self.assertEqual([["c300", "c7", "c2"], ["300", "7", "2"]], self.table(header + "\n" + cells + "\n", "--columns", "c300,7,c2"))
        self.refused(header + "\n", 2, "no column d1", "--columns", "c1,d1")
        self.refused(header + "\n", 2, "twice", "--columns", "c1,1")
        self.assertEqual([["a_b"], ["2"]], self.table('x,"a, b"\n1,2\n', "--columns", '"a, b"'))

    def test_null(self):
        data = "a,b\n1,2.5\n,NA\n3,\n"
        self.assertEqual([["a", "b"], ["1", "25"], ["-1", "-10"], ["3", "-10"]], self.table(data))
        self.assertEqual([["a", "b"], ["1", "25"], ["7", "70"], ["3", "70"]], self.table(data, "--null", "7"))
        self.assertEqual([["a", "b"], ["1", "250"], ["-1", "-25"], ["3", "-25"]], self.table(data, "--null", "b=-0.25"))
        self.assertEqual([["a", "b"], ["1", "25"]], self.table(data, "--drop-empty"))
        self.put("t.csv", "a\n1\nNA\n")
        self.assertIn("which 1 other cell is too", self.prepare("t.csv", "--null", "1")[0])
        self.refused(data, 2, "no such column", "--null", "c=1")
        self.refused(data, 2, "no number", "--null", "x")
        self.assertEqual([["a"], ["1"], ["-1"]], self.table("a\n1\nunknown\n", "--missing", "unknown"))

    def test_kinds(self):
        self.assertEqual([["a"], ["1"], ["-1"], ["3"]], self.table("a\n1\nx\n3\n", "--number", "a"))
        self.assertEqual([["a"], ["1.50"]], self.table("a\n1.50\n", "--text", "a"))
        self.assertEqual([["a"], ["501"]], self.table("a\n00501\n", "--number", "a"))
        self.refused("a\nx\n", 2, "no cell", "--number", "a")
        self.assertEqual([["a"], ["NA"], ["x"]], self.table("a\nNA\nx\n"))
        self.assertEqual([["a"], [""], [""]], self.table('a\n""\n""\n'))

    def test_decimals(self):
        self.assertEqual([["a"], ["123"], ["250"]], self.table("a\n1.2345\n2.5\n", "--decimals", "2"))
        self.put("t.csv", "a\n0.125\n0.375\n2\n")
        script, _ = self.prepare("t.csv", "--decimals", "a=2")
        self.assertIn("rounded to 2 decimals, which changes 2 cells", script)
        self.assertEqual("a\n12\n38\n200\n", self.read("t.table.csv"))
        self.put("t.csv", "a\n0.1234567890123456789\n30\n")
        script, _ = self.prepare("t.csv")
        self.assertIn("rounded to 17 decimals, which changes 1 cell", script)
        self.assertEqual("a\n12345678901234568\n3000000000000000000\n", self.read("t.table.csv"))
        self.refused("a\n4000000000000\n", 6, "beyond", "--decimals", "18")
        self.refused("a\n1\n", 2, "--decimals", "--decimals", "19")

    def test_decimal_mark(self):
        self.assertEqual([["a", "b"], ["1234", "x"]], self.table("a;b\n1.234;x\n", "--decimal-mark", "comma"))
        self.assertEqual([["a", "b"], ["1234", "x"]], self.table("a;b\n1,234;x\n"))
        self.assertEqual([["a", "b"], ["1234", "x"]], self.table('a,b\n"1,234",x\n'))

    def test_dates(self):
        self.assertEqual([["d", "d_day"], ["01/02/2000", "10988"]], self.table("d\n01/02/2000\n", "--dates", "dmy"))
        self.assertEqual([["d", "d_day"], ["01/02/2000", "10958"]], self.table("d\n01/02/2000\n", "--dates", "mdy"))
        self.assertEqual([["d"], ["2000-01-01"]], self.table("d\n2000-01-01\n", "--dates", "no"))
        self.assertEqual([["d"], ["2000-02-30"]], self.table("d\n2000-02-30\n"))
        self.assertEqual([["d", "d_day_2", "d_day"], ["2000-01-01", "10957", "7"]], self.table("d,d_day\n2000-01-01,7\n"))

    def test_left_out(self):
        self.put("t.csv", "a,b\n1,2\n3,4,5\n6,7,8\n9,10\n1,2\n")
        script, told = self.prepare("t.csv")
        self.assertIn("-- 2 rows are left out: more fields than the header (lines 3, 4).", script)
        self.assertIn("2 rows are left out", told)

    def test_greatest(self):
        self.put("t.csv", "a\n" + "1\n" * 131_073)
        script, told = self.prepare("t.csv")
        self.assertIn("1 row is left out: a table has 131072 at most", script)
        self.assertEqual(131_073, self.read("t.table.csv").count("\n"))
        self.put("t.csv", "a,n\n" + "".join("%s,%d\n" % ("x" * 1_000_000, n) for n in range(40)))
        script, told = self.prepare("t.csv")
        self.assertIn("7 rows are left out: a table has 32 MiB at most", told)
        self.assertIn("n INT -- 0 to 32", script)
        self.assertLessEqual(len(self.read("t.table.csv")), 33_554_432)

    def test_several_files(self):
        self.put("t.csv", "a,b\n1,x\n")
        self.put("t.tsv", "a\tb\n2\ty\n")
        script, _ = self.prepare("t.csv", "t.tsv")
        self.assertIn("CREATE TABLE t (", script)
        self.assertIn("CREATE TABLE t_2 (", script)
        self.assertIn("high_a_2", script)
        script, told = self.prepare("none.csv", "t.csv", status=3)
        self.assertIn("CREATE TABLE t (", script)
        self.prepare("t.csv", "t.tsv", "--columns", "a", status=2)

    def test_words(self):
        self.prepare(status=2)
        self.prepare("--nothing", status=2)
        self.assertIn("usage:", self.prepare("--help")[0])
        self.put("t.csv", "a\n1\n")
        self.prepare("t.csv", "--delimiter", "ab", status=2)
        self.prepare("t.csv", "--skip", "-1", status=2)


class Cells(unittest.TestCase):
    """The spellings of numbers, dates and names."""

    def test_numbers(self):
        for cell, value in (("12", "12"), (" 12 ", "12"), ("+5", "5"), ("-0.50", "-0.5"), (".5", "0.5"), ("5.", "5"), ("1e3", "1000"), ("1,234,567.8", "1234567.8"),
                            ("1 234", "1234"), ("1'234", "1234"), ("$-5", None), ("-$5", "-5"), ("5 €", "5"), ("50%", "50"), ("\u22125", "-5"), ("1,23", None),
                            ("12,34,567", None), ("", None), (".", None), ("-", None), ("1e", None), ("0x10", None), ("Inf", None), ("1_000", None), ("٣", None),
                            ("1.2.3", None), ("12-34", None), ("$5%", None)):
            number = number_of(cell, "point")
            self.assertEqual(value, number and format(number.value.normalize(), "f"), cell)
        for cell, value in (("1,5", "1.5"), ("1.234,5", "1234.5"), ("1.5", None), ("1.234", "1234"), (",5", "0.5")):
            number = number_of(cell, "comma")
            self.assertEqual(value, number and format(number.value.normalize(), "f"), cell)

    def test_rounding(self):
        for cell, decimals, wanted in (("0.125", 2, 12), ("0.135", 2, 14), ("-0.125", 2, -12), ("1e-30", 5, 0), ("123456789012345678", 0, 123456789012345678)):
            self.assertEqual(wanted, scaled(number_of(cell, "point").value, decimals))

    def test_moments(self):
        for cell, order, wanted in (("1970-01-02", "ymd", (1, 0, False)), ("1970/1/2 01:00", "ymd", (1, 3600, True)), ("31.12.1969", "dmy", (-1, 0, False)),
                                    ("12/31/1969", "mdy", (-1, 0, False)), ("Jan 2 1970", "named", (1, 0, False)), ("2-February-1970", "named", (32, 0, False)),
                                    ("1970-01-01T01:00:00+01:00", "ymd", (0, 0, True)), ("1970-01-01T00:00:30.5Z", "ymd", (0, 30, True)),
                                    ("1970-13-01", "ymd", None), ("1970-01-01 25:00", "ymd", None), ("Foo 1 1970", "named", None), ("0000-01-01", "ymd", None)):
            self.assertEqual(wanted, moment_of(cell, order) and tuple(moment_of(cell, order)), cell)

    def test_names(self):
        for heading, name in (("price", "price"), ("Sepal.Length", "Sepal_Length"), ("", "column_3"), ("Größe", "Grosse"), ("select", "select_"), ("Like", "Like_"),
                              ("2010", "_2010"), ("世界", "column_3"), ("a\nb", "a_b"), ("max", "max"), ("_id", "_id")):
            self.assertEqual(name, plain_name(heading, 3))


if __name__ == "__main__":
    unittest.main()
