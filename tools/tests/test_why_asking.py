"""Tests of `why` in the place of ranksql_ask: each line of it has a sentence, and the program's end is passed on."""

import os
import shutil
import subprocess
import sys
import tempfile
import unittest

HERE = os.path.dirname(os.path.abspath(__file__))
TOOLS = os.path.dirname(HERE)
sys.path.insert(0, TOOLS)

from ranksql_tools import word_forms  # noqa: E402
from ranksql_tools.explain import asking_explanation  # noqa: E402
from ranksql_tools.program import find_program  # noqa: E402

WHY = os.path.join(TOOLS, "why")
ASKING = find_program("ranksql_ask")
NEEDS_ASKING = unittest.skipUnless(ASKING, "no ranksql_ask is built: ./ranksql_ask builds it")
SCRIPT = b"""CREATE TABLE t (n INT, v INT) FROM 't.csv';
CREATE PREDICATE cheap (v INT) MAX 10 AS v;
CREATE PREDICATE dear (n INT) MAX 5 COST 1000 AS 2;
SELECT n FROM t ORDER BY cheap(v) + dear(n) LIMIT 2;
"""
WORDS = ["dear", "s.csv", "questions", "answers.txt", "run", "s.sql", "1"]
COUNTS = "calls=4 questions=1 known=0\n"
# What the program says, with the file of scores there, and parts of what is said of it.
LINES = [
    (word_forms.usage("ranksql_ask") + "\n", "", ["The form is"]),
    ("scores: s.csv: NotEnded\n", "dear,1,5", ["no line feed", "Take this record away"]),
    ("scores: s.csv: InUse\n", "", ["Another run of ranksql_ask has this file of scores open"]),
    ("scores: s.csv: FieldCount record 2 found 2\n", "dear,1,5\ndear,2\n", ["   2 | dear,2", "3 to 10 fields. This one has 2."]),
    ("scores: s.csv: NotAsked record 1\n", "near,1,5\n", ["   1 | near,1,5", "     | ^", "`near` isn't among NAMES, which are dear."]),
    ("scores: s.csv: NotScore record 1\n", "dear,1,x\n", ["     |        ^", "a whole number of digits alone"]),
    ("scores: s.csv: NotUtf8 record 1 field 2\n", "dear,\udcff,4\n", ["     |      ^", "isn't UTF-8"]),
    ("scores: s.csv: Twice record 2\n", "dear,1,5\ndear,1,4\n", ["   2 | dear,1,4", "stands further up too"]),
    ("scores: s.csv: Twice record 9\n", "dear,1,5\n", ["has changed"]),
    ("ask: no predicate deer\n", "", ["nothing would be asked for it", "Did you mean dear?"]),
    ("ask: no predicate other\n", "", ["It makes cheap, dear."]),
    ("ask: QUESTIONS is standard output\n", "", ["QUESTIONS is standard output: ", "a path of its own"]),
    ("ask: QUESTIONS and SCORES are one file\n", "", ["QUESTIONS and SCORES are one file: "]),
    ("ask: ANSWERS and QUESTIONS are one file\n", "", ["ANSWERS and QUESTIONS are one file: "]),
    ("read: answers.txt: missing\n", "", ["ANSWERS names answers.txt, which isn't there.", "mkfifo answers.txt"]),
    ("read: answers.txt: failed\n", "", ["ANSWERS can't be opened"]),
    ("read: s.csv: failed\n", "", ["SCORES can't be read"]),
    ("read: s.csv: too long\n", "", ["33,554,432 bytes"]),
    ("read: s.sql: missing\n" + COUNTS, "", ["There is no script s.sql here"]),
    ("write\n", "", ["can't be opened to be written"]),
    ("write: not kept:\ndear,1,5\n", "", ["This score was paid for", "behind the last one of s.csv"]),
    ("probe: dear: read\n" + COUNTS, "", ["ANSWERS could not be read"]),
    ("probe: dear: more than 64 bytes\n" + COUNTS, "", ["isn't a whole number"]),
    ("probe: dear\n" + COUNTS, "", ["No answer came to a question of dear"]),
    ("probe: dear: closed\n" + COUNTS, "", ["its answers have ended.", "ask only for the rest"]),
    ('probe: dear: "50.0" is no whole number\n' + COUNTS, "", ["isn't a whole number", "power of ten"]),
    ("score: dear rows 1: 77 is not in 0..5\n" + COUNTS, "", ["The score 77 of dear", "above MAX 5", "take its record away"]),
    ("score: 77 is not in 0..5: dear,1\n" + COUNTS, "", ["The score 77 of dear", "above MAX 5", "isn't kept"]),
    ('score: -2 is not in 0..5: dear,"a\nb"\n' + COUNTS, "", ["The score -2 of dear", "below 0", "isn't kept"]),
    ("score: cheap rows 1: 12 is not in 0..10\n" + COUNTS, "", ["The score of cheap"]),
    ("session: Unknown c\n" + COUNTS, "", ["No cursor c is open here"]),
    ("differs\n", "", ["No case of this is known"]),
    ("memory\n" + COUNTS, "", ["not enough memory"]),
]


class InFolder(unittest.TestCase):
    def setUp(self):
        self.folder = tempfile.mkdtemp()
        self.addCleanup(shutil.rmtree, self.folder)
        before = os.getcwd()
        self.addCleanup(os.chdir, before)
        os.chdir(self.folder)
        self.write("s.sql", SCRIPT)
        self.write("t.csv", b"n,v\n1,10\n2,8\n3,1\n")

    @staticmethod
    def write(name, content):
        with open(name, "wb") as file:
            file.write(content)


class Lines(InFolder):
    def test_each_line_has_a_sentence(self):
        for said, scores, parts in LINES:
            with self.subTest(said):
                self.write("s.csv", scores.encode("utf-8", "surrogateescape"))
                made = "\n".join(asking_explanation(said[:-1], WORDS, SCRIPT))
                for part in parts:
                    self.assertIn(part, made)
                self.assertTrue(made.endswith((".", "?")), made)

    def test_words(self):
        for words, part in (
            (["dear,,near", *WORDS[1:]], "NAMES are names"), (["dear, near", *WORDS[1:]], "NAMES are names"), (["dear,dear", *WORDS[1:]], "each once"),
            ([*WORDS[:4], "plain", "s.sql", "1"], "has no seed"), (WORDS[:6], "The seed is missing"), ([*WORDS[:6], "x"], "`x` is none"),
            ([*WORDS[:4], "view", "s.sql"], "Another word isn't there"),
        ):
            with self.subTest(words):
                self.assertIn(part, asking_explanation(word_forms.usage("ranksql_ask"), words, SCRIPT)[0])


@NEEDS_ASKING
class Program(InFolder):
    """Runs of the program through `why`."""

    @staticmethod
    def run_why(*words, **given):
        ended = subprocess.run([WHY, *words], env={**os.environ, "RANKSQL_ASK": ASKING}, capture_output=True, timeout=60, check=False, **given)
        return ended.returncode, ended.stdout.decode(), ended.stderr.decode()

    def test_a_good_run(self):
        self.write("answers.txt", b"1\n5\n0\n")
        status, out, said = self.run_why("dear", "s.csv", "/dev/null", "answers.txt", "plain", "s.sql")
        # 10 and 1, 8 and 5, 1 and 0.
        self.assertEqual((status, out), (0, "1,13,2\n2,11,1\n"))
        self.assertEqual((said.count("\n"), said.startswith("calls=")), (1, True))
        with open("s.csv", encoding="ascii") as file:
            self.assertEqual(file.read(), "dear,1,1\ndear,2,5\ndear,3,0\n")

    def test_descriptors_are_handed_on(self):
        reading, writing = os.pipe()
        os.write(writing, b"1\n5\n0\n")
        os.close(writing)
        status, out, _ = self.run_why("dear", "s.csv", "/dev/null", f"/dev/fd/{reading}", "plain", "s.sql", pass_fds=(reading,))
        os.close(reading)
        self.assertEqual((status, out), (0, "1,13,2\n2,11,1\n"))

    def test_faults(self):
        self.write("answers.txt", b"1\n5.5\n")
        status, out, said = self.run_why("dear", "s.csv", "/dev/null", "answers.txt", "plain", "s.sql")
        self.assertEqual((status, out), (8, ""))
        self.assertIn("question of dear", said)
        for content, status, part in (
            (b"dear,1,5", 6, "no line feed"), (b"dear,1,5,7\n", 0, ""), (b"dear,1\n", 6, "This one has 2"), (b"cheap,1,5\n", 6, "isn't among NAMES"),
            (b"dear,1,5.0\n", 6, "whole number"), (b"dear,1,5\ndear,1,4\n", 6, "further up too"), (b"dear,1,6\n", 7, "above MAX 5"),
            (b"dear,1,-1\n", 7, "below 0"),
        ):
            with self.subTest(content):
                self.write("s.csv", content)
                self.write("answers.txt", b"1\n5\n0\n")
                ended, _, said = self.run_why("dear", "s.csv", "/dev/null", "answers.txt", "run", "s.sql", "1")
                self.assertEqual(ended, status, said)
                self.assertIn(part, said)

    def test_no_program(self):
        ended = subprocess.run([WHY, *WORDS], env={**os.environ, "RANKSQL_ASK": "/no/such/program"}, capture_output=True, check=False)
        self.assertEqual((ended.returncode, ended.stdout), (70, b""))
        self.assertIn(b"RANKSQL_ASK", ended.stderr)


if __name__ == "__main__":
    unittest.main()
