"""Tests of `advise`: the reading of plans, what it counts beside what the program counts, its sentences, and its faults."""

import contextlib
import io
import os
import re
import shutil
import subprocess
import sys
import tempfile
import unittest
from unittest import mock

HERE = os.path.dirname(os.path.abspath(__file__))
TOOLS = os.path.dirname(HERE)
ROOT = os.path.dirname(TOOLS)
sys.path.insert(0, TOOLS)

from ranksql_tools.advice import Case, Price, all_advice, cheap_with_index, on_estimates, on_indexes, on_most, on_seeds  # noqa: E402
from ranksql_tools.advise_command import main  # noqa: E402
from ranksql_tools.plans import all_combinations, calls_by_term, read_plan, scanned_terms, shape_of, with_estimates  # noqa: E402
from ranksql_tools.program import find_program  # noqa: E402
from ranksql_tools.queries import indexes_of, key_of_term, read_queries, rows_wanted  # noqa: E402
from ranksql_tools.runner import Failed, Runner, TooLong  # noqa: E402
from ranksql_tools.trials import Copy, Trial  # noqa: E402

PROGRAM = find_program()
COUNTER = os.environ.get("COUNT_CALLS") or os.path.join(ROOT, "crates", "count_calls", "out", "count_calls")
NEEDS_PROGRAM = unittest.skipUnless(PROGRAM, "no program is built: ./ranksql builds it")
NEEDS_COUNTER = unittest.skipUnless(PROGRAM and os.access(COUNTER, os.X_OK), "count_calls isn't built: rt run in crates/count_calls builds it")
PLAN = """\
Rank term 3 est=9 cost=2334 asked=5 gave=5 calls=121
  HashRankJoin est=0 cost=933 asked=121 gave=121
    RankScan hotels h term 1 est=42 cost=84 asked=35 gave=35 drawn=35
    SeqScan "a est=3" m est=36 cost=36 asked=37 gave=36 drawn=36
"""
# Towns of which each has another size, and lies at another place: 2,000 rows.
TOWNS = "name,land,size,east\n" + "".join("t%d,l%d,%d,%d\n" % (n, n % 40, n * 7919 % 10007, n * 104729 % 5003) for n in range(2000))
FRONT = """CREATE TABLE towns (name TEXT, land TEXT, size INT, east INT) FROM 'towns.csv';
CREATE PREDICATE big (size INT) MAX 10007 AS size;
CREATE PREDICATE west (east INT) MAX 5003 COST 40 AS 5003 - east;
CREATE PREDICATE apart (a INT, b INT) MAX 10007 AS ABS(a - b);
"""


def calls_in(text):
    """The calls that a line of advise names, of all predicates."""
    return sum(int(count.replace(",", "")) for count in re.findall(r"([\d,]+) (?:calls? )?of [a-z]", text))


class InFolder(unittest.TestCase):
    """A test that works in a folder with the towns."""

    def setUp(self):
        self.folder = tempfile.mkdtemp(prefix="advise")
        self.addCleanup(shutil.rmtree, self.folder)
        self.put("towns.csv", TOWNS)

    def put(self, name, text):
        with open(os.path.join(self.folder, name), "w", encoding="utf-8") as file:
            file.write(text)

    def advise(self, *words, status=0, folder=None):
        """Runs advise, and gives what it prints and what it tells."""
        out, err = (io.TextIOWrapper(io.BytesIO(), encoding="utf-8") for _ in range(2))
        before = os.getcwd()
        os.chdir(folder or self.folder)
        try:
            with contextlib.redirect_stdout(out), contextlib.redirect_stderr(err):
                ended = main(list(words))
        except SystemExit as ends:
            ended = ends.code
        finally:
            os.chdir(before)
        printed, told = [stream.buffer.getvalue().decode() for stream in (out, err) if stream.flush() is None]
        self.assertEqual(status, ended, told)
        return printed, told

    def of_script(self, script, *words):
        self.put("s.sql", FRONT + script)
        return self.advise("s.sql", *(words or ("--seeds", "1")))[0]


class Reading(unittest.TestCase):
    """Plans and scripts are read."""

    def test_plan(self):
        plan = read_plan(PLAN)
        self.assertEqual(["Rank", "HashRankJoin", "RankScan", "SeqScan"], [operator.word for operator in plan])
        self.assertEqual([0, 1, 2, 2], [operator.depth for operator in plan])
        self.assertEqual([9, 0, 42, 36], [operator.est for operator in plan])
        self.assertEqual({3: 121}, calls_by_term(plan))
        self.assertEqual({1}, scanned_terms(plan))
        self.assertEqual('Rank term 3\n  HashRankJoin\n    RankScan hotels h term 1\n    SeqScan "a est=3" m\n', shape_of(PLAN))
        self.assertRaises(ValueError, read_plan, "1,2,x\n")

    def test_estimates(self):
        """The counts of a plan, with the estimates of another one of its shape."""
        plan = "Rank term 3 est=1 cost=2\n  HashRankJoin est=3 cost=4\n    RankScan hotels h term 1 est=5 cost=6\n    SeqScan \"a est=3\" m est=7 cost=8\n"
        self.assertEqual(shape_of(PLAN), shape_of(plan))
        self.assertEqual('''\
Rank term 3 est=1 cost=2 asked=5 gave=5 calls=121
  HashRankJoin est=3 cost=4 asked=121 gave=121
    RankScan hotels h term 1 est=5 cost=6 asked=35 gave=35 drawn=35
    SeqScan "a est=3" m est=7 cost=8 asked=37 gave=36 drawn=36
''', with_estimates(PLAN, plan))

    def test_combinations(self):
        """All combinations are known where an operator over all tables gave its last row, and no DISTINCT lost rows below it."""
        self.assertIsNone(all_combinations(read_plan(PLAN), 2))
        ended = PLAN.replace("asked=121 gave=121", "asked=122 gave=121")
        self.assertEqual(121, all_combinations(read_plan(ended), 2))
        self.assertIsNone(all_combinations(read_plan(ended), 3))
        scan = "    SeqScan t t est=7 cost=7 asked=8 gave=7 drawn=9\n"
        distinct = "Rank term 1 est=7 cost=9 asked=4 gave=3 calls=3\n  Distinct est=7 cost=7 asked=4 gave=3\n"
        self.assertEqual(7, all_combinations(read_plan(distinct + scan), 1))
        self.assertIsNone(all_combinations(read_plan(distinct + scan.replace("asked=8", "asked=7")), 1))

    def test_queries(self):
        script = FRONT + """CREATE RANK INDEX i ON towns (west(east)); CREATE RANK INDEX j ON towns (apart(size, -5));
        SELECT name FROM towns ORDER BY west(east) LIMIT 3; EXPLAIN SELECT * FROM towns t ORDER BY apart(t.size, -05);
        DECLARE c CURSOR FOR SELECT name FROM towns a, towns b ORDER BY apart(a.size, b.size) LIMIT 7; FETCH 2 FROM c; FETCH 3 FROM c; CLOSE c; FETCH 9 FROM c;
        SELECT size, east FROM towns UNION SELECT east, size FROM towns ORDER BY big(east)"""
        queries = read_queries(script.encode())
        self.assertEqual([3, None, 5, None], [rows_wanted(query) for query in queries])
        keys = [[key_of_term(query, block, query.select.terms[0]) for block in query.select.blocks] for query in queries]
        self.assertEqual([[("towns", "west", ((True, "east"),))], [("towns", "apart", ((True, "size"), (False, "-5")))], [None],
                          [("towns", "big", ((True, "east"),)), ("towns", "big", ((True, "size"),))]], keys)
        self.assertEqual({keys[0][0], keys[1][0]}, set(indexes_of(queries[0])))
        self.assertIsNone(read_queries(b"SELECT"))
        self.assertEqual([], read_queries(b"-- nothing\n"))


class Planner:
    """Stands for the program: it takes the scan of a table where no COST is 2, as the planner does where both cost as much."""

    def start_trials(self, copy, seeds):
        pass

    def trial(self, copy, _):
        if b"COST 2" in copy.script():
            return Trial("RankScan towns towns term 1 est=2000 cost=4000 asked=3 gave=3 drawn=3\n")
        return Trial("Rank term 1 est=2000 cost=4000 asked=3 gave=3 calls=2000\n  SeqScan towns towns est=2000 cost=2000 asked=2001 gave=2000 drawn=2000\n")


class Cost(unittest.TestCase):
    """A COST below that of a rank scan is told where there is an index that isn't taken."""

    def test_cost(self):
        index = "CREATE RANK INDEX i ON towns (big(size)); "
        for given, told in ((index, True), ("", False), (index.replace("size", "east"), False)):
            body = (FRONT + given + "SELECT name FROM towns ORDER BY big(size) LIMIT 3").encode()
            sentences = cheap_with_index(Case(body, read_queries(body)[0], Planner(), [1]))
            self.assertEqual(told, bool(sentences))
            if told:
                self.assertIn("The COST of big is 1", sentences[0])
                self.assertIn("at least COST 2: then the plan makes no calls in the place of 2,000 calls of big.", sentences[0])


class Weighing(unittest.TestCase):
    """What is weighed is COST, by the best seed, and no sentence adds free calls to dear ones."""

    QUERY = "SELECT name FROM towns ORDER BY big(size) + west(east) LIMIT 3"

    def case(self, plans, changed=None, query=QUERY):
        """The case of a query with these calls of its two terms by seed, and with others of a copy that was changed so."""
        body = (FRONT + query).encode()

        class Program:
            """Stands for the program."""

            def start_trials(self, copy, seeds):
                return True

            def trial(self, copy, seed):
                big, west = next((counts for mark, counts in (changed or {}).items() if mark.encode() in copy.script()), plans)[seed]
                return Trial("Rank term 1 est=9 cost=9 asked=3 gave=3 calls=%d\n  Rank term 2 est=9 cost=9 asked=9 gave=9 calls=%d\n"
                             "    SeqScan towns towns est=2000 cost=2000 asked=9 gave=9 drawn=9\n" % (big, west))

            def printed(self, script, seed):
                return "SeqScan towns towns est=2000 cost=2000\n" if b"EXPLAIN" in script else "1,5000\n"

        return Case(body, read_queries(body)[0], Program(), sorted(plans))

    def test_price(self):
        query = read_queries((FRONT + self.QUERY).encode())[0]
        for calls, text in (({}, "no calls"), ({"big": 0}, "no calls"), ({"west": 1}, "1 call of west"), ({"big": 14133, "west": 0}, "14,133 calls of big"),
                            ({"big": 7, "west": 2}, "7 calls of big and 2 of west, which cost 87"), ({"big": 7, "apart": 2}, "7 calls of big and 2 of apart")):
            self.assertEqual(text, Price(calls).text(query))

    def test_seeds(self):
        """A seed is proposed where another one costs more by more than a fifth."""
        for other, told in (((120, 0), False), ((121, 0), True), ((100, 1), True), ((0, 2), True), ((0, 3), False), ((0, 4), True)):
            sentences = on_seeds(self.case({1: other, 2: (100, 0)}))
            self.assertEqual(told, bool(sentences), (other, sentences))
        self.assertEqual(["Take seed 2: its plan makes 116 calls of big, and that of seed 5 2,152,276 calls of big."],
                         on_seeds(self.case({2: (116, 0), 5: (2152276, 0)})))
        # A plan with more calls is the better one where they are free.
        self.assertIn("Take seed 1: its plan makes 390 calls of big", on_seeds(self.case({1: (390, 0), 2: (0, 20)}))[0])

    def test_other_seed(self):
        """A change that helps bad seeds alone isn't proposed, since another seed helps more: a mean over the seeds would say
        862,148 calls in the place of 920,174."""
        plans = {1: (10, 0), 2: (1840338, 0)}
        self.assertEqual([], on_most(self.case(plans, {"MAX 5000": {1: (10, 0), 2: (1724286, 0)}})))
        self.assertEqual([], on_indexes(self.case(plans, {"advised": {1: (10, 0), 2: (2, 0)}})))
        self.assertIn("With MAX 5000 the plan makes 5 calls of big in the place of 10 calls of big with seed 1.",
                      on_most(self.case(plans, {"MAX 5000": {1: (5, 0), 2: (5, 0)}}))[0])

    def test_late_gain(self):
        """An index that pays from the hundredth query on is no advice: 14,133 calls in the place of 10, so it pays from 10,041
        such queries on."""
        self.assertEqual([], on_indexes(self.case({1: (10, 10)}, {"advised": {1: (14133, 10)}})))
        for without, told in (((0, 21), True), ((0, 20), False)):
            sentences = on_indexes(self.case({1: without}, {"(west": {1: (0, 0)}}))
            self.assertEqual(told, any("pays from" in sentence for sentence in sentences), sentences)

    def test_exchange(self):
        """As many calls of another predicate of the same COST, or more of a cheap one than a dear one would cost, are no gain."""
        same = "SELECT name FROM towns ORDER BY big(size) + apart(size, east) LIMIT 3"
        self.assertEqual([], on_indexes(self.case({1: (7, 0)}, {"advised": {1: (0, 7)}}, same)))
        self.assertEqual([], on_most(self.case({1: (7, 0)}, {"MAX 5000": {1: (0, 7)}}, same)))
        self.assertEqual([], on_most(self.case({1: (100, 1)}, {"MAX 5000": {1: (20, 3)}})))
        self.assertIn("makes 100 calls of big in the place of 20 calls of big and 3 of west, which cost 140.",
                      on_most(self.case({1: (20, 3)}, {"MAX 5000": {1: (100, 0)}}))[0])

    def test_small_gain(self):
        """A gain of less than a twentieth is none."""
        for calls, told in ((951, False), (950, True)):
            self.assertEqual(told, bool(on_most(self.case({1: (1000, 0)}, {"MAX 5000": {1: (calls, 0)}}))))

    def test_blind(self):
        """Where the plans are alike, est=0 is told with what they do, and else the seed to take is."""
        case = self.case({1: (7, 0), 2: (7, 0)})
        for trial in case.trials.values():
            trial.operators[0] = trial.operators[0]._replace(est=0)
        self.assertIn("All these seeds lead to 7 calls of big.", on_estimates(case, 9)[0])
        self.assertEqual([], on_estimates(case, 0))
        case = self.case({1: (7, 0), 2: (70, 0)})
        for trial in case.trials.values():
            trial.operators[0] = trial.operators[0]._replace(est=0)
        self.assertNotIn("lead to", on_estimates(case, 9)[0])
        self.assertEqual(["With seeds 1, 2 an operator", "Take seed 1: its plan makes"], [sentence[:27] for sentence in all_advice(case, None)[:2]])


class Runs(InFolder):
    """Which runs are made, by a program of a shell that writes down what it runs."""

    def runner(self, seconds=20):
        """It chooses one plan by odd seeds and another one by even ones. A script of the word `wrong` ends with status 7, and one of the
        word `endless` never."""
        program = os.path.join(self.folder, "program")
        self.put("program", f"""#!/bin/sh
grep -q wrong "$2" && {{ echo bad >&2; exit 7; }}
grep -q endless "$2" && exec sleep 100
analyzed=$(grep -c ANALYZE "$2")
[ "$analyzed" = 1 ] && {{ echo "$3" >>{self.folder}/analyzed; done=' asked=3 gave=3 drawn=3'; }}
echo "SeqScan towns t$(($3 % 2)) est=$3 cost=9$done"
""")
        os.chmod(program, 0o755)
        return Runner(program, seconds)

    def copy(self, alias="t"):
        body = (FRONT + f"SELECT name FROM towns {alias} ORDER BY big(size) LIMIT 3").encode()
        return Copy(body, read_queries(body)[0])

    def test_shapes(self):
        """A plan of each shape is run once, and each seed has its own estimates."""
        runner, copy = self.runner(), self.copy()
        self.assertTrue(runner.start_trials(copy, [1, 2, 3, 4, 5]))
        texts = [runner.trial(copy, seed).text for seed in (1, 2, 3, 4, 5)]
        self.assertEqual([f"SeqScan towns t{seed % 2} est={seed} cost=9 asked=3 gave=3 drawn=3\n" for seed in (1, 2, 3, 4, 5)], texts)
        with open(os.path.join(self.folder, "analyzed"), encoding="utf-8") as file:
            self.assertEqual(["1", "2"], sorted(file.read().split()))

    def test_faults(self):
        runner, copy = self.runner(), self.copy("wrong")
        self.assertFalse(runner.start_trials(copy, [1, 2]))
        with self.assertRaises(Failed) as fault:
            runner.trial(copy, 1)
        self.assertEqual((7, "bad"), (fault.exception.status, fault.exception.line))
        self.assertRaises(TooLong, self.runner(0.2).trial, self.copy("endless"), 1)

    def test_drop(self):
        """What runs or waits is ended, and runs anew where it is asked for again."""
        runner = self.runner()
        waiting = [runner.start(b"endless %d" % number, 1) for number in range(9)]
        runner.drop()
        for run in waiting:
            self.assertIsNotNone(run.exception(timeout=20))
        self.assertEqual("SeqScan towns t1 est=1 cost=9\n", runner.printed(b"EXPLAIN", 1))


@NEEDS_PROGRAM
class Counts(InFolder):
    """What advise counts is what the program does."""

    def test_evening(self):
        printed, _ = self.advise("examples/travel/evening.sql", folder=ROOT)
        for line in ("121 calls of near", "  sample: 24 calls of cheap, 24 of tasty and 576 of near, which cost 1,776", "  index by_price, once in a run: 42 calls of cheap",
                     "  index by_rating, once in a run: 41 calls of tasty",
                     "  plain: 1,260 calls of cheap, 1,260 of tasty and 1,260 of near, which cost 6,300, one for each term and each of 1,260 combinations"):
            self.assertIn(line, printed)
        self.assertEqual(["  - Take seed 2: its plan makes 121 calls of near, and that of seed 1 385 calls of near."],
                         [line for line in printed.splitlines() if line.startswith("  - ")])

    @NEEDS_COUNTER
    def test_totals(self):
        """The indexes, the sample and the plan together are the calls of `run`, and the indexes and the plain calls those of `plain`."""
        index = "CREATE RANK INDEX i ON towns (big(size));\n"
        for query in ("SELECT name FROM towns ORDER BY big(size) + west(east) LIMIT 3", "SELECT name FROM towns WHERE size > 500 ORDER BY west(east)",
                      "SELECT a.name FROM towns a, towns b WHERE a.land = b.land AND a.size < 40 ORDER BY apart(a.size, b.east) + big(a.size) LIMIT 2",
                      "SELECT DISTINCT land, size FROM towns ORDER BY big(size) + big(size) LIMIT 4",
                      "SELECT size, east FROM towns UNION SELECT east, size FROM towns WHERE size < 300 ORDER BY big(east) + apart(size, east) LIMIT 5",
                      "SELECT size FROM towns INTERSECT SELECT east FROM towns ORDER BY big(size) LIMIT 5"):
            for front in ("", index):
                with self.subTest(front + query):
                    printed = self.of_script(front + query + ";", "--seeds", "3")
                    made = {line.split(":")[0].split()[0]: 0 for line in printed.splitlines()[1:] if re.match(r"  \w", line)}
                    for line in printed.splitlines()[1:]:
                        if re.match(r"  \w", line):
                            made[line.split(":")[0].split()[0]] += calls_in(line.split(":", 1)[1])
                    indexes = 2000 if front else 0
                    self.assertEqual(self.counted("run", "s.sql", "3"), indexes + made["sample"] + made["plan"])
                    self.assertEqual(self.counted("plain", "s.sql"), indexes + made["plain"])

    def counted(self, *words):
        ended = subprocess.run([COUNTER, *words], cwd=self.folder, stdout=subprocess.DEVNULL, stderr=subprocess.PIPE, check=True)
        return int(ended.stderr.split()[1])


@NEEDS_PROGRAM
class Sentences(InFolder):
    """Each sentence comes where it should, with numbers of runs."""

    def test_index(self):
        printed = self.of_script("SELECT name FROM towns ORDER BY west(east) LIMIT 3;")
        self.assertIn("There is no rank index for term 1. CREATE RANK INDEX towns_west ON towns (west(east)) makes 2,000 calls once, and then the"
                      " plan makes no calls in the place of 2,000 calls of west, so it pays from 2 such queries on.", printed)

    def test_estimates(self):
        printed = self.of_script("SELECT a.name FROM towns a, towns b, towns c WHERE a.name = b.name AND b.name = c.name ORDER BY west(a.east) + big(c.size) LIMIT 3;")
        self.assertIn("an operator has est=0", printed)

    def test_sample(self):
        printed = self.of_script("SELECT a.name FROM towns a, towns b WHERE a.land = b.land ORDER BY apart(a.size, b.size) LIMIT 3;")
        self.assertIn("Term 1 reads 2 tables, so the sample alone calls apart 4,096 times", printed)

    def test_most(self):
        loose = FRONT.replace("MAX 10007", "MAX 1000000", 1)
        self.put("s.sql", loose + "CREATE RANK INDEX i ON towns (west(east)); SELECT name FROM towns ORDER BY big(size) + 20 * west(east) LIMIT 3;")
        printed, _ = self.advise("s.sql", "--seeds", "1,2")
        self.assertRegex(printed, r"The MAX of big is 1000000, and no row of these tables scores above 10006\. With MAX 10006 the plan makes")

    def test_plain(self):
        printed = self.of_script("SELECT name FROM towns WHERE size < 20 ORDER BY big(size) LIMIT 3;")
        self.assertIn("`plain` is cheaper here", printed)

    def test_cursor(self):
        printed = self.of_script("DECLARE c CURSOR FOR SELECT name FROM towns ORDER BY west(east); FETCH 3 FROM c; FETCH 4 FROM c;")
        self.assertIn("cursor c with 7 rows fetched", printed)
        self.assertIn("asked=7", printed)


class Faults(InFolder):
    """What advise ends with."""

    @NEEDS_PROGRAM
    def test_scripts(self):
        self.assertIn("no script none.sql", self.advise("none.sql", status=3)[1])
        self.advise(".", status=3)
        self.put("s.sql", "SELECT a FROM t")
        self.assertIn("script: parse Expected at 15", self.advise("s.sql", status=5)[1])
        self.put("s.sql", "SELECT a FROM t ORDER BY p(a)")
        self.assertIn("script: bind NoTable at 14", self.advise("s.sql", status=5)[1])
        self.put("s.sql", FRONT.replace("towns.csv", "none.csv") + "SELECT name FROM towns ORDER BY big(size);")
        self.assertIn("read: none.csv: missing", self.advise("s.sql", status=3)[1])
        self.put("s.sql", FRONT.replace("MAX 10007", "MAX 10") + "SELECT name FROM towns ORDER BY big(size);")
        self.assertIn("score: big rows", self.advise("s.sql", status=7)[1])
        self.put("s.sql", "-- nothing")
        self.assertIn("has no query", self.advise("s.sql")[1])

    @NEEDS_PROGRAM
    def test_words(self):
        self.put("s.sql", FRONT + "SELECT name FROM towns ORDER BY big(size);")
        for words in ((), ("s.sql", "--seeds", "x"), ("s.sql", "--seeds", ""), ("s.sql", "--query", "2"), ("s.sql", "--seconds", "0")):
            self.advise(*words, status=2)
        self.assertIn("usage:", self.advise("--help")[0])
        self.assertIn("took more than", self.advise("s.sql", "--seconds", "0.000001", status=1)[1])

    def test_no_program(self):
        with mock.patch("ranksql_tools.advise_command.find_program", return_value=None):
            self.assertIn("program", self.advise("s.sql", status=70)[1])


if __name__ == "__main__":
    unittest.main()
