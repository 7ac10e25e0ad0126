"""Tests of the scripts `ranksql` and `ranksql_ask`, with a small program in the place of the kit's command rt."""

import os
import re
import shutil
import subprocess
import tempfile
import unittest

ROOT = os.path.dirname(os.path.dirname(os.path.dirname(os.path.abspath(__file__))))

RT = """#!/bin/sh
for crate in low high ranksql; do
    echo "crate $crate: proved"
done
{END}
"""
PROGRAM = """name=${PWD##*/}
mkdir -p out && printf '#!/bin/sh\\necho %s "$@"\\n' "$name" >"out/$name" && chmod +x "out/$name"
echo "$*" >words
"""


class Build(unittest.TestCase):
    def setUp(self):
        self.folder = tempfile.mkdtemp()
        self.addCleanup(shutil.rmtree, self.folder)
        for name in ("ranksql", "ranksql_ask", "tools/build_and_run"):
            os.makedirs(os.path.dirname(self.path(name)), exist_ok=True)
            shutil.copy(os.path.join(ROOT, name), self.path(name))
        for crate in ("low", "high", "ask", "other", "ranksql", "ranksql_ask"):
            os.makedirs(self.path(f"crates/{crate}/src"))
            self.write(f"crates/{crate}/src/lib.rt", "")
        os.mkdir(self.path("bin"))
        self.write("crates.txt", "ranksql: high low\nlow:\nhigh: low\nother: low\nask:\nranksql_ask: low ask # last\n")

    def path(self, name):
        return os.path.join(self.folder, name)

    def write(self, name, text):
        with open(self.path(name), "w", encoding="utf-8") as file:
            file.write(text)
        os.chmod(self.path(name), 0o755)

    def is_newer(self, name):
        """Makes a file that was written later than all others."""
        later = max(os.stat(os.path.join(path, file)).st_mtime for path, _, files in os.walk(self.folder) for file in files) + 2
        os.utime(self.path(name), (later, later))

    def run_script(self, name="ranksql", *words):
        path = self.path("bin") + os.pathsep + os.environ["PATH"]
        ended = subprocess.run([self.path(name), *(words or ("a", "b c"))], capture_output=True, text=True, timeout=60,
                               env={**os.environ, "PATH": path})
        return ended.returncode, ended.stdout, ended.stderr

    def test_a_first_build_says_what_takes_how_long(self):
        self.write("bin/rt", RT.replace("{END}", PROGRAM))
        status, out, said = self.run_script()
        self.assertEqual((status, out), (0, "ranksql a b c\n"))
        self.assertIn("there is no program yet", said)
        self.assertIn("3 crates are proved, one after another", said)
        self.assertIn("unproved", said)
        crates = re.findall(r"crate (\d) of 3: (\w+)(; \w+ took \d+ s, all so far \d+ s)?\n", said)
        self.assertEqual([crate[:2] for crate in crates], [("1", "low"), ("2", "high"), ("3", "ranksql")])
        self.assertEqual(crates[0][2], "")
        self.assertTrue(crates[1][2].startswith("; low took "))
        self.assertRegex(said, r"all 3 crates are proved; ranksql took \d+ s")
        # What is built is only run.
        self.assertEqual(self.run_script(), (0, "ranksql a b c\n", ""))

    def test_the_program_that_asks(self):
        self.write("bin/rt", RT.replace("{END}", PROGRAM))
        status, out, said = self.run_script("ranksql_ask")
        self.assertEqual((status, out), (0, "ranksql_ask a b c\n"))
        self.assertIn("ranksql_ask: 3 crates are proved", said)
        with open(self.path("crates/ranksql_ask/words"), encoding="utf-8") as file:
            self.assertEqual(file.read(), "run -- fits out/trial.scores /dev/null out/trial.answers plain out/trial.sql\n")
        self.assertEqual(self.run_script("ranksql_ask"), (0, "ranksql_ask a b c\n", ""))
        self.assertFalse(os.path.exists(self.path("crates/ranksql/out")))

    def test_a_build_without_a_run(self):
        self.write("bin/rt", RT.replace("{END}", PROGRAM))
        status, out, said = self.run_script("tools/build_and_run", "--build", "ranksql_ask")
        self.assertEqual((status, out), (0, ""))
        self.assertIn("is built first", said)
        self.assertEqual(self.run_script("tools/build_and_run", "--build", "ranksql_ask"), (0, "", ""))

    def test_a_source_that_is_newer(self):
        self.write("bin/rt", RT.replace("{END}", PROGRAM))
        self.run_script()
        for name, is_of_it in (("low/src/lib.rt", True), ("high/src/lib.rt", True), ("other/src/lib.rt", False), ("ask/src/lib.rt", False)):
            with self.subTest(name):
                self.is_newer(f"crates/{name}")
                status, out, said = self.run_script()
                self.assertEqual((status, out), (0, "ranksql a b c\n"))
                self.assertEqual("the program is older than its sources, and is built first" in said, is_of_it, said)
                self.is_newer("crates/ranksql/out/ranksql")

    def test_through_links(self):
        self.write("bin/rt", RT.replace("{END}", PROGRAM))
        os.symlink("../ranksql_ask", self.path("bin/other"))
        os.symlink("bin/other", self.path("link"))
        status, out, _ = self.run_script("link")
        self.assertEqual((status, out), (0, "ranksql_ask a b c\n"))

    def test_a_build_that_fails(self):
        self.write("bin/rt", RT.replace("{END}", "exit 1"))
        for name in ("ranksql", "ranksql_ask"):
            status, out, said = self.run_script(name)
            self.assertEqual((status, out), (70, ""))
            self.assertIn(f"{name}: the build failed", said)


if __name__ == "__main__":
    unittest.main()
