"""Tests of ./install, with small programs in the place of ranksql and ranksql_ask."""

import os
import shutil
import stat
import subprocess
import tempfile
import unittest

ROOT = os.path.dirname(os.path.dirname(os.path.dirname(os.path.abspath(__file__))))
INSTALL = os.path.join(ROOT, "install")


class Install(unittest.TestCase):
    def setUp(self):
        self.folder = tempfile.mkdtemp()
        self.addCleanup(shutil.rmtree, self.folder)
        self.program, self.asking = os.path.join(self.folder, "program"), os.path.join(self.folder, "asking")
        # Without words it says which words there are, as the program does.
        self.write(self.program, '#!/bin/sh\n[ $# = 0 ] && set -- "ranksql run SCRIPT SEED, plain SCRIPT" || set -- "of $*"\necho "usage: $1" >&2\nexit 2\n')
        self.write(self.asking, "#!/bin/sh\nexit 5\n")
        for program in (self.program, self.asking):
            os.chmod(program, 0o755)
        self.prefix = os.path.join(self.folder, "a prefix's $PLACE")

    @staticmethod
    def write(path, text):
        with open(path, "w", encoding="utf-8") as file:
            file.write(text)

    def install(self, *words, **environment):
        ended = subprocess.run([INSTALL, *words], cwd=self.folder, capture_output=True, text=True, timeout=60,
                               env={**os.environ, "RANKSQL": self.program, "RANKSQL_ASK": self.asking, **environment})
        return ended.returncode, ended.stdout, ended.stderr

    def files(self):
        """Everything below the prefix, as paths."""
        return sorted(os.path.relpath(os.path.join(path, name), self.prefix)
                      for path, folders, names in os.walk(self.prefix) for name in [*folders, *names])

    def test_put_and_taken_away(self):
        status, out, said = self.install(self.prefix)
        self.assertEqual(status, 0, said)
        self.assertIn("ranksql-why", out)
        self.assertIn("not among the folders of PATH", out)
        files = self.files()
        self.assertIn("ranksql(1) and ranksql_ask(1)", out)
        for name in ("bin/ranksql", "bin/ranksql_ask", "bin/ranksql-why", "bin/ranksql-prepare", "bin/ranksql-advise", "lib/ranksql/why",
                     "share/man/man1/ranksql.1", "share/man/man1/ranksql_ask.1"):
            self.assertIn(name, files)
        for name, status in (("ranksql", 2), ("ranksql_ask", 5)):
            self.assertTrue(os.stat(os.path.join(self.prefix, "bin", name)).st_mode & stat.S_IXUSR)
            self.assertEqual(subprocess.run([os.path.join(self.prefix, "bin", name)], capture_output=True).returncode, status)
        self.assertEqual([name for name in files if ".ranksql." in name], [])
        status, out, said = self.install("--remove", self.prefix)
        self.assertEqual((status, said), (0, ""))
        self.assertFalse(os.path.exists(self.prefix))

    def test_the_installed_helper_finds_the_program(self):
        self.install(self.prefix)
        environment = {name: value for name, value in os.environ.items() if name != "RANKSQL"}
        why = os.path.join(self.prefix, "bin", "ranksql-why")
        ended = subprocess.run([why, "run", "x.sql"], capture_output=True, text=True, cwd=self.folder, env=environment)
        self.assertEqual((ended.returncode, ended.stdout), (2, ""))
        self.assertTrue(ended.stderr.startswith("usage: of run x.sql\n"), ended.stderr)
        self.assertEqual(self.install("--remove", self.prefix)[0], 0)
        self.assertFalse(os.path.exists(self.prefix))

    def test_twice(self):
        self.assertEqual(self.install(self.prefix)[0], 0)
        files = self.files()
        self.write(self.program, "#!/bin/sh\nexit 3\n")
        status, _, said = self.install(self.prefix)
        self.assertEqual((status, said), (0, ""))
        self.assertEqual(self.files(), files)
        self.assertEqual(subprocess.run([os.path.join(self.prefix, "bin", "ranksql")]).returncode, 3)
        self.assertEqual(self.install("--remove", self.prefix)[0], 0)
        self.assertFalse(os.path.exists(self.prefix))
        status, _, said = self.install("--remove", self.prefix)
        self.assertEqual(status, 1)
        self.assertIn("nothing was put into", said)

    def test_what_is_not_its_own_stays(self):
        other = os.path.join(self.prefix, "bin", "ranksql")
        os.makedirs(os.path.dirname(other))
        self.write(other, "another program")
        status, _, said = self.install(self.prefix)
        self.assertEqual(status, 1)
        self.assertIn("is not from this script; nothing was put into", said)
        self.assertEqual(self.files(), ["bin", "bin/ranksql"])
        os.remove(other)
        beside = os.path.join(self.prefix, "bin", "other")
        self.write(beside, "another program")
        self.assertEqual(self.install(self.prefix)[0], 0)
        changed = os.path.join(self.prefix, "share/man/man1/ranksql.1")
        self.write(changed, "a page of somebody else")
        status, _, said = self.install("--remove", self.prefix)
        self.assertEqual(status, 0)
        self.assertIn("was changed since, and stays", said)
        self.assertEqual(self.files(), ["bin", "bin/other", "share", "share/man", "share/man/man1", "share/man/man1/ranksql.1"])

    def test_a_prefix_that_cannot_be_written(self):
        self.write(self.prefix, "a file")
        status, out, said = self.install(self.prefix)
        self.assertEqual((status, out), (1, ""))
        self.assertIn("name a PREFIX that you may write", said)

    def test_the_home_folder(self):
        status, _, said = self.install(HOME=self.folder)
        self.assertEqual(status, 0, said)
        self.assertTrue(os.path.exists(os.path.join(self.folder, ".local", "bin", "ranksql")))
        self.assertEqual(self.install("--remove", HOME=self.folder)[0], 0)
        self.assertFalse(os.path.exists(os.path.join(self.folder, ".local")))

    def test_a_relative_prefix(self):
        self.assertEqual(self.install("here")[0], 0)
        self.assertTrue(os.path.exists(os.path.join(self.folder, "here", "bin", "ranksql")))
        self.assertEqual(self.install("--remove", "here")[0], 0)

    def test_words(self):
        self.assertEqual(self.install("--help")[0::2], (0, ""))
        for words in (["--nothing"], ["a", "b"], [""], ["--remove", "a", "b"]):
            status, out, said = self.install(*words)
            self.assertEqual((status, out), (2, ""))
            self.assertIn("usage: ./install", said)

    def test_no_program(self):
        for variable in ("RANKSQL", "RANKSQL_ASK"):
            for named in ("/no/such/program", self.folder):
                status, _, said = self.install(self.prefix, **{variable: named})
                self.assertEqual(status, 1)
                self.assertIn(f"there is no program {named}", said)
                self.assertFalse(os.path.exists(self.prefix))


if __name__ == "__main__":
    unittest.main()
