"""Tests of `reference` and of the rules that the gate asks of sources and documents: a small house, and one fault after another in it."""

import os
import re
import subprocess
import sys
import tempfile
import time
import unittest

HERE = os.path.dirname(os.path.abspath(__file__))
TOOLS = os.path.dirname(HERE)
ROOT = os.path.dirname(TOOLS)
sys.path.insert(0, TOOLS)

from ranksql_tools.house import House  # noqa: E402
from ranksql_tools.house_rules import faults_of  # noqa: E402
from ranksql_tools.reference_pages import Pages  # noqa: E402

FILES = {
    "crates.txt": "# NAME: what it stands on\n\n# low: what others stand on\nrs_low:\n\n# high: what stands on them\nrs_high: rs_low\n",
    "crates/rs_low/src/lib.rt": (
        "//! Doors. They open.\n//!\n//! Its promise: a door opens once.\n#![tactic(auto)]\n\n"
        "mod door;\n\npub use door::{Door, DoorFault, KeyFault, doors_open, number_of};\n"),
    "crates/rs_low/src/door.rt": (
        "ghost use Rattle.rs_low.specs.Doors.{opened, number_of as digits};\n\n"
        "/// Why a door stays shut.\npub enum DoorFault {\n    /// Another key is wanted.\n    Key(KeyFault),\n    Rust,\n}\n\n"
        "pub enum KeyFault {\n    Lost,\n    Bent { by: u8 },\n}\n\n"
        "/// A door.\npub trait Door {\n    /// Opens it.\n    ///\n    /// # Errors\n    ///\n"
        "    /// - `Lost`, `Bent`: where the key is so.\n    /// - `Rust`: in winter,\n    ///   and never else.\n"
        "    fn open(&mut self) -> Result<(), DoorFault>\n        // It opens.\n        ensures opens { opened self.new }\n"
        "        ensures { opened self.new };\n}\n\n"
        "/// The number on a door.\n///\n/// # Errors\n///\n/// - `None`: exactly where there is none.\n"
        "pub fn number_of(name: &str) -> Option<u8>\n    requires { digits name.now }\n    ensures value { result ≡ digits name.now }\n{\n    None\n}\n\n"
        "/// Doors open.\npub fn doors_open()\n    ensures each { (d : Door) → opened d }\n{}\n"),
    "crates/rs_low/specs/Lib.antt": "pub mod Doors\npub mod Numbers\n",
    "crates/rs_low/specs/Doors.antt": (
        "-- What doors are.\nuse Rattle.rs_low.specs.Numbers.{even}\n\n-- a door that is open\nabbrev pub opened : Door → Type 0\nopened d = even 2\n\n"
        "-- the number\nabbrev pub number_of : List ℕ → ℕ\nnumber_of name = 1\n"),
    "crates/rs_low/specs/Numbers.antt": "-- Numbers.\n\nabbrev mutual\n  -- whether it is even\n  pub even : ℕ → Bool\n  even n = odd n\n\n  pub odd : ℕ → Bool\n  odd n = even n\n",
    "crates/rs_high/src/lib.rt": (
        "//! Houses.\n//!\n//! Its promise: a house has a door.\n\nuse rs_low::{Door, DoorFault};\n\n/// A house.\npub struct House {\n    doors: u8,\n}\n\n"
        "impl House {\n    /// Opens the first door.\n    ///\n    /// # Errors\n    ///\n    /// - `Rust`: never.\n    /// - Those of `Door::open`: where it is shut.\n"
        "    pub fn enter(&mut self) -> Result<Option<u8>, DoorFault> {\n        Ok(None)\n    }\n\n    fn private(&self) -> Option<u8> {\n        None\n    }\n}\n\n"
        "impl Door for House {\n    fn open(&mut self) -> Result<(), DoorFault> {\n        Ok(())\n    }\n}\n"),
    "crates/rs_low/proofs/DoorFacts.antt": "-- lemmas\n",
    "crates/rs_high/proofs/enter/Answers.antt": "use Rattle.rs_low.proofs.DoorFacts.{opens}\nuse Rattle.rs_low.proofs.Made.{more}\n",
    "README.md": "[`number_of` `value`](crates/rs_low/src/door.rt), [`Door::open` `opens`](crates/rs_low/src/door.rt#L3), and `rs_low/src/lib.rt`.\n",
    "docs/THEOREM.md": "[`opened`](../crates/rs_low/specs/Doors.antt), [`House`](../crates/rs_high/src/lib.rt), [a page](../crates/none.md)\n",
}

# A file, what stands in it, what is put in its place, and the beginning of what is told.
FAULTS = [
    ("crates.txt", "rs_high: rs_low", "rs_high: rs_low\nrs_gone: rs_last\nrs_last:", "crates.txt: rs_gone stands in front of rs_last"),
    ("crates.txt", "rs_high: rs_low\n", "", "crates.txt: there is no line of rs_high"),
    ("crates.txt", "# low: what others stand on\n", "", "crates.txt: rs_low stands in no layer"),
    ("crates/rs_low/src/lib.rt", "//! Doors. They open.\n//!\n//! Its", "//! Its", "crates/rs_low/src/lib.rt has no paragraph"),
    ("crates/rs_high/src/lib.rt", "//! Houses.\n//!\n//! Its promise: a house has a door.\n", "",
     "crates/rs_high/src/lib.rt doesn't begin with a comment"),
    ("crates/rs_low/specs/Numbers.antt", "-- Numbers.\n", "", "crates/rs_low/specs/Numbers.antt doesn't begin with a comment"),
    ("crates/rs_high/src/lib.rt", "use rs_low", "ghost use Rattle.rs_low.proofs.Doors.{law};\nuse rs_low", "crates/rs_high/src/lib.rt cites a lemma of rs_low"),
    ("crates/rs_low/src/door.rt", "/// # Errors\n///\n/// - `None`: exactly where there is none.\n", "/// None.\n",
     "crates/rs_low/src/door.rt: the public call `number_of` has no paragraph `# Errors`"),
    ("crates/rs_low/src/door.rt", "/// - `None`: exactly where there is none.\n", "/// None.\n",
     "crates/rs_low/src/door.rt: the public call `number_of` has something else than a list below `# Errors`"),
    ("crates/rs_low/src/door.rt", "/// - `None`: exactly", "/// - `Gone`: exactly", "crates/rs_low/src/door.rt: the public call `number_of` names the answer `Gone`, which its type hasn't"),
    ("crates/rs_low/src/door.rt", "`Lost`, `Bent`", "`Lost`", "crates/rs_low/src/door.rt: the public call `Door::open` doesn't say when `Key` comes"),
    ("crates/rs_low/src/door.rt", "`Lost`, `Bent`", "`Lost`, `Bent`, `Lost`", "crates/rs_low/src/door.rt: the public call `Door::open` names the answer `Lost` twice"),
    ("crates/rs_low/src/door.rt", "    /// - `Rust`: in winter,\n    ///   and never else.\n", "",
     "crates/rs_low/src/door.rt: the public call `Door::open` doesn't say when `Rust` comes"),
    ("crates/rs_low/src/door.rt", "    ///   and never else.\n", "    /// and never else.\n",
     "crates/rs_low/src/door.rt: the public call `Door::open` has something else than a list below `# Errors`: and never else."),
    ("crates/rs_high/src/lib.rt", "Those of `Door::open`", "Those of `Door::shut`", "crates/rs_high/src/lib.rt: the public call `House::enter` has an item that names neither"),
    ("crates/rs_high/src/lib.rt", "    /// - Those of `Door::open`: where it is shut.\n", "",
     "crates/rs_high/src/lib.rt: the public call `House::enter` doesn't say when `Key` comes"),
    ("crates/rs_high/src/lib.rt", "- Those of `Door::open`: where it is shut.", "- `Key`: with no key.",
     "crates/rs_high/src/lib.rt: the public call `House::enter` doesn't say when `None` comes"),
    ("README.md", "rs_low/src/lib.rt", "rs_low/src/door_frame.rt", "README.md names rs_low/src/door_frame.rt, which isn't there"),
    ("README.md", "door.rt)", "wall.rt)", "README.md: there is no file crates/rs_low/src/wall.rt"),
    ("README.md", "[`number_of`", "[`number`", "README.md: crates/rs_low/src/door.rt declares no `number`"),
    ("README.md", "`Door::open`", "`open`", "README.md: crates/rs_low/src/door.rt declares no `open`"),
    ("README.md", "`value`", "`answer`", "README.md: `number_of` in crates/rs_low/src/door.rt has no clause `answer`"),
    ("docs/THEOREM.md", "`opened`", "`shut`", "docs/THEOREM.md: crates/rs_low/specs/Doors.antt has no definition `shut`"),
    ("docs/THEOREM.md", "`opened`", "`opened` `opens`", "docs/THEOREM.md: `opened` in crates/rs_low/specs/Doors.antt has no clause `opens`"),
]


def write_house(folder, files):
    for name, text in files.items():
        os.makedirs(os.path.dirname(os.path.join(folder, name)), exist_ok=True)
        with open(os.path.join(folder, name), "w", encoding="utf-8") as file:
            file.write(text)
    return House(folder)


class Rules(unittest.TestCase):
    def test_a_right_house_has_no_fault(self):
        with tempfile.TemporaryDirectory() as folder:
            self.assertEqual(list(faults_of(write_house(folder, FILES))), [])

    def test_each_fault_is_told(self):
        for name, old, new, told in FAULTS:
            with self.subTest(told), tempfile.TemporaryDirectory() as folder:
                self.assertEqual(FILES[name].count(old), 1)
                # (the number of the line is left out)
                faults = list(re.sub(r":\d+: ", ": ", fault) for fault in faults_of(write_house(folder, {**FILES, name: FILES[name].replace(old, new)})))
                self.assertTrue(any(fault.startswith(told) for fault in faults), faults)


class Reference(unittest.TestCase):
    def pages(self):
        with tempfile.TemporaryDirectory() as folder:
            return Pages(write_house(folder, FILES)).made()

    def test_a_page_has_calls_laws_and_definitions(self):
        page = self.pages()["rs_low.md"]
        for text in ("Doors. They open.", "## Calls\n\n### Door::open\n\nOpens it.\n\n#### Errors\n\n- `Lost`, `Bent`: where the key is so.",
                     "    // It opens.\n    ensures opens { opened self.new }", "### number_of\n\nThe number on a door.",
                     "pub fn number_of(name: &str) -> Option<u8>\n    requires { digits name.now }", "## Laws\n\n### doors_open\n\nDoors open.",
                     "- `Key`: Another key is wanted.\n- `Rust`"):
            self.assertIn(text, page)

    def test_definitions_are_cited_by_imports(self):
        page = self.pages()["rs_low.md"]
        self.assertIn("#### opened\n\na door that is open\n\n```\nabbrev pub opened : Door → Type 0\nopened d = even 2\n```\n\n"
                      "Cited by clauses: `Door::open` `opens`, `ensures`; `doors_open` `each`.", page)
        # The clause says `digits`, and the import which definition that is.
        self.assertIn("number_of name = 1\n```\n\nCited by clauses: `number_of` `requires`, `value`.", page)
        # No clause cites it, and a definition does.
        self.assertIn("#### odd\n\nUnder `even`: whether it is even\n\n```\npub odd : ℕ → Bool\nodd n = even n\n```\n\n"
                      "Cited by definitions: `Numbers` `even`.", page)

    def test_answers_and_names(self):
        pages = self.pages()
        self.assertIn("| rs_low | [`Door::open`](rs_low.md#dooropen) | `Rust` | in winter, and never else. |", pages["answers.md"])
        self.assertIn("| rs_high | [`House::enter`](rs_high.md#houseenter) | | Those of `Door::open`: where it is shut. |", pages["answers.md"])
        self.assertIn("| [`doors_open`](rs_low.md#doors_open) | law | rs_low |", pages["names.md"])
        self.assertIn("| [`even`](rs_low.md#even) | definition | rs_low |", pages["names.md"])
        self.assertIn("| [rs_low](rs_low.md) | Doors | A door opens once |", pages["index.md"])
        self.assertTrue(pages["lemmas.md"].endswith("|---|---|\n| `crates/rs_low/proofs/DoorFacts.antt` | rs_high |\n"), pages["lemmas.md"])

    def test_the_command_writes_a_page_a_crate(self):
        with tempfile.TemporaryDirectory() as folder:
            begun = time.monotonic()
            ended = subprocess.run([sys.executable, os.path.join(TOOLS, "reference"), os.path.join(folder, "made")], capture_output=True, text=True)
            self.assertEqual((ended.returncode, ended.stderr), (0, ""))
            self.assertLess(time.monotonic() - begun, 20)
            made = os.listdir(os.path.join(folder, "made"))
            crates = House(ROOT).crates
            self.assertEqual(sorted(made), sorted([f"{crate}.md" for crate in crates] + ["answers.md", "index.md", "lemmas.md", "names.md"]))
            with open(os.path.join(folder, "made", "rs_run.md"), encoding="utf-8") as file:
                page = file.read()
            self.assertIn("## Laws\n\n### one_run\n", page)
            self.assertIn("### run\n", page)

    def test_a_folder_that_cannot_be_made_is_told(self):
        ended = subprocess.run([sys.executable, os.path.join(TOOLS, "reference"), "/dev/null/pages"], capture_output=True, text=True)
        self.assertEqual(ended.returncode, 4)
        self.assertEqual(ended.stderr, "reference: /dev/null/pages: Not a directory\n")


if __name__ == "__main__":
    unittest.main()
