#!/usr/bin/env python3
"""Looks whether the sources and the documents say what they have to. It prints a line for each place that doesn't, and ends with 1
where there is one:

- crates.txt has each crate, in a layer and behind those that it stands on;
- the first comment of each crate says what it is, that of each library of the engine what it promises, and that of each file of
  `specs` its subject;
- `src` and `specs` cite no lemma of another crate;
- each public call of a library whose answer is a `Result` or an `Option` has a paragraph `# Errors`, which names each of its answers,
  or the lower call whose answers they are, and none that its type hasn't. For a method of a trait the trait's comment counts;
- the files of crates that documents name are there, and a citation, which is a link whose text is code, names a function, a type or a
  definition of the file that it leads to, and clauses of that function."""

import os
import sys

HERE = os.path.dirname(os.path.realpath(__file__))
ROOT = HERE
while not os.path.exists(os.path.join(ROOT, "crates.txt")) and ROOT != "/":
    ROOT = os.path.dirname(ROOT)
sys.dont_write_bytecode = True
sys.path.insert(0, os.path.join(ROOT, "tools"))

from ranksql_tools.answers import can_fail  # noqa: E402
from ranksql_tools.house import House  # noqa: E402
from ranksql_tools.house_rules import faults_of  # noqa: E402


def main():
    house = House(ROOT)
    faults = list(faults_of(house))
    for fault in faults:
        print(f"FAILED  {fault}")
    fallible = sum(can_fail(function) for crate in house.libraries for function in crate.calls)
    print(f"{len(faults)} faults" if faults else f"ok      {len(house.crates)} crates, {fallible} public calls that can fail")
    return 1 if faults else 0


if __name__ == "__main__":
    sys.exit(main())
