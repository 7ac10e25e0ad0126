"""What the gate asks of the house: layers, promises, comments, answers and citations. Each rule gives a sentence for each fault."""

import os
import re

from .answers import Faults, answers_said
from .antt_source import read_definitions
from .rattle_source import read_source

PROMISE = "Its promise: "
NAMED = re.compile(r"`(?:crates/)?([a-z][a-z_0-9]*/(?:src|specs|proofs|must-fail)/[A-Za-z0-9_/]+\.(?:rt|antt|edit))`")
LEMMAS = re.compile(r"^\s*(?:ghost )?use Rattle\.([a-z_0-9]+)\.proofs\.([A-Za-z0-9]+)", re.MULTILINE)
LINK = re.compile(r"\[([^\[\]]*)\]\(([^()\s]+)\)")
SPANS = re.compile(r"`[^`]+`(?:[ ,]+`[^`]+`)*$")


def layers(house):
    """Crates stand in layers, and each behind those that it stands on."""
    yield from house.faults
    placed = set()
    for crate in house.crates.values():
        for other in crate.below:
            if other in house.crates and other not in placed:
                yield f"crates.txt: {crate.name} stands in front of {other}"
        placed.add(crate.name)
    for folder in sorted(os.listdir(os.path.join(house.root, "crates"))):
        if os.path.isdir(os.path.join(house.root, "crates", folder, "src")) and folder not in house.crates:
            yield f"crates.txt: there is no line of {folder}"


def first_comments(house):
    """Each crate says what it is, each library of the engine what it promises, and each file of definitions its subject."""
    for crate in house.crates.values():
        if not crate.leading:
            yield f"{crate.top} doesn't begin with a comment that says what the crate is"
        elif crate.name.startswith("rs_") and not any(part.startswith(PROMISE) for part in crate.leading[1:]):
            yield f"{crate.top} has no paragraph that begins with `{PROMISE.strip()}` in its first comment"
        for path, file in crate.definitions.items():
            if not file.is_list and not file.leading:
                yield f"{path} doesn't begin with a comment that says its subject"


def lemmas(house):
    """Lemmas of another crate are for proofs alone."""
    for crate in house.crates.values():
        for path in crate.paths("specs", ".antt") + crate.paths("src", ".rt"):
            for other, _ in LEMMAS.findall(text_of(house, path)):
                if other != crate.name and other in house.crates:
                    yield f"{path} cites a lemma of {other}"


def answers(house):
    """Each public call that can fail says each of its answers, with its cause."""
    faults = Faults(house)
    calls = {function.name for crate in house.crates.values() for function in crate.functions}
    for crate in house.libraries:
        for function in crate.calls:
            for fault in answers_said(function, crate.name, faults, calls):
                yield f"{function.path}:{function.line}: the public call `{function.full_name}` {fault}"


def documents(house):
    """The documents of the repository, as paths from its top."""
    yield "README.md"
    for file in sorted(os.listdir(os.path.join(house.root, "docs"))):
        if file.endswith(".md"):
            yield f"docs/{file}"


def named_files(house):
    """Each file of a crate that a document names is there."""
    for document in documents(house):
        for name in sorted(set(NAMED.findall(text_of(house, document)))):
            if not os.path.exists(os.path.join(house.root, "crates", name)):
                yield f"{document} names {name}, which isn't there"


def citations(house):
    """A link whose text is code and whose target is a source names what is declared there: a function, a type or a definition, and
    then clauses of that function."""
    for document in documents(house):
        for number, line in enumerate(text_of(house, document).splitlines(), 1):
            for text, target in LINK.findall(line):
                path = os.path.normpath(os.path.join(os.path.dirname(document), target.split("#")[0]))
                if SPANS.match(text) and path.startswith("crates" + os.sep):
                    for fault in cited(house, path, re.findall(r"`([^`]+)`", text)):
                        yield f"{document}:{number}: {fault}"


def cited(house, path, spans):
    """What is wrong with a citation of these names in a source."""
    if not os.path.exists(os.path.join(house.root, path)):
        yield f"there is no file {path}"
        return
    name, *clauses = spans
    if path.endswith(".rt"):
        source = read_source(os.path.join(house.root, path))
        functions = [function for function in source.functions if function.full_name == name]
        if not functions and name not in {each.name for each in source.types}:
            yield f"{path} declares no `{name}`"
            return
        known = {clause.name for function in functions for clause in function.clauses}
    else:
        known = set()
        if name not in {each.name for each in read_definitions(os.path.join(house.root, path)).definitions}:
            yield f"{path} has no definition `{name}`"
            return
    for clause in clauses:
        if clause not in known:
            yield f"`{name}` in {path} has no clause `{clause}`"


def text_of(house, path):
    with open(os.path.join(house.root, path), encoding="utf-8") as file:
        return file.read()


RULES = (layers, first_comments, lemmas, answers, named_files, citations)


def faults_of(house):
    for rule in RULES:
        yield from rule(house)
