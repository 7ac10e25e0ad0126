"""Which clauses cite which definitions: a name in a clause is that of the file that the imports there say."""

import os
import re

IMPORT = re.compile(r"^(?:pub )?(?:ghost )?use Rattle\.([a-z_0-9]+)\.specs((?:\.[A-Za-z0-9_]+)*)(?: as ([^\s;]+)|\.\{(.*)\})?;?$")
WORD = re.compile(r"[^\W\d][\w'»«]*(?:\.[^\W\d][\w'»«]*)*")
BOUND = re.compile(r"λ ([^.]*)\.|\(([\w' ]+?) :")


class Imports:
    """What names stand for behind some imports: (path of the file of specs, name), and other names of whole files."""

    def __init__(self, house):
        self.house = house
        self.kept = {}

    def file_of(self, crate, dotted):
        path = f"crates/{crate}/specs{dotted.replace('.', '/')}.antt"
        there = self.house.crates.get(crate)
        return path if there and path in there.definitions else None

    def names(self, lines):
        key = tuple(lines)
        if key not in self.kept:
            self.kept[key] = self.read(lines)
        return self.kept[key]

    def read(self, lines):
        names, files = {}, {}
        for line in lines:
            found = IMPORT.match(line)
            if not found:
                continue
            crate, dotted, other, listed = found.groups()
            path = self.file_of(crate, dotted)
            if path is None:
                continue
            if listed is None:
                files[other or dotted.rsplit(".", 1)[-1]] = path
            for part in (listed or "").split(","):
                name, _, alias = part.strip().partition(" as ")
                if name:
                    names[alias or name] = (path, name)
        return names, files

    def cited(self, text, lines):
        """The definitions that a text cites behind these imports."""
        names, files = self.names(lines)
        bound = {word for groups in BOUND.findall(text) for group in groups for word in re.sub(r"[():,]", " ", group).split()}
        found = set()
        for word in WORD.findall(text):
            first, _, rest = word.partition(".")
            if first in bound:
                continue
            if first in names:
                found.add(names[first])
            elif first in files and rest:
                found.add((files[first], rest.split(".")[0]))
        for name, place in names.items():
            # An operator, as `◌>>=◌`, is cited by its sign.
            if "◌" in name and name.strip("◌") in text:
                found.add(place)
        return found


class Citations:
    """Of each definition, (path, name), the public clauses that cite it, the private ones, and the definitions that do."""

    def __init__(self, house):
        self.by_calls, self.by_private, self.by_definitions = {}, {}, {}
        imports = Imports(house)
        for crate in house.crates.values():
            public = {id(function) for function in crate.calls}
            for source in crate.sources.values():
                for function in source.functions:
                    into = self.by_calls if id(function) in public or function.of_trait and function.owner in crate.handed_out else self.by_private
                    for clause in function.clauses:
                        self.add(into, imports.cited(clause.text, function.imports), (crate.name, said_of(function), clause.name or clause.kind))
                for member in source.members:
                    into = self.by_calls if member.owner in crate.handed_out else self.by_private
                    owner = f"{member.of_trait} for {member.owner}" if member.of_trait else member.owner
                    self.add(into, imports.cited(member.text, member.imports), (crate.name, owner, member.name))
            for path, file in crate.definitions.items():
                own = {each.name for each in file.definitions}
                for definition in file.definitions:
                    cited = imports.cited(definition.text, file.imports) | {(path, word) for word in set(WORD.findall(definition.text)) & own}
                    self.add(self.by_definitions, cited - {(path, definition.name)}, (crate.name, os.path.basename(path)[:-5], definition.name))

    def add(self, into, cited, place):
        for each in cited:
            places = into.setdefault(each, [])
            if place not in places:
                places.append(place)


def said_of(function):
    return f"{function.of_trait} for {function.owner}::{function.name}" if function.of_trait else function.full_name
