"""The crates of the repository, by layer, with their sources."""

import functools
import os
import re

from .antt_source import read_definitions
from .rattle_source import read_source


class Crate:
    """A crate: its layer, the crates that it stands on, and its sources. Paths are from the top of the repository."""

    def __init__(self, root, name, below):
        self.root, self.name, self.below = root, name, below
        self.is_library = os.path.exists(os.path.join(root, "crates", name, "src", "lib.rt"))
        self.top = f"crates/{name}/src/{'lib' if self.is_library else 'main'}.rt"

    def paths(self, folder, ending):
        """The files of a folder of it, in order."""
        found = []
        for at, folders, files in os.walk(os.path.join(self.root, "crates", self.name, folder)):
            folders.sort()
            found += [os.path.relpath(os.path.join(at, file), self.root) for file in files if file.endswith(ending)]
        return sorted(found)

    @functools.cached_property
    def sources(self):
        """Its sources without its tests."""
        paths = [path for path in self.paths("src", ".rt") if not path.endswith("/tests.rt") and "/src/tests/" not in path]
        return {path: read_at(read_source, self.root, path) for path in paths}

    @functools.cached_property
    def definitions(self):
        return {path: read_at(read_definitions, self.root, path) for path in self.paths("specs", ".antt")}

    @functools.cached_property
    def leading(self):
        """The first doc comment of its lib.rt or main.rt, as paragraphs."""
        source = self.sources.get(self.top)
        return [part.replace("\n", " ") for part in "\n".join(source.leading).strip().split("\n\n")] if source and source.leading else []

    @functools.cached_property
    def handed_out(self):
        """The names of what others may use of it; of a program all that is public."""
        top = self.sources.get(self.top)
        if not self.is_library or top is None:
            return {each.name for source in self.sources.values() for each in source.types + source.functions if each.is_public}
        names = {each.name for each in top.types + [function for function in top.functions if not function.owner] if each.is_public}
        with open(os.path.join(self.root, self.top), encoding="utf-8") as file:
            uses = re.findall(r"^pub use ([^;]*);", file.read(), re.MULTILINE)
        for use in uses:
            names |= set(re.split(r"[{},\s]+", re.sub(r"[A-Za-z0-9_]+::", "", use))) - {"", "as"}
        return names

    @property
    def functions(self):
        return [function for source in self.sources.values() for function in source.functions]

    @property
    def types(self):
        return [each for source in self.sources.values() for each in source.types]

    @functools.cached_property
    def calls(self):
        """Its public calls: functions, and methods of types and of traits. An impl of a trait has those of the trait."""
        return [function for function in self.functions
                if function.is_public and not function.of_trait and (function.owner or function.name) in self.handed_out]


def read_at(read, root, path):
    made = read(os.path.join(root, path))
    made.path = path
    for each in getattr(made, "functions", []) + getattr(made, "types", []) + getattr(made, "definitions", []):
        each.path = path
    return made


class House:
    """All crates of crates.txt in their order, by layer: (name, what it has, crates)."""

    def __init__(self, root):
        self.root = root
        self.layers, self.faults = [], []
        with open(os.path.join(root, "crates.txt"), encoding="utf-8") as file:
            self.read_layers(file.read())
        self.crates = {crate.name: crate for _, _, crates in self.layers for crate in crates}

    def read_layers(self, text):
        above = None
        for line in text.splitlines():
            heading = re.fullmatch(r"# ([a-z ]+): (.*)", line)
            if heading:
                above = heading.groups()
            elif line and not line.startswith("#"):
                if above:
                    self.layers.append((*above, []))
                    above = None
                front, _, below = line.partition(":")
                crate = Crate(self.root, front.split()[0], below.split("#")[0].split())
                if not self.layers:
                    self.faults.append(f"crates.txt: {crate.name} stands in no layer")
                    continue
                self.layers[-1][2].append(crate)

    @property
    def libraries(self):
        """The libraries of the engine."""
        return [crate for crate in self.crates.values() if crate.is_library and crate.name.startswith("rs_")]


def top_of(path):
    """The top of the repository above a file."""
    at = os.path.dirname(os.path.realpath(path))
    while not os.path.exists(os.path.join(at, "crates.txt")) and at != "/":
        at = os.path.dirname(at)
    return at
