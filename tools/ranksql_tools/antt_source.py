"""The definitions of a file of `specs`, each with the comment over it."""

import re
from dataclasses import dataclass

HEAD = re.compile(r"(?:abbrev |unfoldable )?(pub )?(?:(data|record) )?([^\s:()]+)(?: [^:=]*)? :")
# What holds definitions that stand further in.
BLOCK = re.compile(r"(abbrev |unfoldable )?mutual$|module .* where$")
IMPORT = re.compile(r"(pub )?use ")


@dataclass
class Definition:
    path: str
    line: int
    name: str
    is_public: bool
    comment: list
    text: str


class AnttFile:
    """The first comment of a file, its imports, its definitions and the files that it only names."""

    def __init__(self, path, text):
        self.path = path
        lines = text.splitlines()
        self.leading = leading(lines, "--")
        self.imports = [line.strip() for line in lines if IMPORT.match(line)]
        self.definitions = []
        code = [line for line in lines if line.strip() and not line.startswith("--")]
        # A file that only names others has no subject of its own.
        self.is_list = all(re.fullmatch(r"(pub )?mod \w+|pub use .*", line) for line in code)
        self.read(lines)

    def read(self, lines):
        comment, deep = [], 0
        for place, line in enumerate(lines):
            stripped = line.strip()
            indent = len(line) - len(line.lstrip())
            if stripped:
                deep = min(deep, indent)
            if stripped.startswith("--") and indent == deep:
                comment.append(stripped[2:].strip())
            elif indent == deep and BLOCK.match(stripped):
                deep += 2
                comment = comment if "mutual" in stripped else []
            else:
                found = HEAD.match(stripped) if indent == deep and not IMPORT.match(line) else None
                if found:
                    self.add(found, place, lines, indent, comment)
                comment = []

    def add(self, found, place, lines, indent, comment):
        end = place + 1
        while end < len(lines) and lines[end].strip() and not lines[end].startswith(" " * indent + "--"):
            end += 1
        text = "\n".join(line[indent:] for line in lines[place:end]).rstrip()
        self.definitions.append(Definition(self.path, place + 1, found[3], bool(found[1]), comment, text))


def leading(lines, mark):
    """The comment at the front of a file, as paragraphs."""
    front = []
    for line in lines:
        if not line.startswith(mark):
            break
        front.append(line[len(mark):].strip())
    return [" ".join(part.split("\n")) for part in "\n".join(front).strip().split("\n\n") if part]


def read_definitions(path):
    with open(path, encoding="utf-8") as file:
        return AnttFile(path, file.read())
