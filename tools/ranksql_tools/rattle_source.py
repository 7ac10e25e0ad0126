"""The items of a Rattle source: functions with their contracts, types with their variants, and doc comments.

Sources stand in the layout of `rt fmt`, so a line at a time is enough."""

import re
from dataclasses import dataclass, field

HEAD = re.compile(r"( *)((?:pub(?:\([a-z]+\))? )?)(?:const )?fn ([a-z_][A-Za-z0-9_]*)")
TYPE = re.compile(r"(pub(?:\([a-z]+\))? )?(struct|enum|const|static|type) ([A-Za-z_][A-Za-z0-9_]*)")
CLAUSE = re.compile(r" *(requires|ensures)\*?(?: ([a-z_][a-z0-9_]*))? \{")
VARIANT = re.compile(r"    ([A-Z][A-Za-z0-9]*)")
MEMBER = re.compile(r"    ghost ([a-z_]+) ?([=:])")
IMPORT = re.compile(r" *ghost use ")
ATTRIBUTE = re.compile(r" *#!?\[")


@dataclass
class Clause:
    """A condition or a promise of a function. Its name is empty where it has none."""

    kind: str
    name: str
    text: str
    comment: list


@dataclass
class Member:
    """What only contracts see of a trait or an impl."""

    name: str
    text: str
    doc: list
    owner: str
    of_trait: str
    imports: list


@dataclass
class Function:
    path: str
    line: int
    name: str
    # The type of the impl, or the trait, that it stands in; and the trait that the impl is of.
    owner: str
    of_trait: str
    is_trait: bool
    is_public: bool
    doc: list
    # The lines `ghost use` that hold there.
    imports: list
    signature: str = ""
    clauses: list = field(default_factory=list)
    is_empty: bool = False

    @property
    def full_name(self):
        return f"{self.owner}::{self.name}" if self.owner else self.name

    @property
    def answer(self):
        """The type of what it answers, or nothing."""
        end = parameters_end(self.signature)
        behind = self.signature[end:].strip()
        return re.sub(r" where .*$", "", behind[2:].strip()) if behind.startswith("->") else ""

    def of_kind(self, kind):
        return [clause for clause in self.clauses if clause.kind == kind]

    @property
    def promises(self):
        return self.of_kind("ensures")

    @property
    def conditions(self):
        return self.of_kind("requires")


@dataclass
class Type:
    path: str
    line: int
    kind: str
    name: str
    is_public: bool
    doc: list
    head: str = ""
    # (name, doc, text) of each.
    variants: list = field(default_factory=list)


def parameters_end(signature):
    """The place behind the parameters of a signature."""
    depth = 0
    for place in range(signature.index("("), len(signature)):
        if signature[place] == "(":
            depth += 1
        elif signature[place] == ")":
            depth -= 1
            if depth == 0:
                return place + 1
    return len(signature)


def without_parameters(text):
    """A text without the type parameters at its front."""
    if not text.startswith("<"):
        return text.strip()
    depth = 0
    for place, sign in enumerate(text):
        depth += (sign == "<") - (sign == ">" and text[place - 1] != "-")
        if depth == 0:
            return text[place + 1:].strip()
    return ""


def bare(text):
    """The last name of a path, without what stands in angle brackets."""
    return re.split(r"[<:{ (]", re.sub(r"^.*?([A-Za-z_]+)(?=<|\s|\{|$)", r"\1", text.split("<")[0].strip()))[0]


def owner_of(line):
    """The type that an impl is of, or the trait that is declared, and the trait of an impl."""
    head = re.sub(r"^(pub(\([a-z]+\))? )?(unsafe )?(impl|trait) ?", "", line)
    head = without_parameters(head)
    head = re.sub(r"\s*(where .*|\{)?$", "", head)
    if " for " in head:
        of_trait, head = head.split(" for ", 1)
        return bare(head), bare(of_trait)
    head = head.split(":")[0] if not head.startswith("&") else head
    return bare(head), ""


class Reader:
    """Reads the items of one file."""

    def __init__(self, path, text):
        self.path, self.lines = path, text.splitlines()
        self.functions, self.types, self.members, self.leading = [], [], [], []
        self.uses = re.findall(r"^(?:pub )?use ([^;]*);", text, re.MULTILINE)
        self.file_imports = [line for line in self.lines if line.startswith("ghost use ")]
        self.block_imports = []
        self.place = 0
        self.owner, self.of_trait, self.is_trait = "", "", False
        for line in self.lines:
            if not line.startswith("//!"):
                break
            self.leading.append(line[3:].strip())

    def read(self):
        doc = []
        while self.place < len(self.lines):
            line = self.lines[self.place]
            stripped = line.strip()
            if line.startswith("mod tests") or line.startswith("#[cfg(test)]"):
                self.skip_block()
                doc = []
                continue
            if stripped.startswith("///"):
                doc.append(stripped[3:].removeprefix(" "))
            elif ATTRIBUTE.match(line):
                pass
            elif self.owner and IMPORT.match(line):
                self.block_imports.append(line.strip())
            elif self.owner and MEMBER.match(line):
                self.member(doc)
                doc = []
            elif HEAD.match(line):
                self.function(doc)
                doc = []
                continue
            elif re.match(r"(pub(\([a-z]+\))? )?(unsafe )?(impl|trait)\b", line):
                self.block(line, doc)
                doc = []
            elif TYPE.match(line):
                self.type(doc)
                doc = []
            else:
                if line.startswith("}"):
                    self.owner, self.of_trait, self.is_trait = "", "", False
                doc = []
            self.place += 1
        return self

    def skip_block(self):
        while self.place < len(self.lines) and not self.lines[self.place].startswith("mod"):
            self.place += 1
            if self.place < len(self.lines) and not self.lines[self.place].startswith(("mod", "#[")):
                return
        if self.lines[self.place].rstrip().endswith(";"):
            self.place += 1
            return
        while self.place < len(self.lines) and not self.lines[self.place].startswith("}"):
            self.place += 1
        self.place += 1

    def block(self, line, doc):
        head = line
        place = self.place
        while not head.rstrip().endswith(("{", "{}")) and place + 1 < len(self.lines):
            place += 1
            head += " " + self.lines[place].strip()
        self.owner, self.of_trait = owner_of(head)
        self.block_imports = []
        self.is_trait = re.match(r"(pub(\([a-z]+\))? )?trait\b", line) is not None
        if self.is_trait:
            self.types.append(Type(self.path, self.place + 1, "trait", self.owner, line.startswith("pub "), doc, head.rstrip(" {")))
        if head.rstrip().endswith("}"):
            self.owner, self.of_trait, self.is_trait = "", "", False
        self.place = place

    def type(self, doc):
        line = self.lines[self.place]
        found = TYPE.match(line)
        made = Type(self.path, self.place + 1, found[2], found[3], (found[1] or "").strip() == "pub", doc, line.rstrip(" {"))
        if found[2] == "enum" and line.rstrip().endswith("{"):
            notes = []
            while not self.lines[self.place].startswith("}"):
                self.place += 1
                inner = self.lines[self.place]
                if inner.strip().startswith("///"):
                    notes.append(inner.strip()[3:].strip())
                elif VARIANT.match(inner):
                    made.variants.append((VARIANT.match(inner)[1], notes, inner.strip()))
                    notes = []
                elif made.variants and not inner.startswith("}"):
                    name, note, text = made.variants[-1]
                    made.variants[-1] = (name, note, f"{text} {inner.strip()}")
        self.types.append(made)

    def member(self, doc):
        """A member runs to the line that ends with `;` and closes its braces."""
        found = MEMBER.match(self.lines[self.place])
        text = [self.lines[self.place].strip()]
        while not is_closed(text) and self.place + 1 < len(self.lines):
            self.place += 1
            text.append(self.lines[self.place].strip())
        self.members.append(Member(found[1], " ".join(text).rstrip(";"), doc, self.owner, self.of_trait, self.block_imports + self.file_imports))

    def function(self, doc):
        line = self.lines[self.place]
        found = HEAD.match(line)
        indent = len(found[1])
        is_public = found[2].strip() == "pub" or self.is_trait
        made = Function(self.path, self.place + 1, found[3], self.owner if indent else "", self.of_trait if indent else "",
                        self.is_trait and indent > 0, is_public, doc, (self.block_imports if indent else []) + self.file_imports)
        head, clause, comment = [], None, []
        while True:
            text = self.lines[self.place]
            begins = CLAUSE.match(text)
            # The body begins with a brace that stands as far to the right as the function does, or ends the signature.
            if text.rstrip() == " " * indent + "{" or text.rstrip() == " " * indent + "{}":
                made.is_empty = text.rstrip().endswith("{}")
                break
            if begins:
                clause = Clause(begins[1], begins[2] or "", text.strip(), comment)
                made.clauses.append(clause)
                comment = []
            elif text.strip().startswith("//"):
                comment.append(text.strip()[2:].strip())
            elif clause is None:
                head.append(text.strip())
            else:
                clause.text += "\n" + text.strip()
            is_end = text.rstrip().endswith(";") and (clause is None or self.ends_method(indent))
            if clause is None and text.rstrip().endswith(("{", "{}")):
                made.is_empty = text.rstrip().endswith("{}")
                break
            if is_end:
                break
            self.place += 1
        signature = " ".join(head)
        signature = re.sub(r"\s*(\{\}?|;)$", "", signature)
        made.signature = re.sub(r"\( ", "(", re.sub(r",? \)", ")", signature))
        for each in made.clauses:
            each.text = each.text.rstrip(";") if self.is_trait else each.text
        self.functions.append(made)
        if made.is_empty and self.lines[self.place].strip() != "{}":
            self.place += 1
            return
        if made.is_empty or self.lines[self.place].rstrip().endswith(";"):
            self.place += 1
            return
        # The body, up to its closing brace.
        while self.place < len(self.lines) and self.lines[self.place].rstrip() != " " * indent + "}":
            self.place += 1
        self.place += 1

    def ends_method(self, indent):
        """Whether the declaration of a method of a trait ends on this line: nothing deeper follows."""
        following = self.lines[self.place + 1] if self.place + 1 < len(self.lines) else ""
        return not following.strip() or len(following) - len(following.lstrip()) <= indent


def is_closed(lines):
    return lines[-1].endswith(";") and sum(line.count("{") - line.count("}") for line in lines) == 0


def read_source(path):
    with open(path, encoding="utf-8") as file:
        return Reader(path, file.read()).read()
