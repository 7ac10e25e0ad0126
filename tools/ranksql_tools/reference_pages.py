"""The pages of the reference, made from the sources: one a crate, the table of answers, and the index of names."""

import os
import re

from .answers import HEADING, answers_told
from .cited import Citations, said_of
from .house_rules import LEMMAS, text_of


def is_law(function):
    """A law takes nothing and answers nothing: its contract is what it says."""
    return bool(function.promises) and not function.answer and not function.owner and re.search(r"\(\)\s*$", function.signature) is not None


def anchor(name):
    """The place of a heading on a page, as the renderers of Markdown name it."""
    return re.sub(r"[^\w\- ]", "", name.lower()).replace(" ", "-")


def code(text):
    return ["```", *text.splitlines(), "```"]


class Pages:
    """All pages: the name of each file with its lines."""

    def __init__(self, house):
        self.house = house
        self.citations = Citations(house)
        self.index = []

    def made(self):
        pages = {f"{crate.name}.md": list(self.crate(crate)) for crate in self.house.crates.values()}
        pages["answers.md"] = list(self.answers())
        pages["names.md"] = list(self.names())
        pages["lemmas.md"] = list(self.lemmas())
        pages["index.md"] = list(self.front())
        return {name: "\n".join(lines) + "\n" for name, lines in pages.items()}

    # ---- a page a crate
    def crate(self, crate):
        yield f"# {crate.name}"
        for part in crate.leading:
            yield from ("", part)
        if crate.below:
            links = [f"[{name}]({name}.md)" if name in self.house.crates else name for name in crate.below]
            yield from ("", f"It stands on {', '.join(links)}.")
        laws = [function for function in crate.calls if is_law(function)]
        calls = [function for function in crate.calls if not is_law(function)]
        impls = [function for function in crate.functions if function.of_trait and function.promises and function.owner in crate.handed_out]
        yield from self.types(crate)
        yield from self.functions(crate, "Calls", calls)
        yield from self.functions(crate, "Methods of traits with promises of their own", impls)
        yield from self.functions(crate, "Laws", laws)
        yield from self.definitions(crate)

    def types(self, crate):
        types = [each for each in crate.types if each.is_public and each.name in crate.handed_out]
        if types:
            yield from ("", "## Types")
        for each in types:
            self.index.append((each.name, crate.name, f"type {each.name}", each.kind))
            yield from ("", f"### type {each.name}", "", f"`{each.head}`, in `{each.path}`.")
            yield from self.comment(each.doc)
            if each.variants:
                yield ""
            for name, notes, _ in each.variants:
                yield f"- `{name}`" + (f": {' '.join(notes)}" if notes else "")
            members = [member for source in crate.sources.values() for member in source.members if member.owner == each.name]
            for member in members:
                if member.name not in ("laws", "coded"):
                    of_trait = f", for `{member.of_trait}`" if member.of_trait else ""
                    yield from ("", f"Contracts see its `{member.name}`{of_trait}:", "", *code(member.text))
                    yield from self.comment(member.doc)

    def functions(self, crate, heading, functions):
        if functions:
            yield from ("", f"## {heading}")
        for function in functions:
            name = said_of(function)
            self.index.append((name, crate.name, name, "law" if is_law(function) else "call"))
            yield from ("", f"### {name}")
            yield from self.comment(function.doc)
            text = [function.signature]
            for clause in function.clauses:
                first, *more = clause.text.splitlines()
                text += [f"    // {line}" for line in clause.comment] + [f"    {first}"] + [f"        {line}" for line in more]
            yield from ("", *code("\n".join(text)), "", f"In `{function.path}`.")

    def comment(self, doc):
        if doc:
            yield ""
        for line in doc:
            yield f"#### {line[2:]}" if line == HEADING else line

    def definitions(self, crate):
        files = [file for file in crate.definitions.values() if file.definitions]
        if files:
            yield from ("", "## Definitions")
        for file in files:
            yield from ("", f"### {file.path.split('/specs/')[1]}")
            for part in file.leading:
                yield from ("", part)
            above = None
            for definition in file.definitions:
                above = definition if definition.comment or above is None else above
                if definition.is_public:
                    yield from self.definition(crate, definition, above)

    def definition(self, crate, definition, above):
        """A definition without a comment stands under the one above it that has one, and the comment speaks of both."""
        self.index.append((definition.name, crate.name, definition.name, "definition"))
        yield from ("", f"#### {definition.name}")
        if definition.comment:
            yield from ("", " ".join(definition.comment))
        elif above.comment:
            yield from ("", f"Under `{above.name}`: {' '.join(above.comment)}")
        yield from ("", *code(definition.text))
        place = (definition.path, definition.name)
        for said, found in (("clauses", self.citations.by_calls), ("clauses of private functions", self.citations.by_private),
                            ("definitions", self.citations.by_definitions)):
            if place in found:
                yield from ("", f"Cited by {said}: {self.places(crate, found[place])}.")
                break

    def places(self, crate, places):
        """The places that cite, by the function or the file that they stand in."""
        owners = {}
        for other, owner, name in places:
            owners.setdefault((other, owner), []).append(f"`{name}`")
        return "; ".join(("" if other == crate.name else f"{other} ") + f"`{owner}` {', '.join(names)}" for (other, owner), names in owners.items())

    # ---- pages of all crates
    def answers(self):
        yield from ("# Answers and their causes", "", "Each answer of a public call that can fail, as the paragraphs `# Errors` of the doc comments say.", "",
                    "| crate | call | answer | comes |", "|---|---|---|---|")
        for crate, function, item in answers_told(self.house):
            answers = ", ".join(f"`{answer}`" for answer in item.answers)
            yield f"| {crate} | [`{function.full_name}`]({crate}.md#{anchor(function.full_name)}) | {answers} | {item.text} |".replace("|  |", "| |")

    def names(self):
        yield from ("# Names", "", "All names that crates hand out and that contracts cite.", "", "| name | what | crate |", "|---|---|---|")
        for name, crate, heading, kind in sorted(self.index, key=lambda row: (row[0].lower(), row)):
            yield f"| [`{name.replace('|', '&#124;')}`]({crate}.md#{anchor(heading)}) | {kind} | {crate} |"

    def lemmas(self):
        yield from ("# Lemmas", "", "Files of lemmas that proofs of other crates cite.", "", "| file | cited by proofs of |", "|---|---|")
        crates, citing = list(self.house.crates), {}
        for name, crate in self.house.crates.items():
            for path in crate.paths("proofs", ".antt"):
                for other, file in LEMMAS.findall(text_of(self.house, path)):
                    # (the laws of a type are made from its declaration, and stand in no file)
                    if other != name and os.path.exists(os.path.join(self.house.root, "crates", other, "proofs", f"{file}.antt")):
                        citing.setdefault((crates.index(other), f"crates/{other}/proofs/{file}.antt"), {})[name] = None
        for (_, path), names in sorted(citing.items()):
            yield f"| `{path}` | {', '.join(names)} |"

    def front(self):
        yield from ("# Reference", "", "Made from the sources by `tools/reference`. [Answers and their causes](answers.md), [all names](names.md), and",
                    "[lemmas that several crates cite](lemmas.md). How to read a clause stands in `docs/THEOREM.md`.", "",
                    "Each function is proved to return, to meet its contract, and to do nothing undefined. A call whose answer has `Memory`",
                    "may give it in place of what is promised.")
        for name, what, crates in self.house.layers:
            yield from ("", f"## {name[0].upper() + name[1:]}: {what}", "", "| crate | what it is | what it promises |", "|---|---|---|")
            for crate in crates:
                promise = next((part.removeprefix("Its promise: ") for part in crate.leading[1:] if part.startswith("Its promise: ")), "")
                yield f"| [{crate.name}]({crate.name}.md) | {first_sentence(crate.leading[0]) if crate.leading else ''} | {promise[:1].upper() + promise[1:].removesuffix('.')} |"


def first_sentence(text):
    """Its first sentence, without the full stop."""
    end = re.search(r"\.(?= [A-Z`]|$)", text)
    return text[: end.start()] if end else text


def write_pages(house, folder):
    """Writes all pages into a folder, and gives how many."""
    pages = Pages(house).made()
    os.makedirs(folder, exist_ok=True)
    for name, text in pages.items():
        with open(os.path.join(folder, name), "w", encoding="utf-8") as file:
            file.write(text)
    return len(pages)
