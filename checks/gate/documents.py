#!/usr/bin/env python3
"""Runs every command that README.md, the pages of docs/ and the examples have, and compares every printed output that they show.

A document's indented blocks are looked at one after another:
- a block of commands is run in a folder that has what the repository has, with the built program as ./ranksql. Each command has to
  end with status 0, or with a fault that the document shows, and everything that it prints is kept. Words between backticks that
  are a command of the program or of a helper are run too;
- a block of printed rows, of a plan or of a fault has to stand, line after line, in what a command of the document printed, the
  examples' files of output, or a table file of the examples;
- a block of statements has to be of the language, whatever else is wrong with it.
In README.md and docs/THEOREM.md each block has to be one of these, or lines of a source that the page has a link to.
The file behind the words `The file` in front of a command is what that command reads. Each script of examples/ says in a comment
which commands its file of output comes from. The rows of the tables that have a script and what is told are run too. The manual
pages docs/ranksql.1 and docs/ranksql_ask.1 have to be what tools/manual.py makes.

It prints a line for each thing that it looked at, and ends with 1 where one fails. The program is crates/ranksql/out/ranksql, or the
one that the variable RANKSQL names; ./try is it too. So is crates/ranksql_ask/out/ranksql_ask, or the one that RANKSQL_ASK names."""

import gzip
import os
import re
import subprocess
import sys
import tempfile
import textwrap

ROOT = os.path.dirname(os.path.dirname(os.path.dirname(os.path.realpath(__file__))))


def built(name):
    """The built program of this name, or the one that the variable of this name says."""
    return os.path.abspath(os.environ.get(name.upper()) or os.path.join(ROOT, "crates", name, "out", name))


PROGRAM, ASKING = built("ranksql"), built("ranksql_ask")
# The scripts at the top of the repository that build a program and run it, each with the program.
SCRIPTS = {"ranksql": PROGRAM, "try": PROGRAM, "ranksql_ask": ASKING}

DOCUMENTS = ["README.md", "docs", "examples"]
# The documents in which each block is looked at.
WHOLE = ("README.md", "docs/THEOREM.md")

# Commands that are shown and not run here, each with its reason.
LEFT_OUT = (
    (re.compile(r"\.ci/run"), "the gate, of which this is a part"),
    (re.compile(r"(cd crates/ranksql && )?rt "), "a command of the kit"),
    (re.compile(r"\./install"), "its tests stand in tools/tests"),
    (re.compile(r"man ranksql|ranksql-\w+"), "needs an installed program"),
    (re.compile(r"(python3 )?(checks|bench)/|cases="), "takes long, or makes files of the repository"),
    (re.compile(r"git |apt-get|sudo "), "changes the machine"),
)
# A word in capitals stands for something that a user chooses.
FORM = re.compile(r"(?<![\w'\"$-])(FILE|COLUMN|MAX|K|SCRIPT|SEED|NUMBER|ROWS|PREFIX|OLD|NEW|NAME|N|WORD)(?![\w'\"=])")
COMMAND = re.compile(r"(\./)?(ranksql|ranksql_ask|try|install|tools/\S+|examples/\S+\.(sh|py)|checks/\S+|bench/\S+|\.ci/run|python3|zcat|cat|head|tail|cd|rt|man|git|N=\d+;|cases=)(?= |$|\S*$)")
INLINE = re.compile(r"((\./)?(ranksql|try) )?(top|plain|run|gen) \S+|tools/(why|prepare|advise) \S+")
STATEMENT = re.compile(r"(CREATE (TABLE|PREDICATE|RANK INDEX)|INSERT INTO|SELECT|EXPLAIN|DECLARE|FETCH|CLOSE) ")
PRINTED = re.compile(r"\d+,-?\d+,|\d+,-?\d+$|\s*(SeqScan|RankScan|Rank|HashRankJoin|NestedRankJoin|Distinct|Union|UnionAll|Intersect|Except) .*est=|status \d|(calls|depth|left)=\d|\d+ answers  ")
FAULT = re.compile(r"(script|session|table|score|read|usage): ")

failures = 0


def tell(is_right, what, more=""):
    global failures
    print(f"{'ok     ' if is_right else 'FAILED '} {what}")
    if not is_right:
        failures += 1
        for line in more.splitlines()[:20]:
            print(f"        {line}")


def documents():
    """The documents, as paths from the top."""
    for name in DOCUMENTS:
        path = os.path.join(ROOT, name)
        if os.path.isfile(path):
            yield name
        for folder, _, files in sorted(os.walk(path)):
            for file in sorted(files):
                if file.endswith(".md"):
                    yield os.path.relpath(os.path.join(folder, file), ROOT)


class Folder:
    """A folder that has what the repository has, with scripts that run the built programs, and the files that the commands of
    the documents name as if they were a user's."""

    def __init__(self, path):
        self.path = path
        for name in os.listdir(ROOT):
            if name not in (*SCRIPTS, ".git"):
                os.symlink(os.path.join(ROOT, name), os.path.join(path, name))
        for name, program in SCRIPTS.items():
            self.write(name, f"#!/bin/sh\nexec '{program}' \"$@\"\n".encode())
            os.chmod(os.path.join(path, name), 0o755)
        with open(os.path.join(ROOT, "examples", "hotels.csv"), "rb") as file:
            hotels = file.read()
        self.write("hotels.csv.gz", gzip.compress(hotels))
        self.write("hotels.csv", hotels)
        with open(os.path.join(ROOT, "examples", "first.sql"), "rb") as file:
            self.write("script.sql", file.read())

    def write(self, name, content):
        with open(os.path.join(self.path, name), "wb") as file:
            file.write(content)

    def run(self, command):
        """What a command of a shell does: its status, and what it prints on both streams."""
        environment = {**os.environ, "RANKSQL": PROGRAM, "RANKSQL_ASK": ASKING, "PATH": self.path + os.pathsep + os.environ.get("PATH", "")}
        try:
            ended = subprocess.run(["bash", "-c", command], cwd=self.path, env=environment, stdin=subprocess.DEVNULL,
                                   capture_output=True, timeout=300)
        except subprocess.TimeoutExpired:
            return 124, "", "it took more than 300 seconds"
        return ended.returncode, ended.stdout.decode("utf-8", "replace"), ended.stderr.decode("utf-8", "replace")

    def forget(self, name):
        """Takes a file away that a command of another document may have made."""
        if os.path.exists(os.path.join(self.path, name)):
            os.remove(os.path.join(self.path, name))

    def told(self, script):
        """The fault line of a script that is run plainly."""
        self.write("told.sql", script.encode())
        return self.run("./ranksql plain told.sql")[2].rstrip("\n")


def parts(text):
    """The parts of a document in their order: ("block", lines) and ("text", line)."""
    block = []
    for line in [*text.splitlines(), ""]:
        if line.startswith("    "):
            block.append(line)
            continue
        if block:
            # A block of a list stands further in.
            yield "block", textwrap.dedent("\n".join(block)).split("\n")
            block = []
        if line:
            yield "text", line


def whole_commands(lines):
    """The commands of a block, one a line, or with a text of their own up to a line END."""
    made, is_text = [], False
    for line in lines:
        if is_text:
            made[-1] += "\n" + line
            is_text = line != "END"
        elif line.strip():
            made.append(line)
            is_text = line.endswith("<<'END'")
    return made


def contains(lines, block):
    """Whether a block stands in these lines, one after another."""
    return any(lines[place:place + len(block)] == block for place in range(len(lines) - len(block) + 1))


def shown_files():
    """The lines of each file of output and each table file of the examples."""
    for folder, _, files in os.walk(os.path.join(ROOT, "examples")):
        for name in files:
            if name.endswith((".out", ".csv")):
                with open(os.path.join(folder, name), encoding="utf-8") as file:
                    yield file.read().splitlines()


class Document:
    def __init__(self, name, folder):
        self.name, self.folder = name, folder
        self.printed = list(shown_files())
        self.is_file_next = False
        self.faults = []

    def look(self):
        with open(os.path.join(ROOT, self.name), encoding="utf-8") as file:
            text = file.read()
        found = list(parts(text))
        self.sources = re.findall(r"\]\(([^)#]+\.(?:rt|antt))\)", text)
        self.folder.forget("scores.csv")
        self.faults = [what for kind, what in found if kind == "block" and FAULT.match(what[0])]
        # A fault line or rows may stand in front of their command in a sentence, so the commands come first.
        for kind, what in found:
            self.commands(kind, what)
        for kind, what in found:
            if kind == "block":
                self.block(what)
            elif what.startswith("|"):
                self.row(what)

    def commands(self, kind, what):
        if kind == "text":
            self.is_file_next = what.rstrip().endswith("The file") or what.strip() == "The file"
            for words in re.findall(r"`([^`]+)`", what):
                if INLINE.match(words):
                    self.command(words if words.startswith(("./", "ranksql", "tools/")) else "./ranksql " + words, False)
            return
        if self.is_file_next:
            self.folder.write("h.csv", ("\n".join(what) + "\n").encode())
            self.is_file_next = False
            return
        if what and COMMAND.match(what[0]) and not PRINTED.match(what[0]):
            for command in whole_commands(what):
                # What a command prints stands in a block of its own.
                if COMMAND.match(command):
                    self.command(command, True)
                else:
                    tell(False, f"{self.name}: {command.splitlines()[0]}", "it is no command, and stands among commands")

    def command(self, line, must_run):
        if FORM.search(line.splitlines()[0]):
            return
        for pattern, _ in LEFT_OUT:
            if pattern.match(line):
                script = re.match(r"(?:python3 )?((?:\./|\.ci/|checks/|bench/)[\w./]+)", line)
                tell(not script or os.path.exists(os.path.join(ROOT, script[1])), f"{self.name}: {line} (not run)")
                return
        status, out, said = self.folder.run(line)
        if not must_run and status in (2, 3) and not out:
            return  # Words that only look like a command, or that name a file of the reader.
        is_shown = status < 70 and any(contains(said.splitlines(), fault) for fault in self.faults)
        tell(status == 0 or is_shown, f"{self.name}: {line.splitlines()[0]}", f"status {status}\n{said}")
        self.printed += [out.splitlines(), said.splitlines()]

    def block(self, lines):
        if PRINTED.match(lines[0]) or FAULT.match(lines[0]):
            tell(any(contains(printed, lines) for printed in self.printed), f"{self.name}: the rows `{lines[0][:60]}` ..", "\n".join(lines))
        elif STATEMENT.match(lines[0]) and lines[-1].rstrip().endswith(";"):
            told = self.folder.told("\n".join(lines))
            tell(not re.match(r"script: (lex|parse|NotUtf8)", told), f"{self.name}: the statement `{lines[0][:60]}` ..", told)
        elif self.name in WHOLE and not COMMAND.match(lines[0]):
            tell(any(contains(source, [line.strip() for line in lines]) for source in map(self.source, self.sources)), f"{self.name}: the lines `{lines[0][:60]}` ..", "\n".join(lines))

    def source(self, name):
        """The lines of a source that the document has a link to, without the blanks in front."""
        path = os.path.join(ROOT, os.path.dirname(self.name), name)
        if not os.path.exists(path):
            return []
        with open(path, encoding="utf-8") as file:
            return [line.strip() for line in file]

    def row(self, line):
        """A row of a table whose first cell is a script and whose second one is what is told of it."""
        cells = [cell.strip() for cell in line.strip().strip("|").split("|")]
        if len(cells) != 2 or not all(len(cell) > 2 and cell[0] == cell[-1] == "`" for cell in cells):
            return
        script, wanted = cells[0].strip("`"), cells[1].strip("`")
        if FAULT.match(wanted):
            told = self.folder.told(script)
            tell(told == wanted, f"{self.name}: {script} is told as {wanted}", told)


def examples(folder):
    """Compares the output of the commands that the comments of the examples name with the files of output."""
    for path, _, files in sorted(os.walk(os.path.join(ROOT, "examples"))):
        for file in sorted(files):
            if not file.endswith(".sql"):
                continue
            name = os.path.relpath(os.path.join(path, file), ROOT)
            with open(os.path.join(ROOT, name), encoding="utf-8") as script:
                comments = " ".join(line[2:].strip() for line in script.read().splitlines() if line.startswith("--"))
            output = name[:-len(".sql")] + ".out"
            says = re.search(re.escape(os.path.basename(output)) + r" is what (.*?)\. ?(?=[A-Z]|$)", comments)
            commands = re.findall(r"`(\./ranksql (?:plain|run|ta|view) [^`]+)`", says[1]) if says else []
            tell(bool(commands), f"{name} says which word made {os.path.basename(output)}")
            with open(os.path.join(ROOT, output), encoding="utf-8") as wanted:
                text = wanted.read()
            for command in commands:
                status, out, said = folder.run(command)
                tell(status == 0 and out == text and name in command, f"{output}: {command}", f"status {status}\n{said}{out}")


def manual():
    for words, name in (([], "docs/ranksql.1"), (["ask"], "docs/ranksql_ask.1")):
        made = subprocess.run([sys.executable, os.path.join(ROOT, "tools", "manual.py"), *words], capture_output=True)
        with open(os.path.join(ROOT, name), "rb") as file:
            is_same = file.read() == made.stdout
        tell(made.returncode == 0 and is_same, f"{name} is what tools/manual.py makes",
             made.stderr.decode() or f"make it anew: {' '.join(['tools/manual.py', *words])} >{name}")


def usage():
    """docs/FORMATS.md, from which the manual page is made, shows the usage line that the program itself says."""
    line = subprocess.run([PROGRAM], stdin=subprocess.DEVNULL, capture_output=True, text=True, check=False).stderr.rstrip("\n")
    with open(os.path.join(ROOT, "docs/FORMATS.md"), encoding="utf-8") as document:
        tell(line.startswith("usage: ranksql ") and f"`{line}`" in document.read(), "docs/FORMATS.md shows the usage line", line)


def main():
    if not os.access(PROGRAM, os.X_OK):
        print(f"there is no program {PROGRAM}: ./ranksql builds it", file=sys.stderr)
        return 1
    with tempfile.TemporaryDirectory() as path:
        folder = Folder(path)
        examples(folder)
        for name in documents():
            Document(name, folder).look()
        manual()
    usage()
    print(f"{failures} things failed" if failures else "every document says what is printed")
    return 1 if failures else 0


if __name__ == "__main__":
    sys.exit(main())
