"""The words of `reference`, and what it prints."""

import argparse
import os

from .command import run_command
from .house import House, top_of
from .reference_pages import write_pages
from .refusal import WRITE, Refusal

ABOUT = """\
Writes the reference from the sources: a page a crate in Markdown, with each public call, its doc comment, its conditions and its
clauses, each definition with its comment and the clauses that cite it, and the laws; the table of the answers of calls that can
fail, with their causes; the files of lemmas that several crates cite; and an index of all names. It begins with the page index.md."""


def parser():
    words = argparse.ArgumentParser(prog="reference", description=ABOUT, allow_abbrev=False, formatter_class=argparse.RawDescriptionHelpFormatter)
    words.add_argument("folder", nargs="?", metavar="FOLDER", help="where the pages are written (out/reference of the repository)")
    return words


def main():
    words = parser().parse_args()
    return run_command("reference", lambda: work(words))


def work(words):
    root = top_of(__file__)
    folder = words.folder or os.path.join(root, "out", "reference")
    try:
        count = write_pages(House(root), folder)
    except OSError as error:
        raise Refusal(WRITE, f"{error.filename or folder}: {error.strerror}") from error
    print(f"{count} pages in {os.path.relpath(folder)}")
    return 0
