#!/usr/bin/env python3
r"""Changes each byte of some certificates to each other value, and prints how many of the changed ones are read and checked as what.
The numbers stand in the crate test_certificates. With the name of a file it prints what `check` says of the file:

    python3 checks/cases/certificates.py
    python3 checks/cases/certificates.py FILE
"""

import os
import sys

sys.path.insert(0, os.path.join(os.path.dirname(os.path.abspath(__file__)), "..", "model"))

from certificates import line, said

FIRST = b"cert,1,1\nleft,9,a\nleft,8,b\nright,9,b\nright,6,a\npair,2,1\n"
WHOLE = b"cert,1,3\nleft,7,a\nleft,end,end\nright,5,a\nright,end,end\npair,1,1\n"
KINDS = ["yes", "Order", "Pairs", "Short", "Left", "Right", "Form"]


def changed(text):
    """How often each answer comes, and the sum of the records that are named, for each byte changed to each other value."""
    counts, places = dict.fromkeys(KINDS, 0), 0
    for at in range(len(text)):
        for byte in range(256):
            if byte != text[at]:
                kind, place = said(text[:at] + bytes([byte]) + text[at + 1 :])
                counts[kind] += 1
                places += place
    return [counts[kind] for kind in KINDS], places


def main():
    if len(sys.argv) > 1:
        with open(sys.argv[1], "rb") as file:
            print(line(file.read()))
        return
    for text in (FIRST, WHOLE):
        print(said(text), *changed(text))


if __name__ == "__main__":
    main()
