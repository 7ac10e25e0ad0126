#!/usr/bin/env python3
"""Runs the built program on random feeds and certificates, and compares what it says with certificates.py and feeds.py:
checks/gate/certified.py [COUNT] tries 10,000 of them, or as many as are named. It prints what differs, and ends with 1 where something
does. The program is crates/ranksql/out/ranksql, or the one that the variable RANKSQL names.

Half of the certificates are those of the joins of random feeds; the others have one change: a score, a text, an end, a row, a pair,
or K. At the end come the greatest ones: 8,192 rows of one text on both sides, for K = 1,000,000.
"""

import os
import random
import subprocess
import sys
import tempfile
import time

sys.dont_write_bytecode = True
sys.path.insert(0, os.path.join(os.path.dirname(os.path.abspath(__file__)), "..", "model"))
import certificates
import feeds

ROOT = os.path.dirname(os.path.dirname(os.path.dirname(os.path.abspath(__file__))))
MOST = 4294967295
GREAT, GREATEST = 8192, 1_000_000


def run(program, *words):
    ended = subprocess.run([program, *words], stdin=subprocess.DEVNULL, capture_output=True, check=False)
    return ended.returncode, ended.stdout, ended.stderr


def random_feed(draw):
    base = draw.choice([0, 0, 0, MOST - 4])
    scores = sorted((base + draw.randrange(5) for _ in range(draw.randrange(7))), reverse=True)
    return [(draw.choice(["a", "b", "c", 'x"y', ""]), score) for score in scores]


def write_feed(name, rows):
    with open(name, "wb") as file:
        file.write(b"key,score\n")
        file.writelines(b"%s,%d\n" % (certificates.quoted(text.encode()), score) for text, score in rows)


def certified(sides, wanted):
    given, _, draws = feeds.joined(sides)
    if wanted <= len(given):
        draws = given[wanted - 1][2:] if wanted else (0, 0)
    told = [[(text.encode(), score) for text, score in rows] for rows in sides]
    return certificates.written(wanted, told, draws, [(i, j) for i, j, *_ in given[:wanted]])


def change(draw, text):
    """A certificate with one change of its records."""
    records = text.decode().splitlines()
    place = draw.randrange(len(records))
    name, one, other = records[place].split(",", 2)
    kind = draw.randrange(9)
    if kind == 0:
        del records[place]
    elif kind > 6:
        # The last row of a side, or its end.
        side = [at for at, record in enumerate(records) if record.startswith(("left,", "right,")[kind - 7])]
        if side:
            del records[side[-1]]
    elif kind == 1:
        records.insert(place, records[place])
    elif kind == 2 and one.isdigit():
        records[place] = f"{name},{max(0, int(one) + draw.choice([-2, -1, 1, 2]))},{other}"
    elif kind == 3 and name in ("left", "right"):
        records[place] = f"{name},{one},{draw.choice(['a', 'b', 'c'])}"
    elif kind == 4:
        records.insert(place + 1, draw.choice(["left,end,end", "right,end,end", "pair,1,1", "left,2,a", "right,2,b"]))
    elif kind == 5:
        records[0] = f"cert,1,{draw.randrange(9)}"
    elif name == "pair":
        records[place] = f"pair,{draw.randrange(6)},{draw.randrange(6)}"
    return "".join(record + "\n" for record in records).encode()


def told(name, text):
    """What `check` says of a file: its status, standard output and standard error."""
    line = certificates.line(text)
    if line.startswith("CertForm"):
        return 6, b"", f"table: {name}: {line}\n".encode()
    return 0, f"{line}\n".encode(), b""


def main():
    count = int(sys.argv[1]) if len(sys.argv) > 1 else 10_000
    program = os.environ.get("RANKSQL") or f"{ROOT}/crates/ranksql/out/ranksql"
    draw, kinds, failed = random.Random(19), {}, 0
    with tempfile.TemporaryDirectory() as folder:
        left, right, cert = (os.path.join(folder, name) for name in ("left.csv", "right.csv", "cert.csv"))
        for number in range(count):
            sides, wanted = [random_feed(draw), random_feed(draw)], draw.randrange(9)
            text = certified(sides, wanted)
            if number % 2:
                text = change(draw, text)
            else:
                write_feed(left, sides[0])
                write_feed(right, sides[1])
                if run(program, "cert", left, right, str(wanted)) != (0, text, b""):
                    print(f"differs: cert {sides} {wanted}")
                    failed = 1
            with open(cert, "wb") as file:
                file.write(text)
            said = told(cert, text)
            kind = "Form" if said[0] else said[1].decode().split()[-1 if said[1] == b"yes\n" else 1]
            kinds[kind] = kinds.get(kind, 0) + 1
            if run(program, "check", cert) != said:
                print(f"differs: check {text}: {run(program, 'check', cert)}, and not {said}")
                failed = 1
        if not failed:
            print(f"ok {count} certificates:", ", ".join(f"{kind} {kinds[kind]}" for kind in sorted(kinds)))
        for name in (left, right):
            write_feed(name, [("a", MOST - row) for row in range(GREAT)])
        begun = time.time()
        status, out, err = run(program, "cert", left, right, str(GREATEST))
        # The pair of rows i and j has the sum 2 * MOST + 2 - i - j, so the pairs come by i + j, and then by i.
        pairs = [(i, whole - i) for whole in range(2, 1416) for i in range(1, whole)][:GREATEST]
        last = pairs[-1]
        if status or err or out.count(b"pair,") != GREATEST or not out.endswith(b"pair,%d,%d\n" % last):
            print(f"differs: cert of {GREATEST} pairs")
            failed = 1
        with open(cert, "wb") as file:
            file.write(out)
        written = time.time() - begun
        begun = time.time()
        # The file is short enough to be read.
        if run(program, "check", cert) != (0, b"yes\n", b""):
            print("differs: check of the greatest certificate")
            failed = 1
        checked = time.time() - begun
        sides = [[(b"a", MOST - row) for row in range(GREAT)]] * 2
        text = certificates.written(GREATEST, sides, (GREAT, GREAT), pairs)
        with open(cert, "wb") as file:
            file.write(text)
        begun = time.time()
        if run(program, "check", cert) != (0, b"yes\n", b""):
            print("differs: check of 8,192 rows of one text on both sides")
            failed = 1
        print(f"{'failed' if failed else 'ok'} {GREATEST} pairs: written in {written:.1f} s, checked in {checked:.1f} s, and with {GREAT} rows on both sides in {time.time() - begun:.1f} s")
    return failed


if __name__ == "__main__":
    sys.exit(main())
