#!/usr/bin/env python3
r"""Prints threshold scans of random tables as cases of the program cases_plans.

The tables are small, with many equal scores. A query has one to four terms, each with a rank index, which two terms may share, and
half of the queries have a condition. The cases stand behind those of rs_sample in crates/cases_plans/stdout. This makes them anew,
at the top of the repository:

    cases=crates/cases_plans
    sed -i '/^# Random scans/,$d' $cases/stdout
    python3 checks/cases/threshold.py >>$cases/stdout
    grep -v '^  ' $cases/stdout >$cases/stdin
"""

import os
import random
import sys

sys.path.insert(0, os.path.join(os.path.dirname(os.path.abspath(__file__)), "..", "model"))

from threshold import Scan, by_score, key

LETTERS = "abcd"


def scan_of(rows, terms, wanted):
    """A scan of a table by terms, each a weight and a column, and a value that the last column is to have, if any."""
    lists = [by_score([row[column] for row in rows]) for _, column in terms]
    sums = [sum(weight * row[column] for weight, column in terms) for row in rows]
    answers = sorted(key(sums[n - 1], n) for n in range(1, len(rows) + 1) if wanted is None or rows[n - 1][-1] == wanted)
    return Scan(lists, [weight for weight, _ in terms], answers)


def case(rows, width, terms, wanted, count):
    names = LETTERS[:width] + "z"
    columns = ", ".join(f"{name} INT" for name in names)
    cells = "\\n".join(",".join(map(str, row)) for row in [names, *rows])
    indexes = " ".join(f"CREATE RANK INDEX i{name} ON t (p({name}));" for name in names[:-1])
    order = " + ".join((f"{weight} * " if weight > 1 else "") + f"p({names[column]})" for weight, column in terms)
    where = "" if wanted is None else f" WHERE z = {wanted}"
    print(
        f"scan {count} CREATE TABLE t ({columns}) FROM '{cells}\\n'; CREATE PREDICATE p (v INT) MAX 9 AS v;"
        f" {indexes} SELECT z FROM t{where} ORDER BY {order};"
    )
    scan = scan_of(rows, terms, wanted)
    for ask in range(1, count + 1):
        row = "none"
        if ask <= len(scan.answers):
            total, number = scan.answers[ask - 1]
            row = f"{number} {-total}"
        depth, ordered, random_ones = scan.accesses(min(ask, len(scan.answers) + 1))
        print(f"  {row}, depth {depth} sorted {ordered} random {random_ones}")


def main():
    random.seed(43)
    print("# Random scans: see checks/cases/threshold.py.")
    for count in range(1, 5):
        for top in (1, 2, 3, 9):
            for wanted in (None, 0):
                width = random.randint(1, count)
                size = random.randint(0, 8)
                rows = [[random.randint(0, top) for _ in range(width)] + [random.randint(0, 1)] for _ in range(size)]
                terms = [(random.choice((1, 1, 2, 3)), random.randrange(width)) for _ in range(count)]
                case(rows, width, terms, wanted, min(size, 4) + 2)


if __name__ == "__main__":
    main()
