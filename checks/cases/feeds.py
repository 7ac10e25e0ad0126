#!/usr/bin/env python3
"""Prints joins of random feeds as the cases of the crate test_feeds.

The feeds are small, with many equal scores. Two thirds of the joins have feeds with a score that rises at some place. This makes the
cases anew, at the top of the repository:

    python3 checks/cases/feeds.py >crates/test_feeds/src/cases.rt
    rt fmt crates/test_feeds
"""

import os
import random
import sys

sys.path.insert(0, os.path.join(os.path.dirname(os.path.abspath(__file__)), "..", "model"))

from feeds import MOST, joined

LETTERS = "abc"
CASES = 8
HEAD = """//! Joins of random feeds: see checks/cases/feeds.py.

use crate::random::Case;

"""


def random_feed(draw, rises):
    base = draw.choice([0, 0, MOST - 4])
    scores = sorted((base + draw.randrange(5) for _ in range(draw.randrange(7))), reverse=True)
    if rises and len(scores) > 1:
        place = draw.randrange(1, len(scores))
        if scores[place - 1] < base + 4:
            scores[place] = draw.randrange(scores[place - 1] + 1, base + 5)
    return [(draw.choice(LETTERS), score) for score in scores]


def written(items):
    return "&[" + ", ".join(items) + "]"


def rows_written(feed):
    return written(f'("{text}", {score})' for text, score in feed)


def main():
    draw = random.Random(20261130)
    print(HEAD, end="")
    for name, rises in ("FALLING", False), ("RISING", True), ("OTHERS", True):
        print(f"pub(crate) const {name}: &[Case] = &[")
        for _ in range(CASES):
            feeds = [random_feed(draw, rises), random_feed(draw, rises)]
            given, stop, draws = joined(feeds)
            pairs = written(str(pair) for pair in given)
            print(f"    ({rows_written(feeds[0])}, {rows_written(feeds[1])}, {pairs}, {stop}, {draws}),")
        print("];")


if __name__ == "__main__":
    main()
