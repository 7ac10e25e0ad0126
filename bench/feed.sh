#!/usr/bin/env bash
# Measures `ranksql feed` on two ranked feeds of 1,000, 8,192 and 131,072 rows, for the first 1, 10, 100 and 1,000 pairs. Beside it,
# in the same run, sqlite3 reads the same files, joins them and sorts all pairs. There is a key for each hundred rows, so with the most
# rows there are 13 million pairs.
# The pairs have to be the same, and the draws those that the definition of the join says: checks/model/feeds.py reckons them over the
# finished lists.
# The time is processor time, the shortest of five runs. Starting the program and reading both files are part of it on both sides; the
# time of ours with K = 0, which does no more than that, is told beside it.
# The program is the one that ./ranksql builds, or the one that the variable RANKSQL names.
# shellcheck source=bench/functions.sh
. "$(dirname "$0")/functions.sh"

RUNS=${RUNS:-5}

needs sqlite3 'nothing is measured without it (on Debian: apt-get install sqlite3)'
needs python3 'it takes the times, and reckons what the definition says'
find_program

cd "$root" || exit
python3 - "$program" "$work" "$RUNS" <<'PYTHON'
import collections
import csv
import heapq
import itertools
import sys

sys.dont_write_bytecode = True
sys.path.insert(0, "checks/model")
import feeds
from measured import draw, processed

program, folder, runs = sys.argv[1], sys.argv[2], int(sys.argv[3])
SIZES = [1_000, 8_192, 131_072]
COUNTS = [1, 10, 100, 1_000]
# Joining and sorting all pairs of the greatest feeds takes sqlite3 long, so that is done once.
LARGE = 100_000


def feed_of(size):
    keys = max(1, size // 100)
    scores = sorted((draw(1_000_000) for _ in range(size)), reverse=True)
    return [("key%d" % draw(keys), score) for score in scores]


def best_pairs(lefts, rights, count):
    """The first keys of pairs, found key by key."""
    numbers = collections.defaultdict(list)
    for number, (key, score) in enumerate(rights, 1):
        numbers[key].append((number, score))
    found = (feeds.key(score, other, i, j) for i, (key, score) in enumerate(lefts, 1) for j, other in itertools.islice(numbers[key], count))
    return heapq.nsmallest(count, found)


for size in SIZES:
    both = [feed_of(size), feed_of(size)]
    names = ["%s/%s-%d.csv" % (folder, side, size) for side in ("left", "right")]
    for name, rows in zip(names, both):
        with open(name, "w") as file:
            file.write("key,score\n")
            file.writelines("%s,%d\n" % row for row in rows)
    print("two feeds of %d rows" % size)
    for count in COUNTS:
        keys = best_pairs(*both, count)
        asks = feeds.asks_of(*both, keys[-1] if len(keys) == count else None)
        draws = feeds.draws_of(asks)
        wanted = ["%d,%d,%s,%d,%d" % (rank, -sum_, both[0][i - 1][0], both[0][i - 1][1], both[1][j - 1][1]) for rank, (sum_, i, j) in enumerate(keys, 1)]
        query = "%s/query.sql" % folder
        with open(query, "w") as file:
            file.write(".mode csv\n.separator ,\n")
            for side, name in zip("lr", names):
                file.write("CREATE TABLE %s(key TEXT, score INTEGER);\n.import --skip 1 %s %s\n" % (side, name, side))
            file.write("SELECT l.score + r.score AS sum, l.key, l.score, r.score FROM l, r WHERE l.key = r.key ORDER BY sum DESC, l.rowid, r.rowid LIMIT %d;\n" % count)
        ours, idle, theirs = [], [], []
        for turn in range(runs):
            taken, printed = processed([program, "feed", *names, str(count)])
            ours.append(taken)
            if printed.decode().splitlines() != [*wanted, "left=%d right=%d" % draws]:
                sys.exit("bench: ranksql prints other pairs or draws at K = %d" % count)
            idle.append(processed([program, "feed", *names, "0"])[0])
            if turn == 0 or size < LARGE:
                taken, printed = processed(["sqlite3", "-batch", ":memory:"], query)
                theirs.append(taken)
                if ["%d,%s" % (rank, ",".join(row)) for rank, row in enumerate(csv.reader(printed.decode().splitlines()), 1)] != wanted:
                    sys.exit("bench: sqlite3 prints other pairs at K = %d" % count)
        mine, least, peer = min(ours), min(idle), min(theirs)
        print("  K = %4d: %6d and %6d draws; %8.2f ms, %8.2f ms of them with K = 0; sqlite3 %9.2f ms; ratio %.4f"
              % (count, *draws, mine * 1000, least * 1000, peer * 1000, mine / peer), flush=True)
PYTHON
