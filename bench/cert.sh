#!/usr/bin/env bash
# Measures `ranksql cert` and `ranksql check` on two ranked feeds of 100, 1,000 and 8,192 rows, for the first 10, 1,000 and 100,000 pairs.
# There is a key for each hundred rows, and at last one key for all 8,192 rows, with up to 1,000,000 pairs.
# Beside them, in the same run, sqlite3 reads the same files, joins them and sorts all pairs: that is what an answer costs that nobody
# can check, and what it costs to make it anew. Where one key has 67 million pairs it is asked once, for the most pairs alone.
# The certificate has to be the one that checks/model/feeds.py and checks/model/certificates.py write, the check has to say yes, and sqlite3 has to
# find the same pairs.
# The time is processor time, the shortest of five runs, with starting the program and reading the files.
# The program is the one that ./ranksql builds, or the one that the variable RANKSQL names.
# shellcheck source=bench/functions.sh
. "$(dirname "$0")/functions.sh"

RUNS=${RUNS:-5}

needs sqlite3 'nothing is measured without it (on Debian: apt-get install sqlite3)'
needs /usr/bin/time 'it tells the memory (on Debian: apt-get install time)'
needs python3 'it takes the times, and writes what the definition says'
find_program

cd "$root" || exit
python3 - "$program" "$work" "$RUNS" <<'PYTHON'
import collections
import heapq
import itertools
import os
import subprocess
import sys

sys.dont_write_bytecode = True
sys.path.insert(0, "checks/model")
import certificates
import feeds
from measured import draw, processed

program, folder, runs = sys.argv[1], sys.argv[2], int(sys.argv[3])
SIZES = [(100, 1), (1_000, 10), (8_192, 81), (8_192, 1)]
COUNTS = [10, 1_000, 100_000, 1_000_000]
# Of more pairs sqlite3 sorts long.
LARGE = 10_000_000


def feed_of(size, keys):
    scores = sorted((draw(1_000_000) for _ in range(size)), reverse=True)
    return [("key%d" % draw(keys), score) for score in scores]


def room(words, given=os.devnull):
    """The most memory that a program takes, in megabytes. Told by a small program, since what Python holds itself is counted for what it starts."""
    peak = "%s/peak" % folder
    with open(given) as begun:
        subprocess.run(["/usr/bin/time", "-f", "%M", "-o", peak, *words], stdin=begun, stdout=subprocess.DEVNULL, check=True)
    with open(peak) as file:
        return int(file.read().split()[-1]) * 1024 / 1_000_000


def best_pairs(lefts, rights, count):
    """The first keys of pairs, found key by key."""
    numbers = collections.defaultdict(list)
    for number, (key, score) in enumerate(rights, 1):
        numbers[key].append((number, score))
    # A pair of the rows i and j of one key has all pairs of earlier ones before it.
    places, found = collections.Counter(), []
    for i, (key, score) in enumerate(lefts, 1):
        places[key] += 1
        few = count // places[key] + 1
        found.extend(feeds.key(score, other, i, j) for j, other in itertools.islice(numbers[key], few))
    return heapq.nsmallest(count, found)


for size, keys in SIZES:
    both = [feed_of(size, keys), feed_of(size, keys)]
    names = ["%s/%s.csv" % (folder, side) for side in ("left", "right")]
    for name, rows in zip(names, both):
        with open(name, "w") as file:
            file.write("key,score\n")
            file.writelines("%s,%d\n" % row for row in rows)
    print("two feeds of %d rows with %d keys" % (size, keys))
    for count in COUNTS:
        if count > size * size // keys or count == COUNTS[-1] and keys > 1:
            continue
        pairs = best_pairs(*both, count)
        draws = feeds.draws_of(feeds.asks_of(*both, pairs[-1]))
        told = [[(key.encode(), score) for key, score in rows] for rows in both]
        wanted = certificates.written(count, told, draws, [key[1:] for key in pairs])
        cert = "%s/cert.csv" % folder
        with open(cert, "wb") as file:
            file.write(wanted)
        query = "%s/query.sql" % folder
        with open(query, "w") as file:
            file.write(".mode csv\n.separator ,\n")
            for side, name in zip("lr", names):
                file.write("CREATE TABLE %s(key TEXT, score INTEGER);\n.import --skip 1 %s %s\n" % (side, name, side))
            file.write("SELECT l.rowid, r.rowid FROM l, r WHERE l.key = r.key ORDER BY l.score + r.score DESC, l.rowid, r.rowid LIMIT %d;\n" % count)
        writing, checking, theirs = [], [], []
        for turn in range(runs):
            if size * size // keys < LARGE or turn == 0 and count == COUNTS[-1]:
                taken, printed = processed(["sqlite3", "-batch", ":memory:"], query)
                theirs.append(taken)
                if [tuple(map(int, row.split(b","))) for row in printed.split()] != [key[1:] for key in pairs]:
                    sys.exit("bench: sqlite3 finds other pairs at K = %d" % count)
            taken, printed = processed([program, "cert", *names, str(count)])
            writing.append(taken)
            if printed != wanted:
                sys.exit("bench: cert prints another certificate at K = %d" % count)
            taken, printed = processed([program, "check", cert])
            checking.append(taken)
            if printed != b"yes\n":
                sys.exit("bench: check says %s at K = %d" % (printed, count))
        beside = ""
        if theirs:
            beside = "; sqlite3 %9.2f ms and %6.1f MB; ratios %.4f and %.4f" % (
                min(theirs) * 1000, room(["sqlite3", "-batch", ":memory:"], query), min(writing) / min(theirs), min(checking) / min(theirs))
        print("  K = %7d: %5d and %5d rows, %9d bytes; written in %8.2f ms and %6.1f MB, checked in %8.2f ms and %6.1f MB%s"
              % (count, *draws, len(wanted), min(writing) * 1000, room([program, "cert", *names, str(count)]), min(checking) * 1000, room([program, "check", cert]), beside), flush=True)
PYTHON
