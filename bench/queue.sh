#!/usr/bin/env bash
# Measures the queue of rs_queue, by lines `work` of the program cases_data: each fills a queue of 1,000, 10,000 or
# 100,000 pairs of scattered keys, and then takes a pair out and puts one in 100,000 times. A new key lies somewhere among
# those that are held. The time of an operation, one of each, is what these add to the time of a run without them. Each
# run is given one line. Beside it, in the same run, python3's heapq does the same with the same keys. Each runs five
# times, in turn, and the shortest time counts. Both are binary heaps, so the time of an operation grows with the
# logarithm of the number of pairs held.
# The program is the one that `rt run` builds, or the one that the variable DATA_CASES names.
# shellcheck source=bench/functions.sh
. "$(dirname "$0")/functions.sh"

HELD='1000 10000 100000'
OPERATIONS=100000
RUNS=5

run_rs_queue() {
    echo "work $1 $2" | "$program"
}

run_heapq() {
    python3 "$work/peer.py" "$1" "$2"
}

# The same work over python3's heap. It prints what the program prints, and is made of the same definitions.
make_peer() {
    cat >"$work/peer.py" <<'PYTHON'
import heapq
import sys


def work(held, operations):
    step, number, checksum, pairs = 524288 // (held + 1), 1, 0, []
    for count in range(held + operations):
        if count >= held and pairs:
            checksum = (16807 * checksum + heapq.heappop(pairs)[0] % 2147483647) % 2147483647
        heapq.heappush(pairs, ((number // 2048 + count * step) * 2097152 + count, count))
        number = 16807 * number % 2147483647
    print("work %d %d" % (held, operations))
    print("  held %d, checksum %d" % (len(pairs), checksum))


work(int(sys.argv[1]), int(sys.argv[2]))
PYTHON
}

report() {
    local filled worked
    filled=$(best_of "$1" ".$2.0")
    worked=$(best_of "$1" ".$2.$OPERATIONS")
    awk -v name="$1" -v held="$2" -v filled="$filled" -v worked="$worked" -v operations="$OPERATIONS" \
        'BEGIN { printf "%-8s %6d held: %8.3f us an operation; filled and started in %8.1f ms\n", \
            name, held, (worked - filled) / operations, filled / 1000 }'
}

if [ -n "${DATA_CASES:-}" ]; then
    program=$DATA_CASES
else
    (cd "$root/crates/cases_data" && rt run </dev/null) >"$work/built" 2>&1 || { cat "$work/built" >&2; exit 1; }
    program=$root/crates/cases_data/out/cases_data
fi

names=(rs_queue)
if command -v python3 >/dev/null 2>&1; then
    names+=(heapq)
    make_peer
else
    echo "python3 is not found: only rs_queue is measured"
fi
echo "a pop and a push, $OPERATIONS times; the best of $RUNS runs"
for held in $HELD; do
    for _ in $(seq "$RUNS"); do
        for operations in 0 "$OPERATIONS"; do
            for name in "${names[@]}"; do
                time_once "$name" ".$held.$operations" "$held" "$operations"
            done
            if [ "${#names[@]}" -gt 1 ]; then
                same_or_fail 'the checksums' "$work/heapq.out" "$work/rs_queue.out"
            fi
        done
    done
    for name in "${names[@]}"; do
        report "$name" "$held"
    done
done
