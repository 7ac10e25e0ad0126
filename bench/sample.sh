#!/usr/bin/env bash
# Measures the samples of rs_sample, by the program cases_plans: for queries of one to six entries of a table of
# 131,072 rows, each with eight terms, the time of a sample with all its estimates, and that of one estimate, which is
# asked for by a mask of entries and one of terms. The time of a sample is what ten more samples add to the time of a
# run, and that of an estimate what ten thousand rounds of all of them add, with the tests of which may be asked for.
# Each run is made five times, and the shortest time counts. It is processor time, since other work on the machine
# would take more than a sample does. The scorer's calls are in the time of a sample; how many they are is printed
# beside it. There are queries whose terms read one entry each, the same with an equality of each two neighbouring
# entries, and those whose terms read all entries.
# The program is the one that `rt run` builds, or the one that the variable PLAN_CASES names.
# shellcheck source=bench/functions.sh
. "$(dirname "$0")/functions.sh"

ROWS=131072
SAMPLED=(0 256 64 24 12 8 6)
LETTERS=(a b c d e f)
RUNS=5

# The statements that make the table and the predicates, as the line of a case. Numbers look scattered.
make_front() {
    awk -v rows="$ROWS" 'BEGIN {
        printf "front CREATE TABLE o (x INT, y INT) FROM '\''x,y"
        for (row = 1; row <= rows; row++)
            printf "\\n%d,%d", row * 7919 % 97, row * 104729 % 7
        printf "'\''; CREATE PREDICATE p (v INT) MAX 96 AS v;"
        printf " CREATE PREDICATE q (a INT, b INT, c INT, d INT, e INT, f INT) MAX 96 AS (a + b + c + d + e + f) / 6;\n"
    }'
}

# The query of so many entries, with eight terms: query ENTRIES KIND
query() {
    local from='' where='' order='' between='' place letter last
    for place in $(seq 0 $(($1 - 1))); do
        letter=${LETTERS[$place]}
        from+="${from:+, }o $letter"
        if [ "$place" -gt 0 ] && [ "$2" = joined ]; then
            last=${LETTERS[$((place - 1))]}
            where+="${where:+ AND }$last.y = $letter.y"
        fi
    done
    for place in $(seq 0 7); do
        if [ "$2" = wide ]; then
            order+="${between}$((place + 1)) * q(a.x"
            for letter in 1 2 3 4 5; do
                order+=", ${LETTERS[$((letter % $1))]}.x"
            done
            order+=')'
        else
            order+="${between}$((place + 1)) * p(${LETTERS[$((place % $1))]}.x)"
        fi
        between=' + '
    done
    echo "SELECT a.x FROM $from ${where:+WHERE $where }ORDER BY $order LIMIT 10"
}

# Takes the time in microseconds of so many samples, each asked for all estimates so often:
# take_times SERIES TAKES ASKS QUERY
take_times() {
    local TIMEFORMAT=%U
    { cat "$work/front"; echo "time $2 $3 $4"; } >"$work/cases"
    for _ in $(seq "$RUNS"); do
        { time "$program" <"$work/cases" >"$work/out" 2>"$work/err"; } 2>"$work/seconds" ||
            { echo "bench: cases_plans failed" >&2; cat "$work/err" >&2; exit 1; }
        tr -d '.,\n' <"$work/seconds" >>"$work/sample.$1.times"
        echo 000 >>"$work/sample.$1.times"
    done
}

# How many calls a sample makes, and how many estimates there are: count_all ENTRIES KIND
count_all() {
    awk -v entries="$1" -v kind="$2" -v sampled="${SAMPLED[$1]}" 'BEGIN {
        calls = kind == "wide" ? 8 * sampled ^ entries : 8 * sampled
        for (mask = 1; mask < 2 ^ entries; mask++) {
            inside = 0
            for (term = 0; term < 8; term++)
                if (kind == "wide" ? mask == 2 ^ entries - 1 : int(mask / 2 ^ (term % entries)) % 2 == 1)
                    inside++
            estimates += 2 ^ inside
        }
        printf "%d %d\n", calls, estimates
    }'
}

if [ -n "${PLAN_CASES:-}" ]; then
    program=$PLAN_CASES
else
    (cd "$root/crates/cases_plans" && rt run </dev/null) >"$work/built" 2>&1 || { cat "$work/built" >&2; exit 1; }
    program=$root/crates/cases_plans/out/cases_plans
fi

make_front >"$work/front"
echo "tables of $ROWS rows, eight terms; the best of $RUNS runs"
for kind in narrow joined wide; do
    for entries in 1 2 3 4 5 6; do
        select=$(query "$entries" "$kind")
        series=$kind.$entries
        take_times "$series.once" 1 0 "$select"
        take_times "$series.more" 11 0 "$select"
        take_times "$series.asked" 1 10000 "$select"
        read -r calls estimates <<<"$(count_all "$entries" "$kind")"
        awk -v entries="$entries" -v kind="$kind" -v calls="$calls" -v estimates="$estimates" \
            -v once="$(best_of sample ".$series.once")" -v more="$(best_of sample ".$series.more")" \
            -v asked="$(best_of sample ".$series.asked")" \
            'BEGIN { printf "%-6s %d entries: %8.2f ms a sample, %6d calls in it; %6.3f us an estimate, %5d of them\n", \
                kind, entries, (more - once) / 10000, calls, (asked - once) / 10000 / estimates, estimates }'
    done
done
