#!/usr/bin/env bash
# Measures `ranksql top` on the greatest table that it reads, and beside it, in the same run, sqlite3 that imports the
# same file and answers the same query. Each runs five times, in turn, and the shortest time counts.
# The program is the one that ./ranksql builds, or the one that the variable RANKSQL names.
# shellcheck source=bench/functions.sh
. "$(dirname "$0")/functions.sh"

ROWS=131072
MAX=99999
RUNS=5

# A table of names and cities, a price from 0 to MAX and a number of rooms. The numbers are those of the generator
# x -> 16807 x modulo 2^31 - 1, so each run makes the same file.
make_table() {
    awk -v rows="$ROWS" -v max="$MAX" '
        function next_number(below) {
            seed = (seed * 16807) % 2147483647
            return int(seed / 2147483647 * below)
        }
        BEGIN {
            seed = 20260101
            kinds = split("Hotel Inn Lodge Pension Hostel Palace Villa Resort", kind, " ")
            names = split("Aurora Bellevue Castle Dolphin Edelweiss Fjord Garden Harbour Iris Jasmine Lakeside", name, " ")
            cities = split("Bath Bergen Berlin Faro Geneva Lyon Madrid Nice Oslo Prague Siena Vienna York Zadar", city, " ")
            print "name,city,price,rooms"
            for (row = 1; row <= rows; row++)
                printf "%s %s %d,%s,%d,%d\n", kind[1 + next_number(kinds)], name[1 + next_number(names)], row, \
                    city[1 + next_number(cities)], next_number(max + 1), 1 + next_number(400)
        }'
}

# Sets `words` to the command of a side. The table of sqlite3 is in memory, and a number column is declared, so that it
# has nothing to convert in the query.
set_words() {
    case $1 in
        ranksql) words=("$program" top "$work/table.csv" price "$MAX" 10) ;;
        sqlite)
            words=(sqlite3 -batch :memory:
                -cmd 'CREATE TABLE t(name TEXT, city TEXT, price INTEGER, rooms INTEGER);'
                -cmd ".import --csv --skip 1 $work/table.csv t"
                -cmd '.mode list' -cmd '.separator ,'
                'SELECT price, name, city, price, rooms FROM t ORDER BY price DESC, rowid LIMIT 10;')
            ;;
    esac
}

run_ranksql() {
    set_words ranksql
    "${words[@]}"
}

run_sqlite() {
    set_words sqlite
    "${words[@]}" </dev/null
}

report() {
    local peak
    set_words "$1"
    peak=$(peak_of "${words[@]}")
    awk -v name="$1" -v best="$(best_of "$1")" -v peak="$peak" \
        'BEGIN { printf "%-8s %7.1f ms, at most %6.1f MB of memory\n", name, best / 1000, peak * 1024 / 1000000 }'
}

make_table >"$work/table.csv"
echo "a table of $ROWS rows, $(wc -c <"$work/table.csv") bytes; the first 10 rows by price; the best of $RUNS runs"

find_program
names=(ranksql)
if command -v sqlite3 >/dev/null 2>&1; then
    names+=(sqlite)
else
    echo "sqlite3 is not found (on Debian: apt-get install sqlite3): only ranksql is measured"
fi
for _ in $(seq "$RUNS"); do
    for name in "${names[@]}"; do
        time_once "$name"
    done
done
for name in "${names[@]}"; do
    report "$name"
done
if [ "${#names[@]}" -lt 2 ]; then
    exit 0
fi
compare_with_sqlite

# sqlite3 prints no rank.
awk '{ print NR "," $0 }' "$work/sqlite.out" >"$work/wanted"
same_or_fail 'the rows' "$work/wanted" "$work/ranksql.out"
echo "both print the same 10 rows"
