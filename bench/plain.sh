#!/usr/bin/env bash
# Measures `ranksql plain` on a query over three tables, and beside it, in the same run, sqlite3 on the same join with
# the score as an expression. The tables have 150, 300, 600 and then 1,200 rows each, of which a hundred times as many
# combinations satisfy the condition. `plain` scores each of them by each of the three terms, sorts all, and prints the
# first ten. Each runs five times, in turn, and the shortest time counts. It is that of a whole process, which reads the
# files too. Both have to print the same rows. How long they take decides nothing.
# The program is the one that ./ranksql builds, or the one that the variable RANKSQL names.
# shellcheck source=bench/functions.sh
. "$(dirname "$0")/functions.sh"

SIZES='150 300 600 1200'
NUMBER=7
TERMS=3
RUNS=5

needs sqlite3 'nothing is measured without it (on Debian: apt-get install sqlite3)'

# Hotels, restaurants and museums in one city for each ten rows. The numbers follow from the row and from NUMBER, so
# each run makes the same files.
make_tables() {
    awk -v rows="$ROWS" -v number="$NUMBER" -v folder="$work" '
        BEGIN {
            cities = rows < 10 ? 1 : int(rows / 10)
            hotel = folder "/hotel.csv"
            restaurant = folder "/restaurant.csv"
            museum = folder "/museum.csv"
            print "name,price,city" >hotel
            print "name,city,rating" >restaurant
            print "name,city,fame" >museum
            for (row = 1; row <= rows; row++) {
                printf "h%d,%d,%d\n", row, 40 + (37 * row + 11 * number) % 300, (row + number) % cities >hotel
                printf "r%d,%d,%d\n", row, (3 * row + number) % cities, (13 * row + 5 * number) % 101 >restaurant
                printf "m%d,%d,%d\n", row, (7 * row + number) % cities, (29 * row + 3 * number) % 201 >museum
            }
        }'
}

make_script() {
    cat <<SQL
CREATE TABLE hotel (name TEXT, price INT, city INT) FROM '$work/hotel.csv';
CREATE TABLE restaurant (name TEXT, city INT, rating INT) FROM '$work/restaurant.csv';
CREATE TABLE museum (name TEXT, city INT, fame INT) FROM '$work/museum.csv';
CREATE PREDICATE cheap (price INT) MAX 300 COST 2 AS 340 - price;
CREATE PREDICATE tasty (rating INT) MAX 100 AS rating;
CREATE PREDICATE famous (fame INT) MAX 200 COST 50 AS fame;
SELECT h.name, r.name, m.name FROM hotel h, restaurant r, museum m
  WHERE h.city = r.city AND r.city = m.city
  ORDER BY cheap(h.price) + 3 * tasty(r.rating) + 2 * famous(m.fame) LIMIT 10;
SQL
}

run_ranksql() {
    "$program" plain "$work/plain.sql"
}

# The tables are in memory, and number columns are declared, so that sqlite3 has nothing to convert in the query. The
# rows of a table are put in as they stand in the file, so a rowid is the number of a row.
ask_sqlite() {
    sqlite3 -batch :memory: \
        -cmd 'CREATE TABLE hotel(name TEXT, price INTEGER, city INTEGER);' \
        -cmd 'CREATE TABLE restaurant(name TEXT, city INTEGER, rating INTEGER);' \
        -cmd 'CREATE TABLE museum(name TEXT, city INTEGER, fame INTEGER);' \
        -cmd ".import --csv --skip 1 $work/hotel.csv hotel" \
        -cmd ".import --csv --skip 1 $work/restaurant.csv restaurant" \
        -cmd ".import --csv --skip 1 $work/museum.csv museum" \
        -cmd '.mode list' -cmd '.separator ,' \
        "SELECT $1 FROM hotel h, restaurant r, museum m WHERE h.city = r.city AND r.city = m.city $2;" </dev/null
}

run_sqlite() {
    ask_sqlite '340 - h.price + 3 * r.rating + 2 * m.fame AS score, h.name, r.name, m.name' \
        'ORDER BY score DESC, h.rowid, r.rowid, m.rowid LIMIT 10'
}

# Measures both on tables of ROWS rows, and prints a line of the table.
measure() {
    make_tables
    make_script >"$work/plain.sql"
    combinations=$(ask_sqlite 'count(*)' '') || exit
    rm -f "$work/ranksql.times" "$work/sqlite.times"
    for _ in $(seq "$RUNS"); do
        for name in ranksql sqlite; do
            time_once "$name"
        done
        # sqlite3 prints no rank.
        awk '{ print NR "," $0 }' "$work/sqlite.out" >"$work/wanted"
        same_or_fail 'the rows' "$work/wanted" "$work/ranksql.out"
    done
    if [ "$(wc -l <"$work/ranksql.out")" -ne 10 ]; then
        echo "bench: there are not ten rows" >&2
        exit 1
    fi
    # There is no figure of the memory where the system doesn't tell it.
    peak=$(peak_of "$program" plain "$work/plain.sql")
    awk -v rows="$ROWS" -v combinations="$combinations" -v terms="$TERMS" -v ranksql="$(best_of ranksql)" \
        -v sqlite="$(best_of sqlite)" -v peak="$peak" 'BEGIN {
            printf "%6d %12d %9d %9.1f ms %9.1f ms %7.2f %8s\n", rows, combinations, combinations * terms,
                ranksql / 1000, sqlite / 1000, ranksql / sqlite, peak == "" ? "-" : sprintf("%.1f", peak * 1024 / 1000000)
        }'
}

find_program

echo "three tables; the first 10 combinations by score; the best of $RUNS runs; both print the same rows"
echo "The calls are reckoned: one for each combination and each of $TERMS terms."
printf '%6s %12s %9s %12s %12s %7s %8s\n' rows combinations calls ranksql sqlite3 ratio 'MB held'
for ROWS in $SIZES; do
    measure
done
