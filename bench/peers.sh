#!/usr/bin/env bash
# Measures `ranksql run` on a query over three tables of 600 and of 2,000 rows, for the ten best combinations, beside sqlite3 and,
# where its server and its command are there, PostgreSQL. All read the same files in the same run, join hotels, restaurants and
# museums of one city, and have to print the same rows. sqlite3 and PostgreSQL evaluate the three scores of each combination;
# how often `ranksql` called its predicates, those of its indexes and its sample included, is counted by the program count_calls.
# The word `gen` makes the same tables and asks the same query twice, the second time with EXPLAIN ANALYZE; its whole run is measured too.
# Each side runs fifteen times, in turn, or once where it takes more than two seconds. Its time is that of the whole, the reading of the
# files included, and the median counts; so does the median of the ratios of two sides in one turn, since some machines are half as fast
# at times. What sqlite3 takes to read the files is taken off to have the time of its query alone. Of PostgreSQL it is the time of its
# command; its server was started before. The memory is the most that the process held.
# The programs are those that ./ranksql and `rt run` build, or those that the variables RANKSQL and COUNT_CALLS name.
# shellcheck source=bench/functions.sh
. "$(dirname "$0")/functions.sh"

RUNS=15

needs sqlite3 'nothing is measured without it (on Debian: apt-get install sqlite3)'
needs python3 'it takes the times'
find_program
find_counter

# Starts a server of PostgreSQL of its own, over a socket in the folder of this script, where it is installed.
server=''
start_server() {
    local programs
    command -v psql >/dev/null 2>&1 || return
    programs=$(dirname "$(find /usr/lib/postgresql -name initdb 2>/dev/null | sort | tail -n 1)")
    [ -x "$programs/initdb" ] || return
    local as=()
    if [ "$(id -u)" -eq 0 ]; then
        id postgres >/dev/null 2>&1 || return
        chmod 755 "$work"
        mkdir "$work/server" && chown postgres "$work/server"
        as=(setpriv --reuid postgres --regid postgres --clear-groups)
    else
        mkdir "$work/server"
    fi
    "${as[@]}" "$programs/initdb" -D "$work/server/data" -A trust >"$work/initdb" 2>&1 || return
    "${as[@]}" "$programs/postgres" -D "$work/server/data" -c listen_addresses= -c unix_socket_directories="$work/server" >"$work/postgres" 2>&1 &
    server=$!
    trap 'kill "$server" 2>/dev/null; wait "$server"; rm -rf "$work"' EXIT
    local tries
    for tries in {1..50}; do
        psql -h "$work/server" -U "$([ "$(id -u)" -eq 0 ] && echo postgres || id -un)" -d postgres -c 'SELECT 1' >/dev/null 2>&1 && return
        sleep 0.2
    done
    echo "bench: PostgreSQL didn't start after $tries tries, so it is left out" >&2
    server=''
}
start_server
[ -n "$server" ] || echo 'without PostgreSQL: its server or its command is not there'

python3 - "$program" "$counter" "$work" "$RUNS" "${server:+$work/server}" "$([ "$(id -u)" -eq 0 ] && echo postgres || id -un)" <<'PYTHON'
import statistics
import sys

from measured import calls_of, waited

program, counter, folder, runs, socket, user = *sys.argv[1:4], int(sys.argv[4]), *sys.argv[5:7]
NUMBER, LIMIT = 7, 10
# Seconds: what takes more runs once.
SLOW = 2
TABLES = {"hotel": ("name", "price", "city"), "restaurant": ("name", "city", "rating"), "museum": ("name", "city", "fame")}
SCORE = "(340 - h.price) + 3 * r.rating + 2 * m.fame"
SOURCE = "FROM hotel h, restaurant r, museum m WHERE h.city = r.city AND r.city = m.city"
QUERY = "SELECT %s AS score, h.name, r.name, m.name %s ORDER BY score DESC, h.rowid, r.rowid, m.rowid LIMIT %d;" % (SCORE, SOURCE, LIMIT)


def rows_of(size):
    cities, numbers = max(1, size // 10), range(1, size + 1)
    return {
        "hotel": [("h%d" % row, 40 + (37 * row + 11 * NUMBER) % 300, (row + NUMBER) % cities) for row in numbers],
        "restaurant": [("r%d" % row, (3 * row + NUMBER) % cities, (13 * row + 5 * NUMBER) % 101) for row in numbers],
        "museum": [("m%d" % row, (7 * row + NUMBER) % cities, (29 * row + 3 * NUMBER) % 201) for row in numbers],
    }


def combinations(rows):
    cities = [[row[place] for row in rows[name]] for name, place in (("hotel", 2), ("restaurant", 1), ("museum", 1))]
    return sum(cities[0].count(city) * cities[1].count(city) * cities[2].count(city) for city in set(cities[0]))


def write_files(rows):
    for name, columns in TABLES.items():
        with open("%s/%s.csv" % (folder, name), "w") as file:
            file.write(",".join(columns) + "\n")
            file.writelines("%s,%d,%d\n" % row for row in rows[name])
    script = "".join("CREATE TABLE %s (%s) FROM '%s/%s.csv';\n" % (
        name, ", ".join(column + (" TEXT" if column == "name" else " INT") for column in columns), folder, name) for name, columns in TABLES.items())
    script += """CREATE PREDICATE cheap (price INT) MAX 300 COST 2 AS 340 - price;
CREATE PREDICATE tasty (rating INT) MAX 100 AS rating;
CREATE PREDICATE famous (fame INT) MAX 200 COST 50 AS fame;
CREATE RANK INDEX hotel_cheap ON hotel (cheap(price));
CREATE RANK INDEX restaurant_tasty ON restaurant (tasty(rating));
SELECT h.name, r.name, m.name %s ORDER BY cheap(h.price) + 3 * tasty(r.rating) + 2 * famous(m.fame) LIMIT %d;
""" % (SOURCE, LIMIT)
    with open(folder + "/peers.sql", "w") as file:
        file.write(script)


# The words of sqlite3, which reads the files and then answers a query.
def sqlite_words(query):
    words = ["sqlite3", "-batch", ":memory:"]
    for name, columns in TABLES.items():
        words += ["-cmd", "CREATE TABLE %s(%s);" % (name, ", ".join(column + (" TEXT" if column == "name" else " INTEGER") for column in columns))]
        words += ["-cmd", ".import --csv --skip 1 %s/%s.csv %s" % (folder, name, name)]
        words += ["-cmd", "CREATE INDEX %s_city ON %s(city);" % (name, name)]
    return words + ["-cmd", ".mode list", "-cmd", ".separator ,", query]


def postgres_words():
    text = "SET client_min_messages = error;\n"
    for name, columns in TABLES.items():
        text += "DROP TABLE IF EXISTS %s;\nCREATE TABLE %s(id SERIAL, %s);\n" % (
            name, name, ", ".join(column + (" TEXT" if column == "name" else " INTEGER") for column in columns))
        text += "\\copy %s(%s) FROM '%s/%s.csv' CSV HEADER\nCREATE INDEX ON %s(city);\nANALYZE %s;\n" % (name, ", ".join(columns), folder, name, name, name)
    text += "SELECT %s AS score, h.name, r.name, m.name %s ORDER BY score DESC, h.id, r.id, m.id LIMIT %d;\n" % (SCORE, SOURCE, LIMIT)
    with open(folder + "/postgres.sql", "w") as file:
        file.write(text)
    return ["psql", "-q", "-t", "-A", "-F", ",", "-h", socket, "-U", user, "-d", "postgres", "-f", folder + "/postgres.sql"]


def spent(words):
    """The seconds of a run, what it printed, and the most memory that it held in MB."""
    taken, printed, usage = waited(words)
    return taken, printed.decode(), usage.ru_maxrss * 1024 / 1000000


for size in [600, 2000]:
    rows = rows_of(size)
    write_files(rows)
    generated = ["gen", str(NUMBER), str(size)]
    sides = {
        "run": [program, "run", folder + "/peers.sql", "1"],
        "gen": [program, *generated],
        "sqlite3": sqlite_words(QUERY),
        "its reading": sqlite_words("SELECT 1;"),
    }
    if socket:
        sides["PostgreSQL"] = postgres_words()
    times, printed, memory = {side: [] for side in sides}, {}, {}
    for _ in range(runs):
        for side, words in sides.items():
            if times[side] and times[side][0] > SLOW:
                continue
            taken, printed[side], held = spent(words)
            times[side].append(taken)
            memory[side] = max(held, memory.get(side, 0))
    peers = [side for side in sides if side in ("sqlite3", "PostgreSQL")]
    for side in peers:
        if printed["run"] != "".join("%d,%s\n" % (rank, line) for rank, line in enumerate(printed[side].splitlines(), 1)):
            sys.exit("bench: run and %s print other rows" % side)
    if "".join(printed["gen"].splitlines(True)[:LIMIT]) != printed["run"]:
        sys.exit("bench: gen prints other rows")

    def ratio(side, peer):
        """What a side took of a peer's time, in the middle of all turns."""
        return statistics.median(ours / theirs for ours, theirs in zip(times[side], times[peer]))

    # what sqlite3 takes for the query alone
    times["the query"] = [whole - reading for whole, reading in zip(times["sqlite3"], times["its reading"])]
    calls, all_calls = calls_of(counter, ["run", folder + "/peers.sql", "1"]), 3 * combinations(rows)
    print("three tables of %d rows: all print the same rows" % size)
    print("  calls: run %d, where the others evaluate %d scores: %.1f times as many" % (calls, all_calls, all_calls / calls))
    print("  time of the whole: " + ", ".join("%s %.1f ms" % (side, statistics.median(times[side]) * 1000) for side in sides)
          + "; run takes " + ", ".join("%.2f of %s" % (ratio("run", peer), peer) for peer in peers))
    print("  `gen %d %d` takes %.2f of sqlite3, and %.2f of what sqlite3 takes for the query alone; %d calls" % (
        NUMBER, size, ratio("gen", "sqlite3"), ratio("gen", "the query"), calls_of(counter, generated)))
    print("  memory: " + ", ".join("%s %.1f MB" % (side, memory[side]) for side in sides if side in ("run", "sqlite3")))
PYTHON
