# What the scripts of this folder share. Each reads it first:
#
#     . "$(dirname "$0")/functions.sh"
#
# It sets `root`, the folder of the repository, and `work`, a folder that is removed at the end.
# shellcheck shell=bash disable=SC2034
set -u -o pipefail
export LC_ALL=C

root=$(cd "$(dirname "${BASH_SOURCE[0]}")/.." && pwd -P)
# What is written in Python takes what it shares from measured.py.
export PYTHONPATH="$root/bench" PYTHONDONTWRITEBYTECODE=1
work=$(mktemp -d) || exit 1
trap 'rm -rf "$work"' EXIT

# Ends the script where a tool isn't found: needs TOOL REASON
needs() {
    command -v "$1" >/dev/null 2>&1 && return
    echo "bench: $1 is not found: $2" >&2
    exit 1
}

# Sets `program` to the one that the variable RANKSQL names, or else to the one that ./ranksql builds.
find_program() {
    if [ -n "${RANKSQL:-}" ]; then
        program=$RANKSQL
        return
    fi
    "$root/ranksql" top "$root/examples/hotels.csv" price 400 0 || exit
    program=$root/crates/ranksql/out/ranksql
}

# Sets `counter` to the program count_calls: the one that the variable COUNT_CALLS names, or else the one that `rt run` builds.
find_counter() {
    counter=${COUNT_CALLS:-$root/crates/count_calls/out/count_calls}
    [ -n "${COUNT_CALLS:-}" ] && return
    (cd "$root/crates/count_calls" && rt run -- none) >"$work/built" 2>&1
    [ -x "$counter" ] || { cat "$work/built" >&2; exit 1; }
}

# Calls the function run_NAME on the words behind NAME, adds its time in microseconds to the file NAME.times, and keeps
# what it prints in the file NAME.out. A SERIES keeps the times of other words apart.
# time_once NAME [SERIES [WORD..]]
time_once() {
    local name=$1 series=${2:-} start end
    start=${EPOCHREALTIME/[.,]/}
    "run_$name" "${@:3}" >"$work/$name.out" || { echo "bench: $name failed" >&2; exit 1; }
    end=${EPOCHREALTIME/[.,]/}
    echo $((end - start)) >>"$work/$name$series.times"
}

# The shortest time, in microseconds: best_of NAME [SERIES]
best_of() {
    sort -n "$work/$1${2:-}.times" | head -n 1
}

# Prints how the time of ranksql compares with that of sqlite3.
compare_with_sqlite() {
    awk -v ours="$(best_of ranksql)" -v theirs="$(best_of sqlite)" \
        'BEGIN { printf "ranksql takes %.2f of the time of sqlite3\n", ours / theirs }'
}

# Ends the script where two files differ: same_or_fail WHAT WANTED GOT
same_or_fail() {
    cmp -s "$2" "$3" && return
    echo "bench: $1 differ" >&2
    diff "$2" "$3" >&2
    exit 1
}

# The greatest memory of a command in kB: as GNU time tells it, or else the greatest value that was seen in /proc. It
# prints nothing where neither is there.
peak_of() {
    local pid
    if [ -x /usr/bin/time ]; then
        /usr/bin/time -f %M -o "$work/peak" "$@" >/dev/null </dev/null && tail -n 1 "$work/peak"
        return
    fi
    [ -r /proc/self/status ] || return
    "$@" >/dev/null </dev/null &
    pid=$!
    while kill -0 "$pid" 2>/dev/null; do
        awk '/^VmHWM/ { print $2 }' "/proc/$pid/status" 2>/dev/null
    done | sort -n | tail -n 1
}
