#!/usr/bin/env bash
# Measures ranksql_ask beside a recipe that a user can write with ranksql alone: unknown scores stand as MAX in a column of the
# table; run, pay for the unknown ones among the best k, write them into the table, and run again until none is unknown among
# them. For each number of rows it prints a line with tabs: rows, who, questions, runs, seconds to the first row, seconds in
# all. The answers come from a function that takes no time, so the seconds are those of the program.
#
# usage: bench/ask.sh [ROWS ..]
# The programs are those that RANKSQL and RANKSQL_ASK name, or crates/*/out.
set -u -o pipefail
root=$(cd "$(dirname "$0")/.." && pwd -P)
exec python3 "$root/bench/ask.py" "$root" "$@"
