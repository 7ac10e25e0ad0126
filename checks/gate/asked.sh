#!/usr/bin/env bash
# Runs the built ranksql_ask as a user would, over two pipes and with answers of every kind; checks/gate/asked.py says which. It prints
# a line `ok` for each case, or what differs, and ends with 1 where one fails. The programs are crates/ranksql_ask/out/ranksql_ask
# and crates/ranksql/out/ranksql, or those that the variables RANKSQL_ASK and RANKSQL name.
exec env PYTHONDONTWRITEBYTECODE=1 python3 "$(dirname "$0")/asked.py" "$@"
