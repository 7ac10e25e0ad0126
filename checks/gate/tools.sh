#!/usr/bin/env bash
# Runs the tests of the helpers in tools/. Those that need the built program are left out where there is none, and so are
# those on files of packages that aren't installed: it says how many, and why. It ends with 1 where a test fails.
set -u
cd "$(dirname "$0")/../.." || exit 1
if ! command -v python3 >/dev/null 2>&1; then
    echo 'the tests of tools/ are left out: there is no python3'
    exit 0
fi
said=$(mktemp) || exit 1
trap 'rm -f "$said"' EXIT
if ! PYTHONDONTWRITEBYTECODE=1 python3 -m unittest discover -v -s tools/tests >"$said" 2>&1; then
    grep -v ' \.\.\. ok$' "$said"
    exit 1
fi
echo "ok      tools/: $(grep '^Ran ' "$said")"
sed -n "s/.* \.\.\. skipped ['\"]\(.*\)['\"]\$/left out: \1/p" "$said" | sort | uniq -c
