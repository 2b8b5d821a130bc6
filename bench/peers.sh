#!/bin/bash
# Measures polls, lists, differences, checkouts, loads, contents and writes of edend beside
# Watchman, Git, `cp -r` and a bare connection, in one run over the same data, and polls that wait
# for a change. It prints a table for each group. README.md says what each row includes. It needs
# git, python3 and cc, and watchman for the polls.
#
# usage: bench/peers.sh [--quick] [TURNS]
# There are 7 turns if TURNS is not set, and 5 at least. --quick takes small sizes, and 2 turns.
# EDEND names the program that is measured, if it is another than this one. ONLY names groups, of
# polls, lists, commits, loads, files, writes and waits. TMPDIR is where the files are made; if it
# is not set, that is /dev/shm if 3 GB are free there.
set -euo pipefail
quick=
if [ "${1:-}" = --quick ]; then
    quick=--quick
    shift
fi
most=1
. "$(dirname "$0")/begin.sh"

least=$([ -n "$quick" ] && echo 1 || echo 5)
turns=${1:-$([ -n "$quick" ] && echo 2 || echo 7)}
[ "$turns" -ge "$least" ] || fail "needs $least turns at least"
for group in ${ONLY:-}; do
    case $group in
        polls | lists | commits | loads | files | writes | waits) ;;
        *) fail "ONLY names no group: $group" ;;
    esac
done
needs git python3 cc
find_edend
exec python3 -B "$root/bench/peers/measure.py" "$edend" "$turns" $quick
