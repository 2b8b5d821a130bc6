#!/bin/bash
# Prints a table of what edend's answers take: polls, checkouts, lists and writes, beside Git over the same commits where Git has such an
# answer, and how they grow. README.md says what is measured, and how. It needs git, GNU time and the kit.
#
# usage: bench/answers.sh [TRIES]
# EDEND names the program that is measured, if it is another than this one; BEFORE a second one, as of an earlier commit, which takes turns
# with it row by row; LARGEST the most files that are written, 1,000,000 if it is not set.
set -euo pipefail

most=1
. "$(dirname "$0")/begin.sh"
tries=${1:-5}
[ "$tries" -gt 0 ] || fail "needs one try at least"
[ "$(env time -f works true 2>&1)" = works ] || fail "needs GNU time, which is not here"
. "$root/bench/scripts.sh"

# N writes of N files in 1,000 directories: in the order of the paths, or in none.
writes() {
    awk -v order="$1" -v count="$2" '
        BEGIN {
            for (n = 0; n < count; n++) {
                k = order == "scattered" ? (n * 7919) % count : n
                printf "write dir%03d/file%04d plain new\n", order == "scattered" ? k % 1000 : int(k * 1000 / count), \
                    order == "scattered" ? int(k / 1000) : k % (count / 1000 < 1 ? 1 : count / 1000)
            }
        }'
}

# The milliseconds of processor time of one of N lines, behind those of a file, on a mount of a commit.
of_line() {
    local without with
    without=$(script "$1" < "$2")
    with=$({ cat "$2"; repeat "$4" "$3\n"; } | script "$1")
    awk -v all="$with" -v none="$without" -v count="$4" 'BEGIN { printf "%.3f", (all - none) / count }'
}

# A row of the table, in milliseconds: the work, what Git takes, or a dash, and what a measure gives of edend and of the program of before.
row() {
    local label=$1 peer=$2 now earlier
    shift 2
    now=$("$@")
    earlier=$([ -n "${BEFORE:-}" ] && edend=$BEFORE "$@" || echo -)
    echo "| $label | $peer | $earlier | $now | $(times "$peer" "$now") | $(times "$earlier" "$now") |"
}
# How many times as fast, where there is something beside it.
times() {
    if [ "$1" = - ]; then echo -; else ratio "$1" "$2"; fi
}

git_all() {
    git diff-tree -r "$(git hash-object -t tree /dev/null)" "$1"
}
git_some() {
    git diff-tree -r one two
}
git_list() {
    git ls-tree -r --name-only "$1"
}

# The milliseconds that so many writes take, in the order of the paths or in none.
of_writes() {
    local without with
    without=$(script empty < /dev/null)
    with=$(writes "$1" "$2" | script empty)
    awk -v all="$with" -v none="$without" 'BEGIN { printf "%.0f", all - none }'
}

# The bytes that each of 80,000 changed files takes, a path of 15 bytes and a content of 3 within.
bytes_a_file() {
    local held none
    echo 'mount empty 1 1000000000' > "$work/script"
    none=$(env time -f %M "$edend" run < "$work/script" 2>&1 > /dev/null)
    { cat "$work/script"; writes "$1" 80000; } > "$work/more"
    held=$(env time -f %M "$edend" run < "$work/more" 2>&1 > /dev/null)
    echo $(((held - none) * 1024 / 80000))
}

measure_polls() {
    local count
    for count in 100 1000 10000 100000; do
        writes ordered "$count" > "$work/before"
        objects_file=/dev/null row "poll over $count changed files" - \
            of_line empty "$work/before" 'since 1 1' $((2000000 / count > 1000 ? 1000 : 2000000 / count))
    done
    echo 'checkout small normal' > "$work/before"
    row "poll over a change of the root, no file to 1,000" "$(least git_all small)" of_line empty "$work/before" 'since 1 1' 1000
    echo 'checkout one normal' > "$work/before"
    row "poll over a change of the root, no file to 100,000" "$(least git_all one)" of_line empty "$work/before" 'since 1 1' 10
    echo 'checkout two normal' > "$work/before"
    row "poll over a change of the root, 100 of 100,000 files" "$(least git_some)" of_line one "$work/before" 'since 1 1' 1000
}

measure_trees() {
    : > "$work/before"
    row "two checkouts, no file to 100,000 and back" - of_line empty "$work/before" 'checkout one normal\ncheckout empty normal' 10
    row "list of 1,000 files" "$(least git_list small)" of_line small "$work/before" 'list' 6000
    row "list of 100,000 files" "$(least git_list one)" of_line one "$work/before" 'list' 60
}

# A million writes take a program of before minutes, so it is not asked for them.
measure_writes() {
    local order count
    for order in ordered scattered; do
        for count in 1000 20000 80000 1000000; do
            [ "$count" -le "${LARGEST:-1000000}" ] || continue
            BEFORE=$([ "$count" -eq 1000000 ] || echo "${BEFORE:-}") objects_file=/dev/null row "$count new files, $order" - of_writes "$order" "$count"
        done
    done
}

measure_memory() {
    local order
    echo
    echo "| bytes for each of 80,000 changed files | - | before | edend | - | before takes, times |"
    echo "|---|---|---|---|---|---|"
    for order in ordered scattered; do
        row "$order" - bytes_a_file "$order"
    done
}

export GIT_DIR="$work/deep"
git init -q --bare "$GIT_DIR"
make_commits deep
echo "| work, in ms | Git | before | edend | as fast as Git, times | as fast as before, times |"
echo "|---|---|---|---|---|---|"
measure_polls
measure_trees
measure_writes
measure_memory
