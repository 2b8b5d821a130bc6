#!/bin/bash
# Measures edend on a mount of 100,000 files beside one of 1,000 files, and a poll over a change of the root beside `git diff-tree`.
# README.md says what is measured, and how. It needs git and the kit.
#
# usage: bench/mount.sh [TRIES]
# EDEND names the program that is measured, if it is another than this one, as one of an earlier commit.
set -euo pipefail

most=1
. "$(dirname "$0")/begin.sh"
tries=${1:-5}
[ "$tries" -gt 0 ] || fail "needs one try at least"
. "$root/bench/scripts.sh"

# 100,000 lines of changes of 1,000 files on a mount of so many directories: each file is written a hundred times, or renamed fifty times
# and back, or removed fifty times and written again.
changes() {
    awk -v kind="$1" -v shape="$2" -v count="$3" "$path"'
        BEGIN {
            for (round = 0; round < 100; round++)
                for (n = 0; n < 1000; n++) {
                    old = path(shape, n % count, count == 10 ? int(n / 10) : n % 100)
                    new = old
                    sub(/file/, "moved", new)
                    if (kind == "rename") print "rename", round % 2 ? new : old, round % 2 ? old : new
                    else if (kind == "remove" && round % 2 == 0) print "remove", old
                    else print "write", old, "plain new" n
                }
        }'
}
git_many() {
    git diff-tree -r --stdin < "$work/pairs"
}
git_alone() {
    for ((n = 0; n < 100; n++)); do git diff-tree -r one two; done
}

# Commits `one` and `two`: the mount and the checkout, and the poll beside git.
measure_root() {
    local objects mounted once checkouts checked polls poll many alone
    cp "$work/objects" "$work/script"
    objects=$(least from_script)
    mounted=$(script one < /dev/null)
    once=$(printf 'checkout two normal\nsince 1 1\n' | script one)
    # Both tell the same paths.
    sed -n 's/^Root //p' "$work/printed" | cmp - <(git diff-tree -r --name-only one two)
    checkouts=$(repeat 50 'checkout two normal\ncheckout one normal\n' | script one)
    checked=$(echo 'checkout two normal' | script one)
    polls=$({ echo 'checkout two normal'; repeat 1000 'since 1 1\n'; } | script one)
    repeat 1000 "$(git rev-parse 'one^{tree}') $(git rev-parse 'two^{tree}')\n" > "$work/pairs"
    poll=$(each "$polls" "$checked" 1000)
    many=$(each "$(least git_many)" 0 1000)
    alone=$(each "$(least git_alone)" 0 100)
    echo "objects $objects ms; and a mount $mounted ms; and a checkout and a poll $once ms"
    echo "a checkout, 100 files differ: $(each "$checkouts" "$mounted" 100) us"
    echo "a poll over it: $poll us"
    echo "git diff-tree -r: $many us each of 1,000 in a process, ratio $(ratio "$many" "$poll"); $alone us as a process, ratio $(ratio "$alone" "$poll")"
}

# What each of 100,000 lines of a kind takes, on the large mount and on the small one: of `position`, which changes nothing and is
# answered as a change is, of changes, and of polls over ten writes.
measure_lines() {
    local large small
    large=$(each "$(lines "$1" 1000 | script one)" "$(script one < /dev/null)" 100000)
    small=$(each "$(lines "$1" 10 | script small)" "$(script small < /dev/null)" 100000)
    echo "$1: $large us on 100,000 files; $small us on 1,000; ratio $(ratio "$large" "$small")"
}
lines() {
    if [ "$1" = position ]; then
        repeat 100000 'position\n'
    elif [ "$1" = poll ]; then
        changes write "$shape" "$2" | sed -n 1,10p
        repeat 100000 'since 1 1\n'
    else
        changes "$1" "$shape" "$2"
    fi
}

for shape in wide deep; do
    echo "$shape:"
    export GIT_DIR="$work/$shape"
    git init -q --bare "$GIT_DIR"
    make_commits "$shape"
    measure_root
    for kind in position write rename remove poll; do measure_lines "$kind"; done
done
