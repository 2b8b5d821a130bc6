#!/bin/bash
# Measures how long edend takes to put a real repository's objects, as `git cat-file --batch` prints them, and how much memory; and beside it
# `git fast-import` of the same commits, which writes a pack. README.md says what came out.
#
# usage: bench/objects.sh
#
# The repository is that of tests-with-git/repository.sh, or the one that REPOSITORY names, with the commits FROM and TO. It needs git, GNU's
# time, and the program edend: the one that EDEND names, or else that of this repository, which is proved and built where it isn't yet.
set -euo pipefail

most=0
. "$(dirname "$0")/begin.sh"
needs git
[ -x /usr/bin/time ] || fail "needs GNU's time as /usr/bin/time, which is not here"
find_edend
work=$(mktemp -d)
trap 'rm -rf "$work"' EXIT
. "$root/tests-with-git/made-repository.sh"
make_repository
"$root/tests-with-git/batch-of.sh" "$repository" "$from" "$to" > "$work/batch"
git -C "$repository" branch -f measured-from "$from"
git -C "$repository" branch -f measured-to "$to"
git -C "$repository" fast-export measured-from measured-to > "$work/stream"

# Seconds of a processor, seconds of the clock and MiB at most that a command takes with this input: the fastest of three.
measured() {
    for try in 1 2 3; do
        prepare
        /usr/bin/time -f '%U %S %e %M' -o "$work/time" "$@" < "$input" > "$work/printed" || fail "$* ended with $?"
        cat "$work/time"
    done | sort -n | head -n 1 | awk '{ printf "%.2f s of a processor, %.2f s of the clock, %d MiB\n", $1 + $2, $3, $4 / 1024 }'
}

echo "objects: $(grep -ac '^[0-9a-f]\{40\} \(blob\|tree\|commit\) [0-9]*$' "$work/batch"), bytes: $(wc -c < "$work/batch")"
prepare() { :; }
echo "mount ${to:0:32} 7 1000000" > "$work/script"
input=$work/script
echo "edend run --objects: $(measured "$edend" run --objects "$work/batch")"
input=$work/stream
prepare() { rm -rf "$work/imported" && git init -q --bare "$work/imported"; }
echo "git fast-import: $(measured git -C "$work/imported" fast-import --quiet)"
echo "git fast-import, without compression: $(measured git -C "$work/imported" -c pack.compression=0 -c core.compression=0 fast-import --quiet)"
