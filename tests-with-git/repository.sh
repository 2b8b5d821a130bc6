#!/bin/bash
# Puts a real repository into edend as Git prints it, and compares what edend then says with Git: the files of a mounted commit, the paths that
# changed when another one is checked out, the files after that, and the ids of both. It exits with 1 at the first difference.
#
# usage: tests-with-git/repository.sh
#
# The repository is the one that REPOSITORY names, with the commits that FROM and TO name (HEAD~1 and HEAD where they are not set). Without
# REPOSITORY one is made of some 12,000 files below /usr, of up to 8,388,608 bytes, with names that have spaces and line feeds; its second commit
# renames a directory, takes files away, changes some, and puts a directory where a file stood.
#
# It needs git, and the program edend: the one that EDEND names, or else that of this repository, which is proved and built where it is not
# built yet. What it makes lies in a folder of its own, which it takes away again.
set -euo pipefail

most=0
. "$(dirname "$0")/../bench/begin.sh"
needs git
find_edend
work=$(mktemp -d)
trap 'rm -rf "$work"' EXIT
. "$root/tests-with-git/made-repository.sh"
make_repository

"$root/tests-with-git/batch-of.sh" "$repository" "$from" "$to" > "$work/batch"
first=${from:0:32} second=${to:0:32}
printf '%s\n' "mount $first 7 1000000" list "checkout $second normal" "since 7 1" list dirty "id $first" "id $second" > "$work/script"
"$edend" run --objects "$work/batch" < "$work/script" > "$work/printed" || fail "$edend ended with $?"

# Paths that end with NUL, each as a line of a script writes it.
as_words() {
    tr '\n\0' '\001\n' | sed 's/\\/\\\\/g; s/\x01/\\n/g; s/ /\\s/g'
}

# What Git says in the same words.
paths_of() {
    git -C "$repository" ls-tree -r -z --name-only --full-tree "$1" | as_words > "$work/paths"
    echo "files $(wc -l < "$work/paths")"
    cat "$work/paths"
}
git -C "$repository" diff-tree -r -z --no-renames --name-only "$from" "$to" | as_words > "$work/differing"
{
    echo "at 7 1 $first"
    paths_of "$from"
    printf 'at 7 2 %s\nconflicts 0\nchanges %s to 7 2 %s\n' "$second" "$(wc -l < "$work/differing")" "$second"
    sed 's/^/Root /' "$work/differing"
    paths_of "$to"
    printf 'dirty 0\nid %s\nid %s\n' "$from" "$to"
} > "$work/by-git"
cmp "$work/by-git" "$work/printed" || fail "a list is not Git's"

echo "$(grep -ac '^files\|^changes' "$work/printed") lists with $(wc -l < "$work/printed") lines are those of Git, of a batch of $(wc -c < "$work/batch") bytes"
