#!/bin/bash
# Makes 600 blobs, 300 trees and 300 commits at random with git, and compares with Git what Railburnet says of them: the ids that
# `edend run` prints for a script with the same objects, and the files that the store lists of each commit. Then makes 300 pairs of
# commits, and compares what `edend run` lists on a mount of the first of each pair, and the paths that are dirty there after a reset
# to the second. It exits with 1 at the first difference.
#
# usage: tests-with-git/compare.sh [SEED]
#
# It needs git, and the programs edend and rig_git: those that EDEND and RIG_GIT name, or else those of this repository, which are proved and
# built where they are not built yet. With HOW=try, `rt try` compiles and runs both, which takes some minutes and proves nothing. What it makes
# lies in a folder of its own, which it takes away again.
set -euo pipefail

most=1
. "$(dirname "$0")/../bench/begin.sh"
seed=${1:-1}
needs git
case ${HOW:-run} in
    run)
        find_edend
        rig_git=${RIG_GIT:-}
        if [ -z "$rig_git" ]; then
            build rig_git rig_git run
            rig_git=$root/crates/rig_git/out/rig_git
        fi
        ;;
    try)
        needs rt
        edend=
        ;;
    *) fail "HOW is run or try" ;;
esac
work=$(mktemp -d)
. "$root/tests-with-git/object-lines.sh"
trap 'rm -rf "$work"' EXIT
git init -q "$work/repository"
export GIT_DIR="$work/repository/.git"

# A line for each object: `blob N TEXT`, and `tree N` with entries KIND:NAME:N, a directory being one of the trees before.
awk -v seed="$seed" 'BEGIN {
    srand(seed)
    for (b = 0; b < 600; b++) print "blob", b, int(rand() * 1000000)
    names = split("a a.b a-b a0 ab b b.c lib lib.rs main x y z", name, " ")
    split("100644 100755 120000", mode, " ")
    for (t = 0; t < 300; t++) {
        line = ""
        for (n = 1; n <= names; n++) {
            if (rand() < 0.5) continue
            if (t > 20 && rand() < 0.3) line = line " 040000:" name[n] ":" int(rand() * (t < 60 ? t : 60))
            else line = line " " mode[int(rand() * 3) + 1] ":" name[n] ":" int(rand() * 600)
        }
        print "tree", t line
    }
}' > "$work/plan"

# The objects in Git: the blobs and the commits by one process each, and the trees by one that takes them one after another, since a tree
# names ids of earlier ones. `git mktree` puts the entries into Git's order.
mkdir "$work/blobs" "$work/commits"
awk -v folder="$work/blobs" '$1 == "blob" { file = folder "/" $2; print "text " $3 > file; close(file); print file }' "$work/plan" |
    git hash-object -w --stdin-paths > "$work/blob-ids"
mapfile -t blobs < "$work/blob-ids"
trees=()
coproc mktree { exec git mktree --batch; }
while read -r word number rest; do
    [ "$word" = tree ] || continue
    for entry in $rest; do
        IFS=: read -r mode name child <<< "$entry"
        if [ "$mode" = 040000 ]; then
            printf '%s tree %s\t%s\n' "$mode" "${trees[child]}" "$name"
        else
            printf '%s blob %s\t%s\n' "$mode" "${blobs[child]}" "$name"
        fi
    done >&"${mktree[1]}"
    echo >&"${mktree[1]}"
    read -r "trees[number]" <&"${mktree[0]}"
    echo "tree ${trees[number]}" > "$work/commits/$number"
done < "$work/plan"
seq -f "$work/commits/%.0f" 0 $((${#trees[@]} - 1)) | git hash-object -t commit --literally -w --stdin-paths > "$work/commit-ids"
mapfile -t commits < "$work/commit-ids"

# The same as lines of a script, and the ids that it is to print.
declare -A label
for number in "${!blobs[@]}"; do
    label[${blobs[number]}]=b$number
    read -r text < "$work/blobs/$number"
    printf 'blob b%s %s\\n\nid b%s\n' "$number" "${text/ /\\s}" "$number"
done > "$work/script"
for number in "${!trees[@]}"; do
    printf 'tree t%s' "$number"
    while read -r mode word child name; do
        printf ' %s %s %s' "${mode#0}" "$name" "${label[$child]}"
    done < <(git ls-tree "${trees[number]}")
    printf '\nid t%s\ncommit c%s t%s\nid c%s\n' "$number" "$number" "$number" "$number"
    label[${trees[number]}]=t$number
done >> "$work/script"
{
    printf '%s\n' "${blobs[@]}"
    for number in "${!trees[@]}"; do printf '%s\n' "${trees[number]}" "${commits[number]}"; done
} > "$work/ids"

# What a crate's program prints of standard input, as `rt try` compiles and runs it.
tried() {
    echo "compare.sh: compiling $1, silently, a minute or two" >&2
    (cd "$root/crates/$1" && rt try --seconds 600 -- "${@:2}") 2> "$work/failed" || fail "$1 failed: $(cat "$work/failed")"
}

# The ids of a script.
if [ -n "$edend" ]; then
    "$edend" run < "$work/script" > "$work/printed" || fail "$edend ended with $?"
else
    tried edend run < "$work/script" > "$work/printed"
fi
sed -n 's/^id //p' "$work/printed" > "$work/printed-ids"
cmp "$work/ids" "$work/printed-ids" || fail "an id is not Git's"
refused=$(grep -c '^refused' "$work/printed" || true)
[ "$refused" = 0 ] || fail "$refused lines were refused"

# The files of each commit.
{
    printf 'blob %s\n' "${blobs[@]}"
    for number in "${!trees[@]}"; do
        printf 'tree %s\ncommit %s\n' "${trees[number]}" "${commits[number]}"
        git ls-tree -r "${trees[number]}"
    done
} > "$work/listed-by-git"
git cat-file --batch < "$work/ids" > "$work/batch"
if [ -n "$edend" ]; then
    "$rig_git" < "$work/batch" > "$work/listed" || fail "$rig_git ended with $?"
else
    tried rig_git < "$work/batch" > "$work/listed"
fi
cmp "$work/listed-by-git" "$work/listed" || fail "an id or a list of files is not Git's"

echo "$(wc -l < "$work/ids") ids and $(grep -c '^commit ' "$work/listed") listings are those of Git, \
with $(grep -c ' blob ' "$work/listed") files"

# 300 pairs of commits at random: the second has the files of the first with some changes, or in one pair of five files of its own.
# Files give way to directories and directories to files, and kinds change.
git -C "$work" init -q --bare pairs.git
export GIT_DIR="$work/pairs.git"
awk -v seed="$seed" '
    function any(n) { return int(rand() * n) }
    function new_path(  path, depth) {
        path = name[any(names) + 1]
        for (depth = any(4); depth > 0; depth--) path = path "/" name[any(names) + 1]
        return path
    }
    # Takes away what stands at the path and below it.
    function clear(path,  other) {
        for (other in files) if (other == path || index(other, path "/") == 1) delete files[other]
    }
    # Takes away the files at which a directory has to stand for this path.
    function clear_above(path,  part, parts, above, p) {
        parts = split(path, part, "/")
        for (p = 1; p < parts; p++) {
            above = above part[p]
            delete files[above]
            above = above "/"
        }
    }
    function put(path) {
        clear(path)
        clear_above(path)
        files[path] = mode[any(3) + 1] " :" (any(40) + 1)
    }
    function any_file(  path, at, count) {
        for (path in files) count++
        at = any(count)
        for (path in files) if (at-- == 0) return path
        return new_path()
    }
    function change(  path, how) {
        path = any_file()
        how = any(6)
        if (how == 0) put(path)
        else if (how == 1) { if (path in files) sub(/^[0-9]+/, mode[any(3) + 1], files[path]); else put(path) }
        else if (how == 2) delete files[path]
        else if (how == 3) { put(path "/" name[any(names) + 1]); put(path "/" name[any(names) + 1]) }
        else if (how == 4) { while (any(2) && match(path, /\/[^\/]*$/)) path = substr(path, 1, RSTART - 1); put(path) }
        else put(new_path())
    }
    function tell(ref,  path) {
        print "commit refs/heads/" ref "\ncommitter a <a> 0 +0000\ndata 0\ndeleteall"
        for (path in files) print "M " files[path] " \"" path "\""
        print ""
    }
    BEGIN {
        srand(seed + 1)
        names = split("a a.b a-b a0 ab b lib lib.rs two\\040words back\\\\slash new\\nline caf\\303\\251", name, " ")
        split("100644 100755 120000", mode, " ")
        for (b = 1; b <= 40; b++) print "blob\nmark :" b "\ndata <<.\ntext " b "\n.\n"
        for (p = 100; p < 400; p++) {
            split("", files)
            for (f = any(30); f >= 0; f--) put(new_path())
            tell("one-" p)
            if (any(5) == 0) {
                split("", files)
                for (f = any(30); f >= 0; f--) put(new_path())
            } else for (f = any(8); f >= 0; f--) change()
            tell("two-" p)
        }
    }' > "$work/import"
git fast-import --quiet --export-marks="$work/marks" < "$work/import"

# The names that git prints with -z, as lines of a script have them, in byte order of the names.
mark=$(printf '\001')
tab=$(printf '\t')
escaped() {
    LC_ALL=C sed "s/\\\\/\\\\\\\\/g; s/ /\\\\s/g; s/$mark/\\\\n/g"
}
names() {
    tr '\n\000' '\001\n' | LC_ALL=C sort | escaped
}

# The files and directories of a tree, a directory before what it holds: lines MODE:WORD:ID:PATH, behind one of the tree itself.
tree_of() {
    echo "root:tree:$1"
    git ls-tree -r -t -z "$1" | tr '\n\000' '\001\n' | sed "s/ /:/; s/ /:/; s/$tab/:/" | escaped
}

# A script for each pair, and what it prints by Git. Git makes no empty directory of itself: in one pair of twenty the second tree is
# the first one with an empty directory more, and in another it has one beside its other changes.
mkdir "$work/cases"
nothing=$(git mktree < /dev/null)
for pair in $(seq 100 399); do
    one=$(git rev-parse "one-$pair^{tree}")
    two=$(git rev-parse "two-$pair^{tree}")
    [ $((pair % 20)) != 0 ] || two=$one
    [ $((pair % 10)) != 0 ] || two=$({ git ls-tree -z "$two"; printf '040000 tree %s\tvoid\000' "$nothing"; } | git mktree -z)
    root_of_two=two
    [ "$one" != "$two" ] || root_of_two=one
    {
        { tree_of "$one"; tree_of "$two"; } | object_lines
        printf 'commit one t%.31s\ncommit two t%.31s\nmount one 1 1000000\nlist\nreset two\ndirty\n' "$one" "$two"
    } > "$work/cases/$pair"
    git ls-tree -r -z --name-only "$one" | names > "$work/files"
    git diff-tree -r -z --name-only "$one" "$two" | names > "$work/dirty"
    {
        sed -n '/^blob \|^tree \|^commit /s/.*/ok/p' "$work/cases/$pair"
        echo "at 1 1 one"
        echo "files $(wc -l < "$work/files")"
        cat "$work/files"
        echo "at 1 2 $root_of_two"
        echo "dirty $(wc -l < "$work/dirty")"
        cat "$work/dirty"
    } > "$work/cases/$pair.stdout"
done

if [ -n "$edend" ]; then
    for pair in $(seq 100 399); do
        "$edend" run < "$work/cases/$pair" > "$work/printed" || fail "$edend ended with $? at pair $pair"
        diff "$work/cases/$pair.stdout" "$work/printed" || fail "pair $pair differs, Git above edend"
    done
else
    echo "compare.sh: compiling edend once more, silently, a minute or two" >&2
    (cd "$root/crates/edend" && rt try --seconds 600 --cases "$work/cases" -- run) > "$work/tried" 2>&1 || fail "edend failed: $(cat "$work/tried")"
fi
cat "$work/cases/"*.stdout | awk '
    $1 == "files" { lists++; files += $2 }
    $1 == "dirty" { pairs++; paths += $2 }
    END { print lists " lists and " pairs " pairs are those of Git, with " files " files and " paths " paths" }'
