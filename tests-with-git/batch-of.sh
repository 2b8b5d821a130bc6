#!/bin/bash
# Prints the objects of some commits of a repository as `git cat-file --batch` prints them, each once, and children first: files, then
# directories from the deepest on, then the commits. `edend run --objects FILE` reads that.
#
# usage: tests-with-git/batch-of.sh REPOSITORY COMMIT..
#
# It needs git. What a commit names that edend has no kind for (a submodule, a file above 8,388,608 bytes) ends it with a message.
set -euo pipefail

fail() { echo "$(basename "$0"): $*" >&2; exit 1; }
case ${1:-} in
    -h | --help) sed -n '2,/^[^#]/s/^# \{0,1\}//p' "$0"; exit 0 ;;
esac
[ $# -ge 2 ] || { sed -n '2,/^[^#]/s/^# \{0,1\}//p' "$0" >&2; exit 2; }
command -v git > /dev/null || fail "needs the command git, which is not here"
git=(git -c core.quotePath=true -C "$1")
shift
ids=$(mktemp)
trap 'rm -f "$ids"' EXIT
commits=()
for name; do
    commits+=("$("${git[@]}" rev-parse --verify --quiet "$name^{commit}")") || fail "$name is no commit"
done

# A path is quoted where it must be, so each object is one line; the number of slashes is how deep it stands. A directory that stands at several
# depths is told by the deepest, below which its own directories stand deeper still.
for commit in "${commits[@]}"; do
    "${git[@]}" ls-tree -r -t -l --full-tree "$commit"
    echo "root tree $("${git[@]}" rev-parse "$commit^{tree}") -"
done | LC_ALL=C awk '
    BEGIN { most = 0 }
    $2 == "commit" { print "a submodule: " $0 > "/dev/stderr"; bad = 1; exit }
    $2 == "blob" {
        if ($4 > 8388608) { print "a file above 8388608 bytes: " $0 > "/dev/stderr"; bad = 1; exit }
        if (!($3 in seen)) { seen[$3]; print $3 }
    }
    $2 == "tree" {
        deep = $1 == "root" ? 0 : 1 + gsub("/", "/")
        if (!($3 in depth) || deep > depth[$3]) depth[$3] = deep
        if (deep > most) most = deep
    }
    END {
        if (bad) exit 1
        for (tree in depth) row[depth[tree]] = row[depth[tree]] tree "\n"
        for (deep = most; deep >= 0; deep--) printf "%s", row[deep]
    }' > "$ids" || fail "edend has no such object"
printf '%s\n' "${commits[@]}" | awk '!seen[$1]++' >> "$ids"
"${git[@]}" cat-file --batch < "$ids"
