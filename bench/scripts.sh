# Sourced by the scripts that measure edend on commits of many files, behind begin.sh. They set `tries`, and need git and the kit.

needs git
find_edend
[ -z "${BEFORE:-}" ] || check_edend "$BEFORE"
work=$(mktemp -d)
. "$root/tests-with-git/object-lines.sh"
trap 'rm -rf "$work"' EXIT

# The path of file F of directory D of a shape: 1,000 directories side by side, or ten in each of ten in each of ten.
path='
    function path(shape, d, f) {
        if (shape == "wide") return sprintf("dir%03d/file%02d", d, f)
        return sprintf("dir%d/dir%d/dir%d/file%02d", int(d / 100), int(d / 10) % 10, d % 10, f)
    }'

# Commit `one` of 100,000 files, `two` in which a file of each tenth directory has another content, and `small`, which has the first
# ten directories of `one`: in git, and as lines of a script.
make_commits() {
    awk -v shape="$1" "$path"'
        function blob(d, f, changed) { return (d + f + (changed && d % 10 == 0 && f == 50) * 500) % 1000 }
        function commit(name, count, changed,  d, f) {
            print "commit refs/heads/" name "\ncommitter a <a> 0 +0000\ndata 0\ndeleteall"
            for (d = 0; d < count; d++)
                for (f = 0; f < 100; f++) print "M 100644 :" blob(d, f, changed) + 1, path(shape, d, f)
            print ""
        }
        BEGIN {
            for (b = 0; b < 1000; b++) print "blob\nmark :" b + 1 "\ndata <<.\ntext " b + 1 "\n.\n"
            commit("one", 1000, 0)
            commit("two", 1000, 1)
            commit("small", 10, 0)
        }' | git fast-import --quiet --export-marks="$work/marks"
    {
        for name in one two small; do
            echo "root:tree:$(git rev-parse "$name^{tree}")"
            git ls-tree -r -t "$name" | tr ' \t' '::'
        done | object_lines
        for name in one two small; do
            echo "commit $name t$(git rev-parse "$name^{tree}" | cut -c 1-31)"
        done
    } > "$work/objects"
    { cat "$work/objects"; sed -n 's/^commit [a-z]* /id /p' "$work/objects"; } | "$edend" run | sed -n 's/^id //p' > "$work/ids" ||
        fail "$edend failed over the objects of commits"
    git rev-parse 'one^{tree}' 'two^{tree}' 'small^{tree}' | cmp - "$work/ids" || fail "the ids that $edend prints are not Git's"
}

# So many times the lines that are told.
repeat() {
    local lines=$2
    for ((n = 0; n < $1; n++)); do printf "$lines"; done
}

# The milliseconds of processor time that a command takes: the least of the tries, since other work makes a run longer and never shorter.
least() {
    local TIMEFORMAT='%3U %3S'
    for ((try = 0; try < tries; try++)); do
        { time "$@" > "$work/printed" 2> "$work/failed"; } 2>&1 | awk '{ print ($1 + $2) * 1000 }' ||
            fail "$* failed: $(cat "$work/failed")"
        if grep -q '^refused' "$work/printed" || [ -s "$work/failed" ]; then
            fail "a line was refused: $(grep -m 1 '^refused' "$work/printed" | cat - "$work/failed")"
        fi
    done | sort -n | sed -n 1p
}
from_script() {
    "$edend" run < "$work/script"
}
# What a script takes that puts the objects, or those of `objects_file`, mounts a commit and has the lines of standard input.
script() {
    { cat "${objects_file:-$work/objects}"; echo "mount $1 1 1000000000"; cat; } > "$work/script"
    least from_script
}
# Microseconds of one of N, from milliseconds of all and of none.
each() {
    awk -v all="$1" -v none="$2" -v count="$3" 'BEGIN { printf "%.1f", (all - none) * 1000 / count }'
}
ratio() {
    awk -v a="$1" -v b="$2" 'BEGIN { if (b > 0) printf "%.2f", a / b; else printf "none" }'
}
