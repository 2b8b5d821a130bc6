#!/bin/bash
# Runs scripts of 60 random lines by two programs edend, and compares what they print, what they tell of a fault, and their statuses. It exits
# with 1 at the first script of which one says something else than the other, and leaves that script's path.
#
# usage: tests-with-git/generated-scripts.sh [SCRIPTS]
#
# The program BEFORE names stands beside the one that EDEND names, or else that of this repository, which is proved and built where it is not built
# yet. 2,000 scripts where no number is given; script N is the same in each run.
set -euo pipefail

most=1
. "$(dirname "$0")/../bench/begin.sh"
[ -n "${BEFORE:-}" ] || fail "BEFORE names no program to compare with"
find_edend
check_edend "$BEFORE"
scripts=${1:-2000}
work=$(mktemp -d)

awk -v scripts="$scripts" -v work="$work" '
    function any(n) { return int(rand() * n) }
    function of(words,  list, n) { n = split(words, list, " "); return list[any(n) + 1] }
    function label() { return any(12) ? of("a b c t u v one two") : of("empty Label 0 toolonglabeltoolonglabeltoolonglab x.y") }
    function path() { return any(12) ? of("f g d/f d/g d/e/f x\\sy a-b a/b") : of("\\e / d/ ../f d//f .git \\\\ d\\n") }
    function bytes() { return of("hi \\e \\s\\n\\\\ text\\n a\\sb 0123456789 é") }
    function number(small) { return any(15) ? any(small) : of("0 18446744073709551615 18446744073709551616 07 -1 x") }
    function entries(  n, line) { for (n = any(4); n > 0; n--) line = line " " of("100644 100755 120000 40000 40000 100664 0644") " " of("f g d e x\\sy a-b .git \\e") " " label(); return line }
    function line(mounted) {
        if (!any(80)) return of("x \\ write write\\sa blob position\\s list\\x dirty\\sdirty tree since\\s7 mount")
        if (!any(40)) return of("# #comment")
        if (!mounted || !any(30)) return of("1 2 3 4 5") > 2 ? (any(2) ? "blob " label() " " bytes() : "tree " label() entries()) : (any(3) ? "commit " label() " " label() : "id " label())
        n = any(14)
        if (n < 4) return "write " path() " " (any(30) ? of("plain exec link") : "Plain") " " bytes()
        if (n == 4) return "remove " path()
        if (n == 5) return "rename " path() " " path()
        if (n == 6) return "reset " (any(3) ? of("one two empty") : label())
        if (n == 7) return "checkout " (any(3) ? of("one two empty") : label()) " " (any(30) ? of("normal force dry") : "Dry")
        if (n == 8) return any(3) ? "flush" : "remount " number(9)
        if (n == 9) return "position"
        if (n == 10) return "list" (any(2) ? "" : " " of("f d/** * **/f d/* [ a- \\e"))
        if (n == 11) return "dirty"
        if (n == 12) return "read " path()
        return "since " of("7 7 7 7 1 8") " " number(20)
    }
    BEGIN {
        for (s = 0; s < scripts; s++) {
            srand(s)
            file = work "/" s
            end = any(10) ? "\n" : "\r\n"
            printf "blob a hi%sblob b text%sblob c \\e%s", end, end, end > file
            printf "tree t 100644 f a 100755 g b%stree u 40000 d t 100644 f b%s", end, end > file
            printf "commit one t%scommit two u%s", end, end > file
            at = any(20)
            for (l = 0; l < 60; l++) {
                if (l == at) printf "mount %s 7 %d%s", of("one two empty one"), any(3) ? any(1500) : 1000000, end > file
                printf "%s%s", line(l >= at), (l < 59 || any(2)) ? end : "" > file
            }
            close(file)
        }
    }'

lines=0
for ((s = 0; s < scripts; s++)); do
    status=0 before=0
    "$edend" run < "$work/$s" > "$work/printed" 2> "$work/told" || status=$?
    "$BEFORE" run < "$work/$s" > "$work/printed-before" 2> "$work/told-before" || before=$?
    [ "$status" = "$before" ] && cmp -s "$work/printed" "$work/printed-before" && cmp -s "$work/told" "$work/told-before" ||
        fail "script $s, $work/$s, has status $status and $before, or prints something else"
    lines=$((lines + $(wc -l < "$work/printed")))
    cat "$work/printed" >> "$work/all"
done
words=$(awk '{ print $1, $1 == "refused" ? $2 : "" }' "$work/all" | sort | uniq -c | wc -l)
echo "$scripts scripts print the same $lines lines, in $words words and refusals"
rm -rf "$work"
