#!/bin/bash
# Runs edend on scripts that are made to take long, longer than the gate's tests may: a list by 32 patterns of 256 bytes, which match nothing, on
# each path of 100,000. It looks that they print what they should, and tells what time each took.
#
# usage: tests-refused/hostile.sh
#
# EDEND may name the program to run in place of that of this repository, which is proved and built where it is not built yet. It takes some two
# minutes once that is built.
set -euo pipefail

most=0
. "$(dirname "$0")/../bench/begin.sh"
needs timeout awk cmp
find_edend
work=$(mktemp -d)
trap 'rm -rf "$work"' EXIT

# How many files there are, and how many seconds a script may take.
files=100000
seconds=600

# `list_by NAME PATTERN` lists the files by a pattern, 32 times. Their directories are dir00 to dir99, and their names four letters a and a number.
list_by() {
    [ "${#2}" -eq 256 ] || fail "$1: a pattern of ${#2} bytes"
    awk -v files="$files" -v pattern="$2" -v script="$work/script" -v wanted="$work/wanted" 'BEGIN {
        print "mount empty 7 1000000" > script
        print "at 7 1 empty" > wanted
        for (n = 0; n < files; n++) {
            printf "write dir%02d/aaaa%03d plain x\n", int(n / 1000), n % 1000 > script
            printf "at 7 %d empty\n", n + 2 > wanted
        }
        printf "list" > script
        for (n = 0; n < 32; n++) printf " %s", pattern > script
        print "files 0" > wanted
    }'
    start=$(date +%s%N)
    timeout "$seconds" "$edend" run < "$work/script" > "$work/text" || fail "$1: edend ended with status $?"
    end=$(date +%s%N)
    cmp -s "$work/text" "$work/wanted" || fail "$1: something else is printed"
    echo "$1: $(((end - start) / 1000000)) ms"
}

# `times WORD COUNT` says a word so often.
times() {
    awk -v word="$1" -v count="$2" 'BEGIN { for (n = 0; n < count; n++) printf "%s", word }'
}

list_by 'no name has its last letter' "$(times '*a' 127)*b"
list_by 'the same behind a directory' "dir*/$(times '*a' 125)b"
list_by 'each star takes any path' "$(times '**/' 84)*b*b"
