#!/bin/bash
# Refuses each growth of memory in turn, and fails each read and write in turn, and looks that nothing is lost by it.
#
# usage: tests-refused/refusals.sh
#
# crates/rig_refused makes calls of the library one after another. Where one answers that memory was refused, it looks that what was to change is
# as before, and makes the call again; so it has to print the same whichever growth was refused. `edend run` is run on the example scripts:
# crates/edend/stdin, and the others beside this one, over two-commits.batch, which git cat-file --batch printed. Where a growth was refused, it
# has to print the same, or a front of that, and end with status 3 and NoMemory. Each is run so often that each of its growths is refused once,
# until a run meets no refusal. Then edend is given one byte a read and takes one a write, each of which fails in turn: it has to print a front
# of what it prints else, and to end with status 3 and Read or Write. A table tells how often something was refused or failed, how many of these
# runs ended as with ample memory, and how many told of it. At last bodies of messages are drawn by lot and read, and it is looked how much
# memory is held at once for bodies of a length. The script ends with 1 where a run differs, crashes or hangs, where nothing is refused, or where
# too much is held.
#
# EDEND and RIG_REFUSED may name programs to take in place of those of this repository, which are proved and built where they are not built yet.
# It needs cc, and takes some five minutes once all is built.
set -euo pipefail

most=0
. "$(dirname "$0")/../bench/begin.sh"
needs cc timeout env awk cmp seq
here=$root/tests-refused
work=$(mktemp -d)
trap 'rm -rf "$work"' EXIT
cc -O2 -shared -fPIC -o "$work/refuse.so" "$here/refuse.c" || fail "cc can't compile refuse.c"
find_edend
rig=${RIG_REFUSED:-}
if [ -z "$rig" ]; then
    build rig_refused rig_refused run
    rig=$root/crates/rig_refused/out/rig_refused
fi

# How many runs are made side by side, and how many seconds one may take.
lanes=2
seconds=60

# `once K NAME` runs the program with its K-th growth refused, or its K-th read or write failed, as `what` says, or none for 0. It leaves out.NAME,
# err.NAME and counts.NAME.
once() {
    rm -f "$work/counts.$2"
    timeout "$seconds" env "$what=$1" NARROW="$narrow" COUNTS="$work/counts.$2" LD_PRELOAD="$work/refuse.so" "${words[@]}" \
        < "$input" > "$work/out.$2" 2> "$work/err.$2"
}

# `counted NAME COLUMN` is a number that a run left.
counted() {
    awk -v column="$2" '{ print $column }' "$work/counts.$1" 2> "$work/none" || true
}

# Whether a run of the rig is right: it printed the same. `quiet` says that no call answered NoMemory.
judge_rig() {
    [ "$1" -eq 0 ] && cmp -s "$work/out.$2" "$work/out.all" || return 1
    case $(tail -n 1 "$work/err.$2") in
        'refused 0') quiet=1 ;;
        'refused '[0-9]*) quiet=0 ;;
        *) return 1 ;;
    esac
}

# Whether a run of edend is right: it printed the same, or a front of it, and told that memory was refused, or a device failed.
judge_edend() {
    size=$(stat -c %s "$work/out.$2")
    case $1 in
        0) cmp -s "$work/out.$2" "$work/out.all" && [ ! -s "$work/err.$2" ] && quiet=1 ;;
        3) cmp -s -n "$size" "$work/out.$2" "$work/out.all" && grep -Eq "$told_of" "$work/err.$2" && quiet=0 ;;
        *) return 1 ;;
    esac
}

# Refuses or fails what a lane has to: each so many-th. It leaves a line for each: its number, whether it was quiet, or what is wrong.
lane() {
    for ((k = $1; k <= count; k += lanes)); do
        status=0
        once "$k" "$1" || status=$?
        if [ "$(counted "$1" "$hits")" = 1 ] && "$judge" "$status" "$1"; then
            echo "$k $quiet"
        else
            echo "$k wrong: status $status, $(tail -n 1 "$work/err.$1")"
        fi
    done > "$work/lane.$1"
}

# `each NAME JUDGE INPUT WORD..` refuses each growth of a program in turn, or fails each read and write, and tells a line of the table.
each() {
    name=$1 judge=$2 input=$3
    shift 3
    words=("$@")
    once 0 all || fail "$name fails by itself: $(tail -n 1 "$work/err.all")"
    "$judge" 0 all && [ "$quiet" = 1 ] || fail "$name goes wrong by itself: $(tail -n 1 "$work/err.all")"
    [ -s "$work/counts.all" ] || fail "$name was not counted: refuse.so is not loaded into it"
    count=$(counted all "$calls")
    for ((first = 1; first <= lanes; first++)); do
        lane "$first" &
    done
    wait
    # One more than there are is not met.
    once $((count + 1)) 0 || fail "$name fails where nothing is refused"
    [ "$(counted 0 "$hits")" = 0 ] || fail "$name does not make the same calls in each run"
    cat "$work"/lane.[1-9] > "$work/lanes"
    same=$(awk '$2 == 1' "$work/lanes" | wc -l)
    told=$(awk '$2 == 0' "$work/lanes" | wc -l)
    printf '%-24s %8d %8d %8d\n' "$name" "$count" "$same" "$told"
    if grep -m 3 wrong "$work/lanes" >&2; then
        fail "$name goes wrong where those are refused"
    fi
    [ "$count" -gt 0 ] && [ "$told" -gt 0 ] && [ $((same + told)) -eq "$count" ] || fail "$name: nothing is refused any more"
    all=$((all + count)) all_same=$((all_same + same)) all_told=$((all_told + told))
}

# `edends NAME` does so with edend on each of the example scripts.
edends() {
    each "$1" judge_edend "$root/crates/edend/stdin" "$edend" run
    for script in go-over list-files; do
        each "$1, $script" judge_edend "$here/$script" "$edend" run --objects "$here/two-commits.batch"
    done
}

# `hold COUNT LENGTH` draws so many bodies of at most this length, reads them, and tells how much memory was held at once: at the most 128 KiB,
# for a mount and the buffers of its service, and 16 times a body's length.
hold() {
    input=/dev/null words=("$rig" bodies "$1" "$2")
    once 0 all || fail "bodies of $2 bytes: $(tail -n 1 "$work/err.all")"
    most_held=$(counted all 3)
    printf '%8d bodies of at most %8d bytes: %9d bytes held at once\n' "$1" "$2" "$most_held"
    [ "$most_held" -le $((131072 + 16 * $2)) ] || fail "more is held than 131,072 bytes and 16 times a body's length"
}

what=REFUSE narrow=0 calls=1 hits=2 told_of=NoMemory
all=0 all_same=0 all_told=0
printf '%-24s %8s %8s %8s\n' 'growths of' refused same NoMemory
for name in puts checkouts ranges directories imports batches decoding serving staying overlapping repeated remounted desks served-desks scripts; do
    each "$name" judge_rig /dev/null "$rig" "$name"
done
edends 'edend run'
printf '%-24s %8d %8d %8d\n' together "$all" "$all_same" "$all_told"

what=FAIL narrow=1 calls=4 hits=5 told_of='Read|Write'
all=0 all_same=0 all_told=0
printf '%-24s %8s %8s %8s\n' 'reads and writes of' failed same told
edends 'edend run'
printf '%-24s %8d %8d %8d\n' together "$all" "$all_same" "$all_told"

what=REFUSE narrow=0
hold 10000 600
hold 1000 6000
hold 200 60000
hold 50 600000
hold 20 6000000
hold 20 16777216
