#!/bin/bash
# Prints a table of what renames of whole directories take, and what they make of writes, reads, polls, lists and checkouts behind them; and
# what a mirror asks and is told to follow one. README.md says what is measured, and how. It needs git, python3 and the kit.
#
# usage: bench/renames.sh [TRIES]
# EDEND names the program that is measured, if it is another than this one; BEFORE a second one, as of an earlier commit, which takes turns
# with it row by row; MOST the most directories that are renamed, 10,000 if it is not set. With FOLLOW set to nothing the mirror is left out.
set -euo pipefail
shopt -s inherit_errexit

most=1
. "$(dirname "$0")/begin.sh"
tries=${1:-5}
[ "$tries" -gt 0 ] || fail "needs one try at least"
needs python3
. "$root/bench/scripts.sh"

# The objects: commit `whole`, whose directory `all` holds 100,000 files in 1,000 directories; and commit `parts` of a hundred times a hundred
# directories of ten files each, with `other`, whose last directory has a file less.
make_objects() {
    make_commits wide
    {
        cat "$work/objects"
        echo "tree wrapped 40000 all t$(git rev-parse 'one^{tree}' | cut -c 1-31)"
        echo 'commit whole wrapped'
        awk '
            function entries(mode, label, count, letter,  n, line) {
                for (n = 0; n < count; n++) line = line sprintf(" %s %s%02d %s", mode, letter, n, label)
                return line
            }
            BEGIN {
                print "blob content text"
                print "tree ten" entries("100644", "content", 10, "f")
                print "tree nine" entries("100644", "content", 9, "f")
                print "tree hundred" entries("40000", "ten", 100, "b")
                print "tree fewer" entries("40000", "ten", 99, "b") " 40000 b99 nine"
                print "tree top" entries("40000", "hundred", 100, "a")
                print "tree another" entries("40000", "hundred", 99, "a") " 40000 a99 fewer"
                print "commit parts top"
                print "commit other another"
            }'
    } > "$work/more"
    mv "$work/more" "$work/objects"
}

# The first N directories of `parts` are renamed, each beside itself.
renames() {
    awk -v count="$1" '
        BEGIN { for (n = 0; n < count; n++) printf "renamedir a%02d/b%02d a%02d/c%02d\n", int(n / 100), n % 100, int(n / 100), n % 100 }'
}
# 10,000 lines that read the files of the first thousand directories, behind so many renames, or write files elsewhere.
reads() {
    awk -v count="$1" '
        BEGIN { for (n = 0; n < 10000; n++) { d = n % 1000; printf "read a%02d/%s%02d/f%02d\n", int(d / 100), d < count ? "c" : "b", d % 100, int(n / 1000) } }'
}
writes() {
    awk 'BEGIN { for (n = 0; n < 10000; n++) printf "write x%02d/y%02d/file%d plain new\n", n % 100, int(n / 100) % 100, int(n / 10) }'
}
# 100,000 files that are written below one directory.
written() {
    awk 'BEGIN { for (n = 0; n < 100000; n++) printf "write all/dir%03d/file%02d plain new\n", int(n / 100), n % 100 }'
}

# The microseconds of each of N lines of standard input, on a mount of a commit behind those of a file.
of_lines() {
    local with
    with=$({ cat "$2"; cat; } | script "$1")
    each "$with" "$(script "$1" < "$2")" "$3"
}
renaming() {
    repeat "$3" 'renamedir all moved\nrenamedir moved all\n' | of_lines "$1" "$2" $((2 * $3))
}
renaming_each() {
    of_lines parts "$work/none" "$1" < "$2"
}
reading() {
    reads "$1" | of_lines parts "$2" 10000
}
writing() {
    writes | of_lines parts "$1" 10000
}
polling() {
    repeat 10000 "since 1 $(($(wc -l < "$1") + 1))\n" | of_lines parts "$1" 10000
}
listing() {
    repeat 10 'list\n' | of_lines parts "$1" 10
}
going_over() {
    echo 'checkout other normal' | of_lines parts "$1" 1
}

# A row of the table, in microseconds: the work, and what a measure gives of the program of before and of edend.
row() {
    local label=$1 now earlier
    shift
    now=$("$@")
    earlier=$([ -n "${BEFORE:-}" ] && edend=$BEFORE "$@" || echo -)
    echo "| $label | $earlier | $now | $([ "$earlier" = - ] && echo - || ratio "$earlier" "$now") |"
}

export GIT_DIR="$work/wide"
git init -q --bare "$GIT_DIR"
make_objects
echo "| work, in us | before | edend | as fast as before, times |"
echo "|---|---|---|---|"
: > "$work/none"
written > "$work/written"
# A program that looks at each file would take hours for ten thousand of the first.
rounds=10000
[ -z "${BEFORE:-}" ] || rounds=10
row "rename of a directory of 100,000 files that are committed" renaming whole "$work/none" "$rounds"
objects_file=/dev/null row "rename of a directory of 100,000 files that are written" renaming empty "$work/written" 10
for count in 0 1 100 10000; do
    [ "$count" -le "${MOST:-10000}" ] || continue
    renames "$count" > "$work/renamed"
    [ "$count" = 0 ] || row "a rename, of $count one after the other" renaming_each "$count" "$work/renamed"
    row "a write behind $count renamed directories" writing "$work/renamed"
    row "a read behind $count renamed directories" reading "$count" "$work/renamed"
    row "a poll since the last of $count renamed directories" polling "$work/renamed"
    row "a list of 100,000 files behind $count renamed directories" listing "$work/renamed"
    row "a checkout behind $count renamed directories" going_over "$work/renamed"
done

# A mirror of all files, placed before the directory is renamed, follows; and once more when it is renamed back, so that it has held each
# content at each path. Requests and replies are counted with the four bytes of their lengths.
follow() {
    PYTHONPATH="$root/clients/python" python3 - "$edend" "$work/written" << 'END'
import collections, socket, subprocess, sys, threading
from railburnet import Client, Connection, Mirror, Outcome, encode_request

counts, sizes = collections.Counter(), collections.Counter()


def read_all(lines, listening):
    """Reads what edend prints, so that it never waits for a reader, and tells when it listens."""
    for line in lines:
        if line.startswith(b"listening"):
            listening.set()


class Counted(Connection):
    """A connection that counts what it sends and receives."""

    def ask_all(self, requests):
        def counted():
            for request in requests:
                name = type(request).__name__
                counts[name] += 1
                sizes["sent"] += len(encode_request(request))
                yield request
        return super().ask_all(counted())

    def _received(self, unsent):
        for body in super()._received(unsent):
            sizes["received"] += 4 + len(body)
            yield body


with socket.socket() as it:
    it.bind(("127.0.0.1", 0))
    port = it.getsockname()[1]
with subprocess.Popen([sys.argv[1], "serve", "--port", str(port), "--connections", "4", "--stay"], stdin=subprocess.PIPE, stdout=subprocess.PIPE) as edend:
    listening = threading.Event()
    threading.Thread(target=read_all, args=(edend.stdout, listening), daemon=True).start()
    edend.stdin.write(b"mount empty 1 1000000000\n" + open(sys.argv[2], "rb").read() + b"listen\n")
    edend.stdin.flush()
    if not listening.wait(60):
        sys.exit("edend does not listen")
    client = Client(port)
    client._connect = lambda: Counted(port)
    mirror = Mirror()
    for line in (b"", b"renamedir all moved\n", b"renamedir moved all\n"):
        before = client.position().sequence
        edend.stdin.write(line)
        edend.stdin.flush()
        while line and client.position().sequence == before:
            pass
        counts.clear(), sizes.clear()
        while client.round(mirror) is not Outcome.PLACED:
            pass
        asked = ", ".join(f"{number:,} {name}" for name, number in counts.items())
        print(f"{line.decode().strip() or 'the first round'}: {asked}; {sizes['sent']:,} bytes asked, {sizes['received']:,} told; {len(mirror.files):,} files")
    client.close()
    edend.stdin.close()
END
}
[ -z "${FOLLOW-1}" ] || {
    echo
    follow
}
