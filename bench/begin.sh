# Sourced first by each script of bench/, tests-with-git/ and tests-refused/, which says in `most` how many numbers it takes. For any other word, as
# `--help`, it prints the comment at the script's head, and ends it. It sets `root`, the top of the repository.
numbers=0
for word; do
    case $word in
        '' | *[!0-9]*) numbers=$((most + 1)) ;;
        *) numbers=$((numbers + 1)) ;;
    esac
done
if [ "$numbers" -gt "$most" ]; then
    case $1 in
        -h | --help) told=1 status=0 ;;
        *) told=2 status=2 ;;
    esac
    sed -n '2,/^[^#]/s/^# \{0,1\}//p' "$0" >&"$told"
    exit "$status"
fi
root=$(cd "$(dirname "$0")/.." && pwd)

# Ends the script with a message.
fail() {
    echo "$(basename "$0"): $*" >&2
    exit 1
}

# Ends the script where a command that it needs is not there.
needs() {
    for command; do
        command -v "$command" > /dev/null || fail "needs the command $command, which is not here"
    done
}

# `build CRATE FILE WORD..` has `rt WORD..` prove and build a crate, silently but for a line that says so, and ends the script where that fails
# or leaves no out/FILE. It ends at once where all is built already.
build() {
    crate=$1 file=$2
    shift 2
    needs rt
    echo "$(basename "$0"): proving and building $crate, silently, up to two hours the first time" >&2
    mkdir -p "$root/crates/$crate/out"
    (cd "$root/crates/$crate" && rt "$@" < /dev/null) > "$root/crates/$crate/out/built" 2>&1 || {
        cat "$root/crates/$crate/out/built" >&2
        fail "rt $* failed in crates/$crate"
    }
    [ -f "$root/crates/$crate/out/$file" ] || fail "rt $* left no crates/$crate/out/$file"
}

# Ends the script where a program runs no script.
check_edend() {
    [ "$(echo 'mount empty 1 0' | "$1" run 2>&1)" = 'at 1 1 empty' ] || fail "$1 is no edend that works"
}

# Sets `edend` to the program that EDEND names, or else to that of this repository.
find_edend() {
    edend=${EDEND:-}
    if [ -z "$edend" ]; then
        build edend edend run -- run
        edend=$root/crates/edend/out/edend
    fi
    check_edend "$edend"
}

# `measure CRATE WORD..` runs the program that a crate built, with words, and prints what it
# measured. The gate compares what it answers.
measure() {
    program=crates/$1/out/$1
    shift
    "$root/$program" "$@" 2>&1 > /dev/null || fail "$program${*:+ $*} ended with $?"
}
