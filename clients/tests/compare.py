#!/usr/bin/env python3
"""Runs mirrors of railburnet.py beside `edend serve` on generated changes, and compares them with
what `edend run` lists and reads.

    EDEND=PROGRAM clients/tests/compare.py [--rounds N] [--seeds N]

Of each seed 100 rounds of up to twelve lines go to `edend serve`: writes, removals, renames of
files and of directories, checkouts, resets, flushes and remounts, some of which are refused.
After each round a mirror of all files, one with patterns, one that excludes what these match, and
each seventh time one that has fallen behind, go on until they are placed at the position that
`edend run` prints after the same lines, and have to hold just the files that its `list` and `read`
print there. In the end `edend serve` has to print `audit ok`. Status 1 at the first difference.
"""
import argparse
import os
import random
import re
import subprocess
import sys
import time

sys.path.insert(0, os.path.join(os.path.dirname(os.path.realpath(__file__)), "..", "python"))
sys.path.insert(0, os.path.dirname(os.path.realpath(__file__)))
import railburnet  # noqa: E402
from kit import free_port  # noqa: E402

PATTERNS = (b"**/a*", b"d/**")
OBJECTS = """blob x hi
blob y text\\n
tree s 100644 a x 120000 l x 100755 run y
tree t 40000 d s 100644 z y
tree u 40000 d s 100755 a x 40000 e s 100644 z x
commit one t
commit two u
"""
KINDS = {
    b"plain": railburnet.Kind.PLAIN,
    b"exec": railburnet.Kind.EXEC,
    b"link": railburnet.Kind.LINK,
}
ESCAPES = {b"\\\\": b"\\", b"\\n": b"\n", b"\\s": b" ", b"\\e": b""}


class Differs(Exception):
    """What isn't as it should be."""


def unescaped(word):
    return re.sub(rb"\\[\\nse]", lambda escape: ESCAPES[escape[0]], word)


def generated(seed, rounds):
    """The lines of each round."""
    chance = random.Random(seed)
    names = [b"a", b"a-b", b"b", b"d", b"e", b"x\\sy", b"\xff\xfe", b"back\\\\slash"]
    generation = 7

    def path():
        return b"/".join(chance.choice(names) for _ in range(chance.choice((1, 1, 2, 2, 3))))

    def line():
        nonlocal generation
        how = chance.random()
        if how < 0.55:
            text = chance.choice(
                [
                    b"\\e",
                    b"hi",
                    b"more\\stext\\n",
                    b"%d" % chance.randrange(1000),
                    b"\x00\xff" * chance.randrange(1, 5000),
                ]
            )
            return b"write %s %s %s" % (
                path(),
                chance.choice([b"plain", b"plain", b"exec", b"link"]),
                text,
            )
        if how < 0.65:
            return b"remove " + path()
        if how < 0.85:
            return b"%s %s %s" % (chance.choice([b"rename", b"renamedir"]), path(), path())
        if how < 0.92:
            return b"checkout %s %s" % (
                chance.choice([b"one", b"two", b"empty"]),
                chance.choice([b"normal", b"force", b"dry"]),
            )
        if how < 0.95:
            return b"reset " + chance.choice([b"one", b"two", b"empty"])
        if how < 0.98:
            return b"flush"
        generation += chance.choice([0, 1, 1])
        return b"remount %d" % generation

    return [[line() for _ in range(chance.randrange(13))] for _ in range(rounds)]


class Printed:
    """What `edend run` printed, line by line."""

    def __init__(self, edend, lines):
        done = subprocess.run(
            [edend, "run"], input=b"\n".join(lines) + b"\n", stdout=subprocess.PIPE, check=True
        )
        self._lines = iter(done.stdout.split(b"\n"))

    def line(self):
        return next(self._lines)

    def change(self, line):
        """Passes over what a change printed."""
        if self.line().startswith(b"at ") and line.startswith(b"checkout"):
            for _ in range(int(self.line().split()[1])):
                self.line()

    def paths(self):
        return [self.line() for _ in range(int(self.line().split()[1]))]

    def file(self):
        kind, _, text = self.line().partition(b" ")
        return railburnet.File(KINDS[kind], unescaped(text))


def expected(edend, head, rounds):
    """After each round the generation and number, the files, and those that the patterns admit,
    as `edend run` prints them."""
    asked = [b"position", b"list", b"list " + b" ".join(PATTERNS)]
    first = Printed(edend, head + [line for lines in rounds for line in lines + asked])
    listed = []
    for _ in head:
        first.line()
    for lines in rounds:
        for line in lines:
            first.change(line)
        _, generation, number, _ = first.line().split()
        listed.append(((int(generation), int(number)), first.paths(), first.paths()))
    second = Printed(
        edend,
        head
        + [
            line
            for lines, (_, paths, _) in zip(rounds, listed)
            for line in lines + [b"read " + path for path in paths]
        ],
    )
    for _ in head:
        second.line()
    for lines, (place, paths, admitted) in zip(rounds, listed):
        for line in lines:
            second.change(line)
        files = {unescaped(path): second.file() for path in paths}
        yield place, files, {unescaped(path): files[unescaped(path)] for path in admitted}


def go_on(client, mirror, place):
    """Rounds until the mirror is placed there; how many."""
    end = time.monotonic() + 30
    for count in range(1, 1_000_000):
        client.round(mirror)
        if (
            mirror.position is not None
            and (mirror.position.generation, mirror.position.sequence) == place
        ):
            return count
        if time.monotonic() > end:
            raise Differs(f"not placed at {place}, but {mirror.position}")
    return 0


def compare(edend, seed, count):
    """One seed: how many rounds of mirrors and files were compared."""
    head = OBJECTS.encode().split(b"\n")[:-1] + [b"mount one 7 20000"]
    rounds = generated(seed, count)
    told = list(expected(edend, head, rounds))
    port = free_port()
    server = subprocess.Popen(
        [edend, "serve", "--port", str(port), "--connections", "4"],
        stdin=subprocess.PIPE,
        stdout=subprocess.PIPE,
    )
    server.stdin.write(b"\n".join(head + [b"listen", b""]))
    server.stdin.flush()
    while server.stdout.readline() != b"listening %d\n" % port:
        if server.poll() is not None:
            raise Differs(f"{edend} serve ended with {server.returncode}")
    clients = [railburnet.Client(port) for _ in range(4)]
    excluding = railburnet.Mirror(b"!" + pattern for pattern in PATTERNS)
    mirrors = [railburnet.Mirror(), railburnet.Mirror(PATTERNS), excluding, railburnet.Mirror()]
    made = files = 0
    for turn, (lines, (place, all_files, admitted)) in enumerate(zip(rounds, told), 1):
        server.stdin.write(b"".join(line + b"\n" for line in lines))
        server.stdin.flush()
        others = {path: file for path, file in all_files.items() if path not in admitted}
        for which, wanted in enumerate((all_files, admitted, others, all_files)):
            if which == 3 and turn % 7 and turn != count:
                continue
            made += go_on(clients[which], mirrors[which], place)
            files += len(wanted)
            if mirrors[which].files != wanted:
                raise Differs(
                    f"seed {seed}, round {turn}, mirror {which}: {sorted(mirrors[which].files)} "
                    f"and not {sorted(wanted)}"
                )
    for client in clients:
        client.close()
    server.stdin.close()
    ended = server.stdout.read()
    if server.wait(120) != 0 or ended != b"audit ok\n":
        raise Differs(f"seed {seed}: serve printed {ended!r} and ended with {server.returncode}")
    return made, files


def main():
    parser = argparse.ArgumentParser(
        description=__doc__, formatter_class=argparse.RawDescriptionHelpFormatter
    )
    parser.add_argument("--rounds", type=int, default=100)
    parser.add_argument("--seeds", type=int, default=5)
    options = parser.parse_args()
    edend = os.environ.get("EDEND")
    if not edend:
        parser.error("EDEND names no program edend")
    made = files = 0
    try:
        for seed in range(options.seeds):
            more, held = compare(edend, seed, options.rounds)
            made, files = made + more, files + held
    except Differs as difference:
        print(f"compare.py: {difference}", file=sys.stderr)
        return 1
    print(
        f"{options.seeds} seeds of {options.rounds} rounds: {made:,} rounds of mirrors are equal "
        f"to what edend lists and reads, "
        f"{files:,} files; audit ok"
    )
    return 0


if __name__ == "__main__":
    sys.exit(main())
