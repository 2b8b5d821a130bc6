#!/usr/bin/env python3
"""Days of work in a checkout, beside feed and `edend serve`: generated steps, after each of which
the mount has to equal the directory.

    EDEND=PROGRAM clients/tests/days.py [--seeds N] [--first N] [--steps N] [--socket]

A step writes, saves by a rename, moves, swaps, links, removes, goes over to other commits, stashes,
rebases, or kills feed or edend, also while something is written. After it a sync is asked; then the
mount has just the directory's files, and its number is the one that was answered. A file that no
line can hold may be missing, but not where it is as the mounted commit has it, and not without a
reason in the status. With --socket feed changes the mount over its socket, and no file may be
missing.

A client follows all the while. Each state that it comes to has to be one between the directory
as it was at the position's sync and as it is: so none is older than one that was seen, after
restarts too. Status 1 at the first difference.
"""
import argparse
import bisect
import contextlib
import hashlib
import os
import random
import shutil
import subprocess
import sys
import tempfile
import threading
import time

from kit import client, free_port, writable_edend

import railburnet
from railburnet import control

HERE = os.path.dirname(os.path.realpath(__file__))
NAMES = [b"a", b"b", b"c d", b"\n", "é".encode(), b"back\\slash", b"\xff", b"-x", b"a-b"]
LARGE = 70_000
SURE = 20_000
"""What is smaller than this fits into a line, and what is larger than LARGE doesn't; there is
nothing in between."""


class Differs(Exception):
    """What isn't as it should be."""


def digest(kind, data):
    """A file, short."""
    return kind, len(data), hashlib.sha1(data).digest()


def state_of(top):
    """All files of a directory, short."""
    files = {}
    for folder, folders, names in os.walk(top):
        if folder == top:
            folders.remove(b".git")
        for name in names + [
            name for name in folders if os.path.islink(os.path.join(folder, name))
        ]:
            full = os.path.join(folder, name)
            if os.path.islink(full):
                files[os.path.relpath(full, top)] = digest(3, os.readlink(full))
            else:
                with open(full, "rb") as file:
                    files[os.path.relpath(full, top)] = digest(
                        2 if os.stat(full).st_mode & 0o100 else 1, file.read()
                    )
    return files


class Steps:
    """What may happen in a checkout."""

    def __init__(self, top, chance):
        self.top, self.chance, self.count = top, chance, 0
        self.touched = set()
        """The paths that steps may have touched, what is below them included."""
        self.ever = set()

    def git(self, *words, fails=False):
        done = subprocess.run(
            [
                "git",
                "-C",
                self.top,
                "-c",
                "user.name=a",
                "-c",
                "user.email=a@a",
                "-c",
                "core.hooksPath=/dev/null",
                *words,
            ],
            stdin=subprocess.DEVNULL,
            stdout=subprocess.PIPE,
            stderr=subprocess.PIPE,
            check=not fails,
        )
        return done.stdout

    def at(self, path):
        """The path on the disk; who asks for it may touch it."""
        self.touched.add(path)
        return os.path.join(self.top, path)

    def tracked(self):
        """What git has in its index."""
        return set(self.git("ls-files", "-z").split(b"\0")[:-1])

    def git_works(self, *words, fails=True):
        """Git does something with any of the files that it has or ever had."""
        self.ever |= self.tracked() | set(self.files())
        self.git(*words, fails=fails)
        self.ever |= self.tracked() | set(self.files())
        self.touched |= self.ever

    def new(self):
        """A path at which something may be, in a directory or not."""
        return b"/".join(self.chance.choice(NAMES) for _ in range(self.chance.choice((1, 2, 2, 3))))

    def files(self):
        return sorted(state_of(self.top))

    def any(self, files=None):
        files = self.files() if files is None else files
        return self.chance.choice(files) if files else self.new()

    def folders(self):
        return sorted(
            {
                path[:at]
                for path in self.files()
                for at in range(len(path))
                if path[at : at + 1] == b"/"
            }
        )

    def text(self):
        self.count += 1
        return b"%d text\n" % self.count * self.chance.choice((1, 1, 10, 500)) + self.chance.choice(
            (b"", b"\r", b"\\n ", b"\0\xff" * 99)
        )

    def put(self, path, data, how="wb"):
        os.makedirs(os.path.dirname(self.at(path)), exist_ok=True)
        with open(self.at(path), how) as file:
            file.write(data)

    # The steps.

    def write(self):
        path = self.new()
        self.put(path, self.text())

    def edit(self):
        path = self.any()
        self.put(path, self.text(), self.chance.choice(("wb", "ab", "r+b")))

    def edit_with_the_same_time(self):
        path = self.any()
        status = os.stat(self.at(path))
        self.put(path, b"%x" % self.chance.getrandbits(4), "r+b")
        os.utime(self.at(path), ns=(status.st_atime_ns, status.st_mtime_ns))

    def save(self):
        path = self.any()
        beside = path + b".tmp%d" % self.count
        self.put(beside, self.text())
        os.rename(self.at(beside), self.at(path))

    def move(self):
        old, new = self.any(), self.new()
        os.makedirs(os.path.dirname(self.at(new)), exist_ok=True)
        os.rename(self.at(old), self.at(new))

    def move_folder(self):
        old, new = self.any(self.folders()), self.new()
        os.makedirs(os.path.dirname(self.at(new)), exist_ok=True)
        os.rename(self.at(old), self.at(new))

    def swap(self):
        one, other = (self.any(self.chance.choice((self.files, self.folders))()) for _ in range(2))
        for old, new in ((one, b"swap"), (other, one), (b"swap", other)):
            os.rename(self.at(old), self.at(new))

    def link(self):
        path = self.new()
        os.makedirs(os.path.dirname(self.at(path)), exist_ok=True)
        os.symlink(self.new(), self.at(path))

    def hard_link(self):
        old, new = self.any(), self.new()
        os.makedirs(os.path.dirname(self.at(new)), exist_ok=True)
        os.link(self.at(old), self.at(new))
        self.put(self.chance.choice((old, new)), b"linked\n", "ab")

    def mode(self):
        path = self.any()
        os.chmod(self.at(path), self.chance.choice((0o644, 0o755)))

    def touch(self):
        path = self.any()
        os.utime(self.at(path), follow_symlinks=False)

    def large(self):
        path = self.chance.choice((b"large", b"lib/large", self.new()))
        self.put(path, b"%d" % self.chance.randrange(3) * LARGE)

    def large_again(self):
        """Brings large files of the commit back, and moves and copies them."""
        path, new = self.chance.choice((b"large", b"lib/large", b"lib/tool")), self.new()
        how = self.chance.randrange(3)
        if how == 0:
            self.git_works("checkout", "-q", "HEAD", "--", os.fsdecode(path))
        elif how == 1:
            os.rename(self.at(path), self.at(new))
        else:
            shutil.copy(self.at(path), self.at(new))

    def remove(self):
        path = self.any()
        os.unlink(self.at(path))

    def remove_folder(self):
        path = self.any(self.folders())
        shutil.rmtree(self.at(path))

    def file_and_folder(self):
        """A file becomes a directory, or a directory a file."""
        path = self.any(self.chance.choice((self.files, self.folders))())
        if os.path.isdir(self.at(path)) and not os.path.islink(self.at(path)):
            shutil.rmtree(self.at(path))
            self.put(path, self.text())
        else:
            os.unlink(self.at(path))
            self.put(path + b"/x", self.text())

    def many(self):
        """Many files at once, and most of them gone."""
        for n in range(200):
            self.put(b"many/%d/%d" % (n % 20, n), b"%d" % n)
        for n in range(20):
            if self.chance.random() < 0.9:
                shutil.rmtree(self.at(b"many/%d" % n))

    def go_over(self):
        self.git_works("checkout", "-q", "-f", self.chance.choice(("one", "two", "three")))

    def stash(self):
        self.git_works("stash", "-q", "-u")
        if self.chance.random() < 0.5:
            self.write()
        self.git_works("stash", "pop", "-q")

    def commit(self):
        self.git("add", "-A")
        self.git("commit", "-q", "--allow-empty", "-m", "more")

    def rebase(self):
        self.git("add", "-A")
        self.git("commit", "-q", "--allow-empty", "-m", "mine")
        self.git_works("rebase", "-q", "-X", "theirs", self.chance.choice(("one", "two", "three")))
        self.git_works("rebase", "--abort")

    def reset(self):
        self.git_works("reset", "-q", "--hard", self.chance.choice(("HEAD", "HEAD~1", "two")))
        if self.chance.random() < 0.3:
            self.git_works("clean", "-q", "-f", "-d")


CALM = [
    name
    for name in vars(Steps)
    if not name.startswith("_")
    and name
    not in ("git", "git_works", "tracked", "at", "new", "files", "any", "folders", "text", "put")
]
OF_FILES = [
    name
    for name in CALM
    if name not in ("large_again", "go_over", "stash", "commit", "rebase", "reset")
]
RESTARTS = ["feed", "edend", "both"]


class Follower(threading.Thread):
    """A client that follows all the while, and keeps each state that it came to with the number
    of steps that had begun by then."""

    def __init__(self, place, day):
        super().__init__(daemon=True)
        self._place, self._day = place, day
        self.states, self.over, self.fault = [], threading.Event(), None

    def run(self):
        mount, mirror = railburnet.Client(self._place, connections=1), railburnet.Mirror()
        try:
            while not self.over.is_set():
                try:
                    before = mirror.position
                    if (
                        mount.round(mirror) is railburnet.Outcome.PLACED
                        and mirror.position != before
                    ):
                        place = mirror.position.generation, mirror.position.sequence
                        self.states.append((*place, dict(mirror.files), self._day.begun))
                except (railburnet.ConnectionLost, railburnet.FrameFault):
                    time.sleep(0.005)
        except BaseException as fault:
            self.fault = fault
            raise
        finally:
            mount.close()


class Day:
    """A checkout, its feed and its edend, and what happens there."""

    def __init__(self, folder, seed, over_socket):
        self.seed, self.chance = seed, random.Random(seed)
        self.folder, self.over_socket = folder, over_socket
        self.place = os.path.join(folder, "s") if over_socket else free_port()
        self.top = os.path.join(os.fsencode(folder), b"w")
        self.steps = Steps(self.top, self.chance)
        self.begun, self.kinds = 0, []
        self.history, self.touched = [], [()]
        # Of each generation the numbers that syncs were answered with, and the states that they are
        # of.
        self.births, self.syncs = {}, {}
        self.processes, self.follower = [], None
        self.restarts = 0
        self.known, self.mounted = set(), set()
        """The commits that the mount may be over, and those of them that it may be over now."""

    def prepare(self):
        """Makes a checkout with three branches."""
        git, put = self.steps.git, self.steps.put
        os.mkdir(self.top)
        git("init", "-q", "-b", "one")
        for branch, letter in (("one", b"1"), ("two", b"2"), ("three", b"1")):
            git("checkout", "-q", "-B", branch)
            for n in range(40):
                if (n + len(branch)) % 3:
                    put(b"d%d/f%d" % (n % 5, n), b"%d of %s\n" % (n, branch.encode()))
            put(b"large", letter * LARGE)
            put(b"lib/large", letter * 2 * LARGE)
            put(b"lib/tool", b"tool" * LARGE)
            os.chmod(self.steps.at(b"lib/tool"), 0o755)
            git("add", "-A")
            git("commit", "-q", "-m", branch)
            self.steps.ever |= self.steps.tracked()
        self.history.append(state_of(self.top))

    # Processes.

    def begin(self):
        """Starts feed and edend, and waits until they serve."""
        head = self.steps.git("rev-parse", "HEAD").decode().strip()
        also = ["one", "two", "three"] if self.seed % 2 else []
        objects = os.path.join(self.folder, "objects")
        with open(objects, "wb") as out:
            subprocess.run(
                [*client("objects"), self.top, head, *also],
                stdout=out,
                stderr=subprocess.DEVNULL,
                check=True,
            )
        self.known = {head, *(self.steps.git("rev-parse", name).decode().strip() for name in also)}
        self.mounted = {head}
        named = writable_edend() if self.over_socket else os.environ.get("EDEND")
        program = [named] if named else [sys.executable, os.path.join(HERE, "stand_in.py")]
        where = ["--port", str(self.place)]
        if self.over_socket:
            where = ["--socket", self.place, "--writable"]
        words = [
            "--control",
            os.path.join(self.folder, "control"),
            "--commit",
            head,
            "--settle",
            "0.005",
        ]
        for name in also:
            words += ["--also", name]
        if self.over_socket:
            words += ["--socket", self.place]
        with open(os.path.join(self.folder, "errors"), "ab") as errors:
            feed = subprocess.Popen(
                [*client("feed"), *words, self.top], stdout=subprocess.PIPE, stderr=errors
            )
            edend = subprocess.Popen(
                [
                    *program,
                    "serve",
                    *where,
                    "--connections",
                    "8",
                    "--stay",
                    "--objects",
                    objects,
                ],
                stdin=feed.stdout,
                stdout=subprocess.PIPE,
                stderr=errors,
            )
        feed.stdout.close()
        self.processes = [feed, edend]
        while True:
            line = edend.stdout.readline()
            if not line:
                raise Differs(f"edend ended with {edend.wait()}: {self.errors()}")
            if line.startswith(b"listening "):
                break
        self.restarts += 1

    def errors(self):
        with open(os.path.join(self.folder, "errors"), "rb") as file:
            return file.read()[-2000:]

    def kill(self, which):
        """Kills feed, edend, or both at once; what is left ends by itself."""
        feed, edend = self.processes
        for process in {"feed": [feed], "edend": [edend], "both": [edend, feed]}[which]:
            process.kill()
        # Feed learns of edend's end when it prints or waits; its socket is the next one's to take.
        for process in self.processes:
            process.wait(120)
        edend.stdout.close()
        self.processes = []

    def close(self):
        if self.follower is not None:
            self.follower.over.set()
            self.follower.join()
        for process in self.processes:
            process.kill()
            process.wait()
        if self.processes:
            self.processes[1].stdout.close()

    # Steps.

    def run(self, count):
        self.prepare()
        self.begun = 0
        self.begin()
        self.births_of_now()
        self.follower = Follower(self.place, self)
        self.follower.start()
        self.check()
        for _ in range(count):
            self.step(self.chance.choice([*CALM, *CALM, *RESTARTS]))
        self.follower.over.set()
        self.follower.join()
        if self.follower.fault is not None:
            raise Differs(f"the follower ended: {self.follower.fault!r}")
        for state in self.follower.states:
            self.check_seen(*state)
        return len(self.follower.states)

    def births_of_now(self):
        """Notes the generation that has begun, and the state that it began with at the earliest."""
        generation = self.status()["generation"]
        if generation in self.births or generation <= max(self.births, default=0):
            raise Differs(f"generation {generation} isn't a new one")
        self.births[generation], self.syncs[generation] = max(0, self.begun - 1), []

    def step(self, kind):
        self.kinds.append(kind)
        self.begun += 1
        self.steps.touched = set()
        if kind in RESTARTS:
            self.restart(kind)
        else:
            self.happens(kind)
        before, after = self.history[-1], state_of(self.top)
        self.touched.append(
            {path for path in {*before, *after} if before.get(path) != after.get(path)}
            | self.steps.touched
        )
        self.history.append(after)
        self.mounted.add(self.steps.git("rev-parse", "HEAD").decode().strip())
        self.check()

    def happens(self, kind):
        """Has something happen, as far as it can."""
        if kind == "rebase":
            # It goes by any of the commits on its way.
            self.mounted |= self.known
        with contextlib.suppress(OSError, shutil.Error, subprocess.CalledProcessError):
            getattr(self.steps, kind)()

    def restart(self, which):
        """Kills what runs and begins again; something happens before, meanwhile and after."""
        self.happens(self.chance.choice(OF_FILES))
        self.kill(which)
        if self.chance.random() < 0.5:
            self.happens(self.chance.choice(CALM))
        busy = threading.Thread(
            target=lambda: [self.happens(self.chance.choice(OF_FILES)) for _ in range(3)]
        )
        if self.chance.random() < 0.5:
            busy.start()
        self.begin()
        if busy.ident is not None:
            busy.join()
        self.births_of_now()

    # Checks.

    def status(self):
        return control.status(os.path.join(self.folder, "control"))

    def check(self):
        """After a sync the mount is the directory, and its number is the one that was answered."""
        name = os.path.join(self.folder, "control")
        generation, number = control.sync(name)
        mount, mirror = railburnet.Client(self.place), railburnet.Mirror()
        with contextlib.closing(mount):
            end = time.monotonic() + 30
            while mirror.position is None or mirror.position.sequence < number:
                if time.monotonic() > end:
                    raise Differs(f"{self.where()}: at {mirror.position}, and not at {number}")
                mount.round(mirror)
            place = mount.position().sequence
            if place != number and place != control.sync(name)[1]:
                raise Differs(f"{self.where()}: the mount is at {place}, and feed says {number}")
        held = {path: digest(file.kind, file.content) for path, file in mirror.files.items()}
        self.check_held(held, self.history[-1], self.status()["left_out"])
        self.syncs[generation].append((number, len(self.history) - 1))

    def where(self):
        return f"seed {self.seed}, step {self.begun}, {' '.join(self.kinds[-3:])}"

    def check_held(self, held, there, left_out):
        unequal = {path for path in {*held, *there} if held.get(path) != there.get(path)}
        for path in list(unequal):
            missing = path in there and there[path][1] >= LARGE and path not in held
            if (
                missing
                and not self.over_socket
                and os.fsdecode(path) in left_out
                and not self.is_the_commits(path, there[path])
            ):
                unequal.remove(path)
        if unequal:
            raise Differs(
                f"{self.where()}: "
                + "; ".join(
                    f"{path!r}: {held.get(path)} and not {there.get(path)}"
                    for path in sorted(unequal)
                )
                + f"; {self.errors().decode('utf-8', 'replace')[-500:]}"
            )
        heads = self.mounted & self.known
        last = self.steps.git("rev-parse", "HEAD").decode().strip()
        self.mounted = {last} if last in self.known else heads

    def is_the_commits(self, path, file):
        """Whether each commit that may be the mounted one has this file at this path."""
        for commit in self.mounted & self.known:
            mode = self.steps.git("ls-tree", commit, "--", os.fsdecode(path))[:6]
            data = self.steps.git("cat-file", "blob", f"{commit}:{os.fsdecode(path)}", fails=True)
            if digest({b"100644": 1, b"100755": 2}.get(mode, 0), data) != file:
                return False
        return True

    def check_seen(self, generation, number, files, begun):
        """A state that the follower had is that of the sync before, but for what was touched
        since by steps that had begun."""
        syncs = self.syncs[generation]
        at = bisect.bisect_right(syncs, (number, len(self.history))) - 1
        known = syncs[at][1] if at >= 0 else self.births[generation]
        touched = {path for step in self.touched[known + 1 : begun + 1] for path in step}
        there = self.history[known]
        for path in {*files, *there}:
            if path in touched or any(
                path[:end] in touched for end in range(len(path)) if path[end : end + 1] == b"/"
            ):
                continue
            held = digest(files[path].kind, files[path].content) if path in files else None
            if held != there.get(path) and not (held is None and there[path][1] >= LARGE):
                raise Differs(
                    f"seed {self.seed}: at {generation} {number}, after step {known} and before "
                    f"the end of {begun}, a client had {path!r} as {held} "
                    f"and not {there.get(path)}; {self.kinds[known:begun]}"
                )


def day(seed, steps, over_socket=False):
    """One seed: how many states a client saw, and how often feed and edend were begun."""
    folder = tempfile.mkdtemp(prefix="railburnet-day-")
    state, os.environ["RAILBURNET_STATE"] = os.environ.get("RAILBURNET_STATE"), os.path.join(
        folder, "state"
    )
    one = Day(folder, seed, over_socket)
    try:
        return one.run(steps), one.restarts
    finally:
        one.close()
        del os.environ["RAILBURNET_STATE"]
        if state is not None:
            os.environ["RAILBURNET_STATE"] = state
        shutil.rmtree(folder, ignore_errors=True)


def main():
    parser = argparse.ArgumentParser(
        description=__doc__, formatter_class=argparse.RawDescriptionHelpFormatter
    )
    parser.add_argument("--seeds", type=int, default=10)
    parser.add_argument("--first", type=int, default=0)
    parser.add_argument("--steps", type=int, default=300)
    parser.add_argument("--socket", action="store_true")
    options = parser.parse_args()
    for seed in range(options.first, options.first + options.seeds):
        begun = time.monotonic()
        try:
            states, restarts = day(seed, options.steps, options.socket)
        except Differs as difference:
            print(f"days.py: {difference}", file=sys.stderr)
            return 1
        print(
            f"seed {seed}: {options.steps} steps, equal after each; {restarts} times begun; "
            f"{states:,} states of a client; "
            f"{time.monotonic() - begun:.0f} s",
            flush=True,
        )
    return 0


if __name__ == "__main__":
    sys.exit(main())
