"""Checkouts whose Git asks Railburnet, beside the same without: what the tests of the hook share."""
import contextlib
import os
import random
import shutil
import subprocess
import threading
import time

from days import CALM, RESTARTS, Steps
from kit import client

from railburnet import state

WAYS = {
    "cache": {},
    "all": {"status.showUntrackedFiles": "all"},
    "no-cache": {"core.untrackedCache": "false"},
}
"""How Git may be set up, besides by git-setup: the first is as that has it."""
BRANCHES = ("one", "two", "three")
IGNORED = ("*.o", "a", "b/", "/many", "!b", "c d/**")


class GitSteps(Steps):
    """What may happen in a checkout, with more that Git does."""

    def add(self):
        self.git("add", "-A")

    def add_some(self):
        self.git("add", "--", os.fsdecode(self.any()))

    def ignore(self):
        path = self.chance.choice((b".gitignore", b"d1/.gitignore", b".git/info/exclude"))
        self.put(path, os.fsencode(self.chance.choice(IGNORED)) + b"\n", self.chance.choice(("ab", "wb")))

    def object_file(self):
        self.put(self.new() + b".o", self.text())

    def clean(self):
        self.git("clean", "-q", "-f", "-d", *self.chance.choice(((), ("-x",))))

    def check_out_file(self):
        self.git("checkout", "-q", "HEAD", "--", os.fsdecode(self.any()))

    def merge(self):
        self.git("merge", "-q", "--no-edit", self.chance.choice(BRANCHES), fails=True)
        if self.chance.random() < 0.5:
            self.git("merge", "--abort", fails=True)

    def remove_from_index(self):
        self.git("rm", "-q", "-r", "--cached", "--", os.fsdecode(self.any(self.folders())))

    def empty_folder(self):
        os.makedirs(self.at(self.new()))


OF_GIT = [name for name in vars(GitSteps) if not name.startswith("_")]
KINDS = [*CALM, *OF_GIT]


class Checkout:
    """A checkout in which Git asks Railburnet, and a state folder of its own."""

    def __init__(self, folder, seed=0):
        self.top = os.path.join(os.fsencode(os.path.realpath(folder)), b"w")
        self.chance = random.Random(seed)
        self.steps = GitSteps(self.top, self.chance)
        self.index = self.top + b".index"
        self.given = self.refused = 0
        """How many times Git was given paths, and how many times it had no answer."""

    def make(self, files=60):
        """Makes a repository of three branches."""
        git, put = self.steps.git, self.steps.put
        os.mkdir(self.top)
        git("init", "-q", "-b", "one")
        for number, branch in enumerate(BRANCHES):
            git("checkout", "-q", "-B", branch)
            for n in range(files):
                if (n + number) % 3:
                    put(b"d%d/e%d/f%d" % (n % 5, n % 3, n), b"%d of %s\n" % (n, branch.encode()))
            git("add", "-A")
            git("commit", "-q", "-m", branch)

    def set_up(self, way="cache"):
        """Has Git ask, in one of the ways WAYS."""
        subprocess.run([*client("git-setup"), self.top], check=True, stdout=subprocess.DEVNULL)
        for name, value in WAYS[way].items():
            self.steps.git("config", name, value)
        self.wait()

    def wait(self, seconds=60):
        """Waits until the mount is up, which Git begins."""
        end = time.monotonic() + seconds
        while self.mount() is None:
            self.steps.git("status")
            assert time.monotonic() < end, "no mount begins"

    def mount(self):
        """The mount, if it is up."""
        return state.find(self.top)

    def end(self):
        """Ends the mount."""
        subprocess.run([*client("down"), self.top], check=False, stdout=subprocess.DEVNULL, stderr=subprocess.DEVNULL)

    def status(self, *words):
        """What Git says, and asks for, with the hook."""
        done = subprocess.run(["git", "-C", self.top, "status", "--porcelain", "-z", *words], check=True, stdout=subprocess.PIPE,
                              stderr=subprocess.PIPE, env={**os.environ, "GIT_TRACE_FSMONITOR": "1"})
        self.given += b"fsmonitor_refresh_callback" in done.stderr
        self.refused += b"returned failure" in done.stderr
        return done.stdout

    def status_alone(self, *words):
        """What Git says if it looks at everything, from the same index, and with the time that it has."""
        shutil.copy2(os.path.join(self.top, b".git", b"index"), self.index)
        without = ["-c", "core.fsmonitor=", "-c", "core.untrackedCache=false"]
        done = subprocess.run(["git", "-C", self.top, *without, "status", "--porcelain", "-z", *words], check=True,
                              stdout=subprocess.PIPE, env={**os.environ, "GIT_INDEX_FILE": os.fsdecode(self.index)})
        return done.stdout

    def differs(self):
        """The lines in which the two differ, asked as the configuration says or in another way."""
        words = self.chance.choice(([], [], [], ["-unormal"], ["-uall"], ["-uno"], ["--ignored"]))
        given, wanted = self.status(*words), self.status_alone(*words)
        return sorted(set(given.split(b"\0")) ^ set(wanted.split(b"\0")))

    def happens(self, kind):
        """Has something happen, as far as it can."""
        with contextlib.suppress(OSError, shutil.Error, subprocess.CalledProcessError):
            getattr(self.steps, kind)()

    def kill(self, which):
        """Kills feed, edend or both."""
        mount = self.mount()
        if mount is not None:
            for process in {"feed": [mount.feed], "edend": [mount.edend], "both": [mount.edend, mount.feed]}[which]:
                with contextlib.suppress(ProcessLookupError):
                    os.kill(process.id, 9)

    def kill_meanwhile(self, which):
        """Kills feed, edend or both while Git works."""
        killer = threading.Timer(self.chance.random() * 0.2, self.kill, [which])
        killer.start()
        try:
            return self.differs()
        finally:
            killer.join()

    def step(self, kills=False):
        """A random step, and the lines in which Git's two answers differ then."""
        kind = self.chance.choice([*KINDS, *(RESTARTS * 3 if kills else [])])
        if kind not in RESTARTS:
            self.happens(kind)
            return kind, self.differs()
        for other in self.chance.sample(KINDS, 2):
            self.happens(other)
        how = self.chance.choice(("kill", "kill_meanwhile"))
        unequal = (getattr(self, how)(kind) or []) + self.differs()
        self.happens(self.chance.choice(KINDS))
        return f"{how} {kind}", unequal + self.differs()
