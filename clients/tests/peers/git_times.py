#!/usr/bin/env python3
"""Times of `git status` and of a checkout, by how Git is set up, in one repository of many files.

    EDEND=PROGRAM clients/tests/peers/git_times.py [--files N] [--touched N] [--turns N] [--switch N]

It prints for each way the least and the median time in ms, and the median of the processor time of
Git and its hook; with Watchman and Git's own hook too, if Watchman is here or can be installed from
Debian's packages. --switch N times the checkout of another branch in which N files differ.
"""
import argparse
import contextlib
import os
import resource
import shutil
import statistics
import subprocess
import sys
import tempfile
import time

sys.path.insert(0, os.path.dirname(os.path.dirname(os.path.realpath(__file__))))
from checkouts import Checkout  # noqa: E402
from peer import SAMPLE  # noqa: E402

from railburnet.commands import git_setup  # noqa: E402


def has_watchman():
    """Whether Watchman is here, or could be installed."""
    if shutil.which("watchman") is None:
        with contextlib.suppress(OSError):
            subprocess.run(["apt-get", "install", "-y", "--no-install-recommends", "watchman"], stdout=subprocess.DEVNULL,
                           stderr=subprocess.DEVNULL, check=False)
    return shutil.which("watchman") is not None


def ways(folder):
    """Of each way its name, the hook, and whether the untracked cache is on."""
    yield "no monitor", None, False
    yield "untracked cache alone", None, True
    yield "hook alone", git_setup.hook(), False
    yield "hook and untracked cache", git_setup.hook(), True
    if has_watchman():
        sample = os.path.join(folder, "sample")
        shutil.copy(SAMPLE, sample)
        os.chmod(sample, 0o755)
        yield "Watchman and untracked cache", sample, True
    else:
        print("Watchman: not run: no watchman")


def timed(run):
    """How long something took, and the processor time of the processes that it ran, in ms."""
    before, begun = resource.getrusage(resource.RUSAGE_CHILDREN), time.monotonic()
    run()
    took, after = time.monotonic() - begun, resource.getrusage(resource.RUSAGE_CHILDREN)
    return took * 1e3, (after.ru_utime + after.ru_stime - before.ru_utime - before.ru_stime) * 1e3


def shown(times):
    walls, processor = zip(*times)
    return f"{min(walls):.0f} | {statistics.median(walls):.0f} | {min(processor):.0f} | {statistics.median(processor):.0f}"


def make(checkout, files, other):
    """Makes a repository, with a branch `other` in which some files differ."""
    git, put = checkout.steps.git, checkout.steps.put
    os.mkdir(checkout.top)
    git("init", "-q", "-b", "main")
    git("config", "gc.auto", "0")
    names = [b"d%d/e%d/f%d" % (n % 100, n // 100 % 20, n) for n in range(files)]
    for name in names:
        put(name, name)
    git("add", "-A")
    git("commit", "-q", "-m", "one")
    if other:
        git("checkout", "-q", "-b", "other")
        for name in names[:other]:
            put(name, b"other " + name)
        git("commit", "-q", "-a", "-m", "other")
        git("checkout", "-q", "main")
    return names


def measure(checkout, names, options):
    """Times Git as it is set up now."""
    git = checkout.steps.git
    for _ in range(3):
        git("status")
        time.sleep(0.5)
    times = [timed(lambda: git("status", "--porcelain")) for _ in range(options.turns)]
    print(f"  clean | {shown(times)}", flush=True)
    times = []
    for turn in range(options.turns):
        for name in names[turn * options.touched : (turn + 1) * options.touched]:
            os.utime(checkout.steps.at(name))
        times.append(timed(lambda: git("status", "--porcelain")))
    print(f"  {options.touched} touched | {shown(times)}", flush=True)
    if options.switch:
        times = [timed(lambda branch=branch: git("checkout", "-q", branch)) for branch in ("other", "main", "other", "main")]
        print(f"  checkout of {options.switch} | {shown(times)}", flush=True)


def main():
    parser = argparse.ArgumentParser(description=__doc__, formatter_class=argparse.RawDescriptionHelpFormatter)
    parser.add_argument("--files", type=int, default=100_000)
    parser.add_argument("--touched", type=int, default=100)
    parser.add_argument("--turns", type=int, default=11)
    parser.add_argument("--switch", type=int, default=0)
    options = parser.parse_args()
    if shutil.which("git") is None:
        print("not run: no git")
        return 0
    folder = tempfile.mkdtemp(prefix="railburnet-git-")
    os.environ["RAILBURNET_STATE"] = os.path.join(folder, "state")
    checkout = Checkout(folder)
    try:
        names = make(checkout, options.files, options.switch)
        print(f"{options.files:,} files; least, median of {options.turns}, processor time least, median; in ms", flush=True)
        for name, monitor, cache in ways(folder):
            checkout.steps.git("config", "core.untrackedCache", "true" if cache else "false")
            checkout.steps.git("config", "core.fsmonitor", monitor or "")
            if monitor == git_setup.hook():
                checkout.wait(300)
            print(f"{name}, load {os.getloadavg()[0]:.0f}", flush=True)
            measure(checkout, names, options)
    finally:
        checkout.end()
        if shutil.which("watchman"):
            subprocess.run(["watchman", "watch-del", checkout.top], stdout=subprocess.DEVNULL, stderr=subprocess.DEVNULL, check=False)
        shutil.rmtree(folder, ignore_errors=True)
    return 0


if __name__ == "__main__":
    sys.exit(main())
