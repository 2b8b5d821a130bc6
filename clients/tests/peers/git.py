#!/usr/bin/env python3
"""Random days of work in a checkout: Git's status with Railburnet's hook beside Git's status without.

    EDEND=PROGRAM clients/tests/peers/git.py [--steps N] [--seed N] [--kill] [--way WAY]..

After each step both are asked. There is a checkout for each way to set Git up: with the untracked
cache, with it and all untracked files, and without it. With --kill some steps kill feed, edend or
both, also while Git works. Status 1 if some answers were not equal.
"""
import argparse
import os
import shutil
import sys
import tempfile
import time

sys.path.insert(0, os.path.dirname(os.path.dirname(os.path.realpath(__file__))))
from checkouts import WAYS, Checkout  # noqa: E402


def day(way, options):
    """One checkout: how many steps were unequal."""
    folder = tempfile.mkdtemp(prefix="railburnet-git-")
    os.environ["RAILBURNET_STATE"] = os.path.join(folder, "state")
    checkout, unequal, kinds, begun = Checkout(folder, options.seed), 0, set(), time.monotonic()
    checkout.make(options.files)
    try:
        checkout.set_up(way)
        for step in range(options.steps):
            kind, lines = checkout.step(options.kill)
            kinds.add(kind)
            if lines:
                unequal += 1
                print(f"step {step}, {kind}: unequal in {lines[:4]}", flush=True)
    finally:
        checkout.end()
        shutil.rmtree(folder, ignore_errors=True)
    print(f"{way}: {options.steps} steps of {len(kinds)} kinds, {unequal} unequal; Git was given paths {checkout.given} times, "
          f"and no answer {checkout.refused} times; {time.monotonic() - begun:.0f} s", flush=True)
    return unequal


def main():
    parser = argparse.ArgumentParser(description=__doc__, formatter_class=argparse.RawDescriptionHelpFormatter)
    parser.add_argument("--steps", type=int, default=300)
    parser.add_argument("--seed", type=int, default=1)
    parser.add_argument("--files", type=int, default=300)
    parser.add_argument("--kill", action="store_true")
    parser.add_argument("--way", action="append", choices=WAYS)
    options = parser.parse_args()
    if shutil.which("git") is None:
        print("not run: no git")
        return 0
    return 1 if sum(day(way, options) for way in options.way or WAYS) else 0


if __name__ == "__main__":
    sys.exit(main())
