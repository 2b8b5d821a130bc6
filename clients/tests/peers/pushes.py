#!/usr/bin/env python3
"""Keeps the files of a directory by a subscription's pushes through random changes: pushes.py
[STEPS] [SEED] [--real] [--kill]

After each step the files with their sizes and times are compared with the directory. --real has
Watchman push; --kill kills the feed, the
daemon or the server now and then, and subscribes again after the last.
"""
import contextlib
import os
import random
import sys
import time

from peer import Peer, files_of, folder, kill, number, railburnet, step, tree, watchman

EXPRESSION = ["not", ["anyof", ["type", "d"], ["dirname", ".git"], ["name", ".git", "wholename"]]]
REAL, KILL = "--real" in sys.argv, "--kill" in sys.argv
sys.argv = [word for word in sys.argv if not word.startswith("--")]


class Copy:
    """What a subscriber knows."""

    def __init__(self, path, top):
        self.path, self.top, self.files, self.clock = path, top, {}, None
        self.fresh = 0
        self.begin()

    def begin(self):
        """Connects, and subscribes since what is known."""
        self.peer = Peer(self.path)
        told = self.peer.ask("watch-project", self.top)
        assert "error" not in told, told
        since = {} if self.clock is None else {"since": self.clock}
        told = self.peer.ask(
            "subscribe",
            self.top,
            "x",
            {
                "fields": ["name", "exists", "size", "mtime_ms", "type"],
                "expression": EXPRESSION,
                **since,
            },
        )
        assert "error" not in told, told

    def flush(self):
        """Has all that is on disk."""
        told = self.peer.ask("flush-subscriptions", self.top, {"sync_timeout": 20000})
        for push in self.peer.pushes:
            self.take(push)
        self.peer.pushes = []
        return "error" not in told

    def take(self, push):
        """Takes a push."""
        if push.get("is_fresh_instance"):
            self.fresh += 1
            self.files.clear()
        self.clock = push.get("clock", self.clock)
        for row in push.get("files", []):
            if row["exists"]:
                self.files[row["name"]] = row["size"], row["mtime_ms"]
            else:
                self.files.pop(row["name"], None)


def disk(top):
    found = {}
    for path in files_of(top):
        status = os.lstat(path)
        found[os.path.relpath(path, top)] = status.st_size, status.st_mtime_ns // 10**6
    return found


def follow(at, copy, chance, steps):
    """Goes through changes, and returns how often the copy was unequal."""
    unequal = 0
    for turn in steps:
        for part in range(chance.randrange(1, 6)):
            step(copy.top, chance, f"{turn}_{part}")
            if KILL and chance.randrange(8) == 0:
                kill(at, chance)
        end = time.monotonic() + 60
        while not copy.flush() and time.monotonic() < end:
            time.sleep(0.1)
        have, there = copy.files, disk(copy.top)
        if have != there:
            unequal += 1
            print(
                "unequal at step",
                turn,
                [
                    (path, have.get(path), there.get(path))
                    for path in {*have, *there}
                    if have.get(path) != there.get(path)
                ][:5],
            )
    return unequal


def main():
    chance, steps = random.Random(number(2, 1)), number(1, 200)
    with folder() as at:
        top = at + "/w"
        os.makedirs(top + "/.git")
        tree(top, 300)
        with contextlib.ExitStack() as stack:
            path, server = stack.enter_context(watchman(at) if REAL else railburnet(at))
            copy = Copy(path, top)
            unequal = follow(at, copy, chance, range(steps // 2 if KILL else steps))
            if KILL:
                server.kill()
                server.wait()
        if KILL:
            step(top, chance, "between")
            with railburnet(at) as (path, _):
                before, copy.path = copy.fresh, path
                copy.begin()
                unequal += follow(at, copy, chance, range(steps, steps + 1))
                print(
                    "after the server was killed:",
                    "fresh" if copy.fresh > before else "since the clock of before",
                )
                unequal += follow(at, copy, chance, range(steps // 2, steps))
        print(
            f"pushes{' of Watchman' if REAL else ''}{', with kills' if KILL else ''}: {steps} steps, {unequal} unequal, {copy.fresh} fresh instances"
        )
        return unequal != 0


if __name__ == "__main__":
    sys.exit(main())
