#!/usr/bin/env python3
"""Random changes in a checkout of Mercurial: `hg status` with fsmonitor beside that without.
mercurial.py [STEPS] [SEED] [--kill]

--kill kills the feed, the daemon or the server now and then, while `hg status` runs too. Then it
may find Watchman unavailable, and looks at all files by itself.
"""
import contextlib
import os
import random
import subprocess
import sys
import threading

from peer import files_of, folder, kill, need, number, railburnet, step

need("command -v hg", "mercurial")
KILL = "--kill" in sys.argv
sys.argv = [word for word in sys.argv if word != "--kill"]
SETTINGS = "[extensions]\nfsmonitor=\n[fsmonitor]\nmode=on\ntimeout=20\n"


class Checkout:
    """A checkout with fsmonitor."""

    def __init__(self, top, path):
        self.top = top
        self.environment = {**os.environ, "HGUSER": "a", "HGPLAIN": "1", "WATCHMAN_SOCK": path}
        os.makedirs(top)
        self.run("init")
        for file in range(200):
            at = f"{top}/d{file % 10}/e{file % 3}"
            os.makedirs(at, exist_ok=True)
            with open(f"{at}/f{file}.txt", "w", encoding="utf-8") as out:
                out.write(f"{file}\n")
        with open(top + "/.hg/hgrc", "w", encoding="utf-8") as out:
            out.write(SETTINGS)
        self.commit()

    def run(self, *words):
        return subprocess.run(
            ["hg", "-R", self.top, "--cwd", self.top, *words],
            stdout=subprocess.PIPE,
            stderr=subprocess.PIPE,
            timeout=120,
            env=self.environment,
            check=False,
        )

    def commit(self):
        self.run("addremove", "-q")
        self.run("commit", "-qm", "more")


class Killer:
    """The server, which is killed now and then, or a process of its mount is, and begun again."""

    def __init__(self, at, chance, stack):
        self._at, self._chance, self._stack = at, chance, stack
        self.path, self._server = stack.enter_context(railburnet(at))
        self.kills = 0

    def __enter__(self):
        self._timer = None
        if KILL and self._chance.randrange(3) == 0:
            act = self._kill_server if self._chance.randrange(3) == 0 else self._kill_mount
            self._timer = threading.Timer(self._chance.random() * 0.8, act)
            self._timer.start()
            self.kills += 1

    def __exit__(self, *_):
        if self._timer is not None:
            self._timer.join()
        if self._server.poll() is not None:
            _, self._server = self._stack.enter_context(railburnet(self._at))

    def _kill_server(self):
        self._server.kill()
        self._server.wait()

    def _kill_mount(self):
        kill(self._at, random)


def status(checkout):
    """Whether the two answers differ, and whether Watchman was unavailable."""
    one = checkout.run("status")
    other = checkout.run("--config", "extensions.fsmonitor=!", "status")
    lines = set(one.stdout.split(b"\n")) ^ set(other.stdout.split(b"\n"))
    if lines:
        print("unequal in", sorted(lines)[:5], one.stderr[-200:])
    return bool(lines), b"navailable" in one.stderr


def main():
    chance, steps, unequal, unavailable = random.Random(number(2, 1)), number(1, 60), 0, 0
    with folder() as at, contextlib.ExitStack() as stack:
        killer = Killer(at, chance, stack)
        checkout = Checkout(at + "/w", killer.path)
        for turn in range(steps):
            kind = chance.randrange(6)
            with killer:
                if kind == 0:
                    checkout.commit()
                elif kind == 1:
                    checkout.run("update", "-qC", str(chance.randrange(3)))
                else:
                    step(checkout.top, chance, str(turn))
                checkout.run("status")
                differs, gone = status(checkout)
            unequal, unavailable = unequal + differs, unavailable + gone
        print(
            f"Mercurial's fsmonitor: {steps} steps over {len(files_of(checkout.top))} files, "
            f"{killer.kills} kills, {unequal} unequal, {unavailable} times unavailable"
        )
    return unequal + (0 if KILL else unavailable) != 0


if __name__ == "__main__":
    sys.exit(main())
