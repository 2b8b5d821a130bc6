#!/usr/bin/env python3
"""Times of Watchman and of Railburnet's server, over pywatchman, one after the other: times.py
[FILES] [TURNS]

It prints a row of a table for each thing measured: medians, with the least in parentheses. The
processor time and the memory are those of all processes of a server.
"""
import contextlib
import glob
import os
import random
import statistics
import sys
import time

from peer import PYTHON, folder, mounts, need, number, railburnet, watchman

need("command -v watchman", "watchman")
need(f"{PYTHON} -c 'import pywatchman'", "python3-pywatchman")
try:
    import pywatchman
except ImportError:
    os.execv(PYTHON, [PYTHON, *sys.argv])

FIVE = ["name", "exists", "size", "mtime_ms", "mode"]
CHANGED, SUBSCRIPTIONS, IDLE, SAVES = 1000, 10, 10.0, 40


class Server:
    """A server, a connection to it, and its processes."""

    def __init__(self, top, path, processes):
        self.top, self._path, self._processes = top, path, processes
        self.client = self.connected()

    def connected(self):
        return pywatchman.client(sockpath=self._path, timeout=600)

    def ask(self, *words):
        return self.client.query(*words)

    def query(self, **query):
        return self.ask("query", self.top, query)

    def clock(self):
        return self.ask("clock", self.top, {"sync_timeout": 60000})["clock"]

    def processor(self):
        """The processor time that was used, in seconds."""
        used = 0
        for process in self._processes():
            for path in glob.glob(f"/proc/{process}/task/*/schedstat"):
                with contextlib.suppress(OSError), open(path, encoding="ascii") as file:
                    used += int(file.read().split()[0])
        return used / 1e9

    def memory(self):
        """The memory of each process, in MB."""
        held = []
        for process in self._processes():
            with open(f"/proc/{process}/status", encoding="ascii") as file:
                held += [int(line.split()[1]) // 1000 for line in file if line.startswith("VmRSS")]
        return held


def shown(seconds):
    """A median and the least, in ms."""
    median, least = statistics.median(seconds) * 1e3, min(seconds) * 1e3
    return f"{median:.1f} ms (least {least:.1f})"


def timed(act):
    """How long it takes, in seconds."""
    begun = time.monotonic()
    act()
    return time.monotonic() - begun


def tree(top, files):
    """Makes files in a thousand directories, and returns them in a random order."""
    made = []
    for file in range(files):
        at = f"{top}/m{file % 100:02}/sub{file // 100 % 10}"
        made.append(f"{at}/file{file}.{('c', 'h', 'py')[file % 3]}")
        os.makedirs(at, exist_ok=True)
        with open(made[-1], "w", encoding="ascii") as out:
            out.write(str(file))
    os.makedirs(top + "/.git")
    random.Random(1).shuffle(made)
    return made


def save(file):
    with open(file, "a", encoding="ascii") as out:
        out.write("x")


def all_names(server, turns, files, **query):
    """All names again and again: the first, the later ones, and their processor time."""

    def ask():
        # Watchman lists directories too.
        assert len(server.query(fields=["name"], **query)["files"]) >= files

    first, before = timed(ask), server.processor()
    later = [timed(ask) for _ in range(turns)]
    used = (server.processor() - before) / turns
    return f"{shown(later)}, first {first * 1e3:.0f}; {used:.3f} s of processor time"


def changed(server, files, turns):
    """What changed since a clock, at once and again."""
    once, again = [], []
    for turn in range(turns):
        clock = server.clock()
        for file in files[turn * CHANGED : (turn + 1) * CHANGED]:
            save(file)

        def ask():
            told = server.query(since=clock, fields=FIVE, expression=["type", "f"])
            assert len(told["files"]) == CHANGED

        once.append(timed(ask))
        again.append(timed(ask))
    return shown(once), shown(again)


def nothing(server, turns):
    clock = server.clock()
    return shown([timed(lambda: server.query(since=clock, fields=FIVE)) for _ in range(turns)])


def pushed(server, files):
    """From a save until the subscriber is told."""
    client, took = server.connected(), []
    client.query("subscribe", server.top, "one", {"since": server.clock(), "fields": ["name"]})
    for file in files[-SAVES:]:
        time.sleep(0.1)
        begun, name = time.monotonic(), os.path.relpath(file, server.top)
        save(file)
        while not any(name in push["files"] for push in client.getSubscription("one") or ()):
            client.receive()
        took.append(time.monotonic() - begun)
    client.close()
    return shown(took)


def idle(server):
    """The processor time while nothing happens."""
    client = server.connected()
    for count in range(SUBSCRIPTIONS):
        client.query("subscribe", server.top, str(count), {"fields": ["name"], "since": "c:0:0",
                                                           "empty_on_fresh_instance": True})
    time.sleep(3)
    before = server.processor()
    time.sleep(IDLE)
    used = server.processor() - before
    client.close()
    return f"{used * 1e3:.1f} ms in {IDLE:g} s"


def measured(server, files, turns):
    """Yields the name of each thing measured, and what came out."""
    begun = time.monotonic()
    server.ask("watch-project", server.top)
    server.clock()
    yield "watch, to the first answer", f"{time.monotonic() - begun:.1f} s"
    yield "all names", all_names(server, turns, len(files))
    of_files = all_names(server, turns, len(files), expression=["type", "f"])
    yield "all names of plain files", of_files
    yield "since, nothing changed", nothing(server, 10 * turns)
    once, again = changed(server, files, turns)
    yield f"since, {CHANGED:,} files written, five fields", once
    yield "the same again, with nothing to wait for", again
    yield "saved to pushed", pushed(server, files)
    yield f"processor time while idle, with {SUBSCRIPTIONS} subscriptions", idle(server)
    held = server.memory()
    yield "memory", f"{sum(held)} MB: {', '.join(map(str, held))}"


def processes_of(at):
    """The feed and the edend of the mount."""
    return [mount[name]["id"] for mount in mounts(at) for name in ("feed", "edend")]


def main():
    with folder() as at:
        top = at + "/w"
        files, turns = tree(top, number(1, 100_000)), number(2, 9)
        print(f"{len(files):,} files, medians of {turns}, load {os.getloadavg()[0]:.0f}")
        with watchman(at) as (path, process):
            one = dict(measured(Server(top, path, lambda: [process.pid]), files, turns))
        with railburnet(at) as (path, process):
            server = Server(top, path, lambda: [process.pid, *processes_of(at)])
            other = dict(measured(server, files, turns))
        print("| | Railburnet | Watchman |\n|---|---|---|")
        for name, told in one.items():
            print(f"| {name} | {other[name]} | {told} |")
    return 0


if __name__ == "__main__":
    sys.exit(main())
