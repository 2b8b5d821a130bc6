"""Polls over a socket, beside queries of Watchman."""
from __future__ import annotations

import contextlib
import json
import shutil
import socket
import subprocess
import time
from pathlib import Path
from typing import Any, Dict, Iterator, List, Tuple

from beside import (
    LIMIT,
    QUERY,
    Daemon,
    Room,
    Wrong,
    changed_since,
    frames,
    length_of,
    must_equal,
    position_of,
    served,
    table,
)
from railburnet.watchman import bser

FILES, BELOW = 10_000, 100
CHANGED = {1: 4_000, 100: 1_000, 1_000: 200, 10_000: 30}
"""How many files changed, and how often each turn asks for them."""
SUFFIXES = "cdefghijkl"
GLOBS = [f"**/*.{suffix}" for suffix in SUFFIXES]
WAIT = {"sync_timeout": 60_000}

Choice = Tuple[str, str, List[str], Dict[str, Any]]


def name_of(number: int) -> str:
    """Returns a file's path; a tenth, with the last one, end with `.c`."""
    return f"d{number // BELOW:02}/f{number % BELOW:02}.{SUFFIXES[9 - number % 10]}"


def matches(pattern: str) -> List[str]:
    """Returns Watchman's term of a glob."""
    return ["match", pattern, "wholename"]


def choices() -> List[Choice]:
    """Returns of each row its globs, how Watchman is asked, the patterns and its expression."""
    ten = ["anyof", *map(matches, GLOBS)]
    return [
        ("no glob", "", [], {}),
        ("`**/*.c`", " by `match`", GLOBS[:1], {"expression": matches(GLOBS[0])}),
        ("`**/*.c`", " by `suffix`", GLOBS[:1], {"expression": ["suffix", "c"]}),
        ("ten globs", " by `match`", GLOBS, {"expression": ten}),
    ]


class Watched:
    """A folder that a server of Watchman watches."""

    def __init__(self, path: str, top: Path) -> None:
        self.path, self.top = path, top
        self.clocks: Dict[int, str] = {}

    def ask(self, *words: Any) -> Any:
        """Returns the answer to a command in JSON."""
        with socket.socket(socket.AF_UNIX) as made:
            made.connect(self.path)
            made.sendall(json.dumps(words).encode() + b"\n")
            answer = json.loads(made.makefile("rb").readline())
        if "error" in answer:
            raise Wrong(f"watchman: {answer['error']}")
        return answer

    def write(self, first: int, end: int) -> None:
        """Writes files."""
        for number in range(first, end):
            (self.top / name_of(number)).write_text("x", encoding="ascii")

    def change_all(self) -> None:
        """Writes all files again, and notes from which clock on how many of them changed."""
        written = 0
        for count in sorted(CHANGED, reverse=True):
            self.write(written, FILES - count)
            written = FILES - count
            self.clocks[count] = self.ask("clock", str(self.top), WAIT)["clock"]
        self.write(written, FILES)
        self.ask("clock", str(self.top), WAIT)

    def query(self, count: int, more: Dict[str, Any]) -> List[Any]:
        """Returns the query of what changed; it waits for nothing."""
        asked = {"since": self.clocks[count], "fields": ["name"], "sync_timeout": 0, **more}
        return ["query", str(self.top), asked]


def spelled(query: List[Any]) -> bytes:
    """Returns a query in BSER."""
    writer = bser.Writer(1, 0)
    return writer.message(writer.value(query, lambda _: b""))


@contextlib.contextmanager
def watchman(room: Room) -> Iterator[Watched]:
    """Runs a server of Watchman over the files, and ends it."""
    at, top = str(room.folder / "watchman"), room.folder / "watched"
    for directory in range(FILES // BELOW):
        (top / f"d{directory:02}").mkdir(parents=True)
    words = [f"--{name}={at}.{name}" for name in ("sockname", "statefile", "logfile", "pidfile")]
    server = subprocess.Popen(
        ["watchman", "--foreground", *words, "--no-save-state"],
        stdout=subprocess.DEVNULL,
        stderr=subprocess.DEVNULL,
    )
    try:
        end = time.monotonic() + 30
        while not Path(f"{at}.sockname").exists() and time.monotonic() < end:
            time.sleep(0.05)
        watched = Watched(f"{at}.sockname", top)
        watched.write(0, FILES)
        watched.ask("watch", str(top))
        watched.ask("clock", str(top), WAIT)
        yield watched
    finally:
        server.terminate()
        with contextlib.suppress(subprocess.TimeoutExpired):
            server.wait(30)
        server.kill()
        server.wait()
        shutil.rmtree(top)


def measure_choice(
    room: Room, daemon: Daemon, watched: Watched, count: int, choice: Choice
) -> None:
    """Measures polls of some changed files by some globs."""
    name, how, patterns, more = choice
    since = frames.Position(1, position_of(daemon.port).sequence - count)
    poll = frames.Poll(QUERY, since, tuple(it.encode() for it in patterns))
    query = watched.query(count, more)

    def check() -> List[bytes]:
        paths = changed_since(daemon.port, poll)
        theirs = sorted(it.encode() for it in watched.ask(*query)["files"])
        must_equal(f"{count} changed, {name}", paths, theirs)
        must_equal("paths", len(paths), max(1, count // 10) if len(patterns) == 1 else count)
        return paths

    wanted = [length_of(check(), 1, 4)]
    asked, peer = room.put("poll", frames.encode_request(poll)), room.put("query", spelled(query))
    times = max(3, CHANGED[count] // (20 if room.is_quick else 1))
    room.row(
        f"{count:,} changed, {name}",
        lambda: room.timed(wanted, "ask", daemon.port, times, asked),
        {f"Watchman{how}": lambda: room.timed(None, "ask", watched.path, times, peer)},
    )
    check()


def measure(room: Room) -> None:
    """Measures polls of changed files."""
    if shutil.which("watchman") is None:
        print("\nPolls over a socket: left out, since there is no watchman here.", flush=True)
        return
    lines = [b"write %s plain x\n" % name_of(it).encode() for it in range(FILES)]
    script = [b"mount empty 1 %d\n" % LIMIT, *lines, *lines]
    with table("Polls over a socket"), served(room, script) as daemon, watchman(room) as watched:
        watched.change_all()
        for choice in choices():
            for count in CHANGED:
                measure_choice(room, daemon, watched, count, choice)
