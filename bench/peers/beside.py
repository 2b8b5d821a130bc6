"""What all groups share: the client, a daemon, turns that alternate, and tables."""
from __future__ import annotations

import contextlib
import os
import signal
import socket
import statistics
import subprocess
import sys
import time
from dataclasses import dataclass
from pathlib import Path
from typing import Callable, Iterator, List, Mapping, Optional, Sequence

ROOT = Path(__file__).resolve().parents[2]
sys.path.insert(0, str(ROOT / "clients" / "python"))
from railburnet import frames  # noqa: E402
from railburnet.client import Connection, ConnectionLost  # noqa: E402

QUERY = frames.Query(1, 1, 1)
LIMIT = 1_000_000_000
"""What the journal of a mount keeps: all changes of a run."""
CONNECTIONS = 64
SECONDS = 600.0
"""How long a program may take for one answer, or a daemon until it listens."""

Timed = Callable[[], float]


class Wrong(Exception):
    """Something did not answer as it must, so that no time counts."""


@dataclass(frozen=True)
class Room:
    """A folder for all that a run makes, and how often it measures."""

    folder: Path
    edend: str
    turns: int
    is_quick: bool

    def put(self, name: str, content: bytes) -> str:
        """Writes a file, and returns its path."""
        file = self.folder / name
        file.write_bytes(content)
        return str(file)

    def client(self, *words: object, **how: object) -> List[int]:
        """Runs the client, and returns the numbers that it prints."""
        command = [str(self.folder / "client"), *map(str, words)]
        how.update(stdout=subprocess.PIPE, start_new_session=True)
        process = subprocess.Popen(command, **how)
        try:
            printed, _ = process.communicate(timeout=SECONDS)
        except BaseException:
            # What the client has started ends with it.
            os.killpg(process.pid, signal.SIGKILL)
            process.wait()
            raise
        if process.returncode:
            raise Wrong(f"{' '.join(command)} ended with {process.returncode}")
        return [int(it) for it in printed.split()]

    def timed(self, wanted: Optional[Sequence[int]], *words: object, stdin: str = "") -> float:
        """Returns the client's nanoseconds, if what it counted is what is wanted, or nothing is."""
        with open(stdin or os.devnull, "rb") as source:
            took, *counted = self.client(*words, stdin=source)
        if wanted is not None and counted != list(wanted):
            raise Wrong(f"{' '.join(map(str, words))}: counted {counted}, and not {list(wanted)}")
        return took

    def row(self, work: str, ours: Timed, peers: Mapping[str, Timed]) -> None:
        """Measures in turns, and prints a row for each peer."""
        turns = [[call() for call in (ours, *peers.values())] for _ in range(self.turns)]
        first, *others = zip(*turns)
        for name, other in zip(peers, others):
            ratio = statistics.median(other) / statistics.median(first)
            single = sorted(b / a for a, b in zip(first, other))
            medians = f"{shown(statistics.median(first))} | {shown(statistics.median(other))}"
            spread = f"{single[0]:.2f} to {single[-1]:.2f}"
            print(f"| {work} | {name} | {medians} | {ratio:.2f} | {spread} |", flush=True)


@contextlib.contextmanager
def table(title: str, *columns: str) -> Iterator[None]:
    """Prints a group's heading and its columns, and the load after its rows."""
    columns = columns or ("work", "peer", "edend", "the peer", "ratio", "ratios of single turns")
    before = os.getloadavg()[0]
    print(f"\n### {title}\n\n| {' | '.join(columns)} |\n|{'---|' * len(columns)}", flush=True)
    yield
    print(f"\nLoad {before:.1f} before, {os.getloadavg()[0]:.1f} after.", flush=True)


def shown(nanoseconds: float) -> str:
    """Returns a time with its unit."""
    for unit, size in (("us", 1e3), ("ms", 1e6), ("s", 1e9)):
        if nanoseconds < 1_000 * size:
            break
    value = nanoseconds / size
    return f"{value:.{0 if value >= 100 else 1 if value >= 10 else 2}f} {unit}"


def must_equal(what: str, one: object, other: object) -> None:
    """Refuses what differs."""
    if one != other:
        raise Wrong(f"{what}: {str(one)[:200]} beside {str(other)[:200]}")


def ask(port: int, *requests: frames.Request) -> List[frames.Reply]:
    """Returns the replies of a daemon, over a connection of their own."""
    connection = Connection(port, timeout=SECONDS)
    try:
        return list(connection.ask_all(requests))
    finally:
        connection.close()


def position_of(port: int) -> frames.Position:
    """Returns where a mount of generation 1 is: it is refused to poll since later."""
    (reply,) = ask(port, frames.Poll(QUERY, frames.Position(1, frames.MOST_NUMBER)))
    if not isinstance(reply, frames.Refused):
        raise Wrong(f"a poll since later is answered: {reply}")
    return frames.Position(1, reply.value)


def changed_since(port: int, poll: frames.Poll) -> List[bytes]:
    """Returns the paths of a poll's reply."""
    (reply,) = ask(port, poll)
    if not isinstance(reply, frames.ChangesAre):
        raise Wrong(f"a poll is refused: {reply}")
    return [path for _, path in reply.marked]


def length_of(paths: Sequence[bytes], mark: int, more: int) -> int:
    """Returns the length of a reply's body: its head, a count, paths with marks, and more."""
    return 26 + 36 + 4 + sum(mark + 2 + len(it) for it in paths) + more


@dataclass(frozen=True)
class Daemon:
    """An `edend serve`, with the stream of its lines."""

    port: int
    process: subprocess.Popen[bytes]

    def wait_for(self, number: int) -> None:
        """Waits until the mount is at a number."""
        end = time.monotonic() + SECONDS
        while position_of(self.port).sequence != number:
            if time.monotonic() > end:
                raise Wrong(f"edend is not at {number} yet")
            time.sleep(0.01)

    def say(self, lines: Sequence[bytes]) -> None:
        """Has lines change the mount."""
        assert self.process.stdin is not None
        self.process.stdin.write(b"".join(lines))
        self.process.stdin.flush()


def free_port() -> int:
    """Returns a port that nobody listens at."""
    with socket.socket() as made:
        made.bind(("127.0.0.1", 0))
        return int(made.getsockname()[1])


def wait_until_listening(daemon: Daemon) -> None:
    """Waits until a daemon has done its first lines, and takes connections."""
    end = time.monotonic() + SECONDS
    while True:
        with contextlib.suppress(ConnectionLost):
            Connection(daemon.port).close()
            return
        if daemon.process.poll() is not None or time.monotonic() > end:
            raise Wrong("edend does not listen")
        time.sleep(0.02)


@contextlib.contextmanager
def served(
    room: Room, lines: Sequence[bytes], objects: str = "", connections: int = CONNECTIONS
) -> Iterator[Daemon]:
    """Runs `edend serve` over the lines of a script, and ends it."""
    port = free_port()
    words = [room.edend, "serve", "--stay", "--port", str(port)]
    words += ["--connections", str(connections)] + (["--objects", objects] if objects else [])
    with open(room.folder / "printed", "w+b") as printed:
        process = subprocess.Popen(words, stdin=subprocess.PIPE, stdout=printed)
        daemon = Daemon(port, process)
        try:
            daemon.say([*lines, b"listen\n"])
            wait_until_listening(daemon)
            printed.seek(0)
            if b"refused" in printed.read():
                raise Wrong("edend refused a line")
            yield daemon
        finally:
            with contextlib.suppress(OSError):
                process.stdin.close()
            with contextlib.suppress(subprocess.TimeoutExpired):
                process.wait(20)
            process.kill()
            process.wait()
