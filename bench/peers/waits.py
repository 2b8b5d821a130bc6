"""Polls that wait for a change: from a line of a script to their replies."""
from __future__ import annotations

import contextlib
import selectors
import socket
import statistics
import struct
import time
from typing import Iterator, List, Sequence, Tuple

from beside import LIMIT, QUERY, SECONDS, Daemon, Room, Wrong, frames, position_of, served
from beside import shown, table
from writes import threads_of

WAITING = (1, 8, 64, 500)
FILES = 100_000
PATIENCE = 60_000
"""For how many milliseconds each poll may wait."""
SETTLED = 0.2
"""After how many seconds all polls that were sent wait."""
IDLE = 3.0


@contextlib.contextmanager
def connected(daemon: Daemon, count: int) -> Iterator[List[socket.socket]]:
    """Makes connections, and ends them."""
    with contextlib.ExitStack() as stack:
        made = []
        for _ in range(count):
            made.append(stack.enter_context(socket.create_connection(("127.0.0.1", daemon.port))))
            made[-1].setsockopt(socket.IPPROTO_TCP, socket.TCP_NODELAY, 1)
            made[-1].settimeout(SECONDS)
        yield made


def wait_since(sockets: Sequence[socket.socket], number: int) -> None:
    """Sends a poll that waits over each connection."""
    poll = frames.Poll(QUERY, frames.Position(1, number))
    request = frames.encode_request(poll, PATIENCE)
    for it in sockets:
        it.sendall(request)
    time.sleep(SETTLED)


def take(stream: socket.socket, count: int) -> bytes:
    """Reads so many bytes."""
    data = b""
    while len(data) < count:
        more = stream.recv(count - len(data))
        if not more:
            raise Wrong("a connection has ended while its poll waited")
        data += more
    return data


def take_replies(sockets: Sequence[socket.socket], path: bytes) -> Tuple[int, int]:
    """Reads a reply from each connection, and returns when the first and the last came."""
    times = []
    with selectors.DefaultSelector() as ready:
        for it in sockets:
            ready.register(it, selectors.EVENT_READ)
        while ready.get_map():
            for key, _ in ready.select(SECONDS):
                stream = key.fileobj
                assert isinstance(stream, socket.socket)
                (size,) = struct.unpack(">I", take(stream, 4))
                reply = frames.decode_reply(take(stream, size))
                times.append(time.perf_counter_ns())
                ready.unregister(stream)
                if not isinstance(reply, frames.ChangesAre) or reply.marked[0][1] != path:
                    raise Wrong(f"a poll that waited is answered: {reply}")
    return times[0], times[-1]


def idle_of(daemon: Daemon) -> float:
    """Returns for how many nanoseconds a daemon runs while all its polls wait."""
    before = sum(threads_of(daemon.process.pid).values())
    time.sleep(IDLE)
    return sum(threads_of(daemon.process.pid).values()) - before


def measure_count(room: Room, daemon: Daemon, count: int) -> None:
    """Measures that many polls that wait, and prints a row."""
    firsts, lasts, idle = [], [], 0.0
    number = position_of(daemon.port).sequence
    with connected(daemon, count) as sockets:
        for turn in range(room.turns):
            path = b"waited%d-%d" % (count, turn)
            wait_since(sockets, number + turn)
            idle = idle if turn else idle_of(daemon)
            begun = time.perf_counter_ns()
            daemon.say([b"write %s plain new\n" % path])
            first, last = take_replies(sockets, path)
            firsts.append(first - begun)
            lasts.append(last - begun)
    medians = f"{shown(statistics.median(firsts))} | {shown(statistics.median(lasts))}"
    print(f"| {count} | {medians} | {shown(idle / IDLE)} |", flush=True)


def measure(room: Room) -> None:
    """Measures polls that wait."""
    files = FILES // 100 if room.is_quick else FILES
    lines = [b"mount empty 1 %d\n" % LIMIT]
    lines += [b"write dir%03d/file%05d plain x\n" % (it // 100, it) for it in range(files)]
    columns = ["waiting", "to the first reply", "to the last", "processor time of a second"]
    served_all = served(room, lines, connections=max(WAITING))
    with served_all as daemon, table("Polls that wait", *columns):
        for count in WAITING:
            measure_count(room, daemon, count)
