"""Writes by the lines of a script, and what one waits beside pollers."""
from __future__ import annotations

import contextlib
import fcntl
import os
import statistics
import subprocess
import time
from typing import Dict, Iterator, List, Sequence

from beside import LIMIT, QUERY, Daemon, Room, frames, position_of, served, shown, table

SET_PIPE_SIZE = 1031
"""F_SETPIPE_SZ, which Python names since 3.10."""
PAGE = 4_096
POLLERS = (0, 1, 8, 64)
FILES = 10_000


def measure_scattered(room: Room, count: int) -> None:
    """Measures a script that writes new files in no order."""
    lines = [b"mount empty 1 %d\n" % LIMIT]
    for number in range(count):
        place = number * 7_919 % count
        lines.append(b"write dir%03d/file%04d plain new\n" % (place % 1_000, place // 1_000))
    script = room.put("scattered", b"".join(lines))
    last = [sum(len(f"at 1 {it} empty\n") for it in range(1, count + 2))]
    times = [
        room.timed(last, "run", room.edend, "run", stdin=script) for _ in range(room.turns)
    ]
    middle = statistics.median(times)
    print(f"| {count:,} scattered writes | {shown(middle)} | {shown(middle / count)} |", flush=True)


def threads_of(process: int) -> Dict[int, int]:
    """Returns how long each thread of a process has run."""
    ran = {}
    for thread in os.listdir(f"/proc/{process}/task"):
        with open(f"/proc/{process}/task/{thread}/schedstat", encoding="ascii") as file:
            ran[int(thread)] = int(file.read().split()[0])
    return ran


def writing(room: Room, daemon: Daemon, count: int, processors: Sequence[int]) -> List[int]:
    """Writes lines one by one, and returns the median and the 99th of what they waited."""
    client = subprocess.run(
        [str(room.folder / "client"), "write", str(count)],
        stdout=daemon.process.stdin,
        stderr=subprocess.PIPE,
        preexec_fn=lambda: os.sched_setaffinity(0, processors),
        check=True,
    )
    return [int(it) for it in client.stderr.split()]


def pin(room: Room, daemon: Daemon, line: int, others: Sequence[int]) -> None:
    """Gives the thread that reads lines a processor, and all threads that serve the others."""
    before = threads_of(daemon.process.pid)
    writing(room, daemon, FILES, others)
    after = threads_of(daemon.process.pid)
    busiest = max(after, key=lambda it: after[it] - before.get(it, 0))
    for thread in after:
        os.sched_setaffinity(thread, [line] if thread == busiest else others)


@contextlib.contextmanager
def polling(room: Room, port: int, count: int, processors: Sequence[int]) -> Iterator[List[float]]:
    """Has pollers ask from processors of their own, and puts how often a second they did."""
    position = position_of(port)
    request = room.put("poll", frames.encode_request(frames.Poll(QUERY, position)))
    rate: List[float] = []
    client = subprocess.Popen(
        [str(room.folder / "client"), "poll", str(port), str(count), request],
        stdin=subprocess.PIPE,
        stdout=subprocess.PIPE,
        preexec_fn=lambda: os.sched_setaffinity(0, processors),
    )
    begun = time.monotonic()
    try:
        time.sleep(0.2)
        yield rate
    finally:
        took = time.monotonic() - begun
        printed, _ = client.communicate()
    rate.append(int(printed) / took)


def measure_waits(room: Room) -> None:
    """Measures what a write waits beside pollers."""
    processors = sorted(os.sched_getaffinity(0))
    if len(processors) < 4:
        print("\nWaits of writes: left out, since they take four processors.", flush=True)
        return
    line, writer, *others = processors
    count = 2_000 if room.is_quick else 20_000
    columns = ["pollers", "a write waits, the median", "the 99th", "polls a second"]
    mount = [b"mount empty 1 %d\n" % LIMIT]
    with served(room, mount) as daemon, table("Waits of writes", *columns):
        fcntl.fcntl(daemon.process.stdin, SET_PIPE_SIZE, PAGE)
        pin(room, daemon, line, others)
        turns: Dict[int, List[List[float]]] = {it: [] for it in POLLERS}
        for _ in range(room.turns):
            for pollers in POLLERS:
                with polling(room, daemon.port, pollers, others) as rate:
                    waits = writing(room, daemon, count, [writer])
                turns[pollers].append([*waits, *rate])
        for pollers, figures in turns.items():
            median, late, rate = map(statistics.median, zip(*figures))
            print(f"| {pollers} | {shown(median)} | {shown(late)} | {rate:,.0f} |", flush=True)


def measure(room: Room) -> None:
    """Measures writes."""
    with table("Writes", "work", "edend", "a write"):
        measure_scattered(room, 8_000 if room.is_quick else 80_000)
    measure_waits(room)
