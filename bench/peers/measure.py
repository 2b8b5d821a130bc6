"""Measures edend beside its peers: measure.py EDEND TURNS [--quick]. bench/peers.sh starts it."""
from __future__ import annotations

import os
import shutil
import signal
import subprocess
import sys
import tempfile
from pathlib import Path

sys.dont_write_bytecode = True
import files  # noqa: E402
import polls  # noqa: E402
import trees  # noqa: E402
import waits  # noqa: E402
import writes  # noqa: E402
from beside import Room, Wrong  # noqa: E402

GROUPS = {
    "polls": polls.measure,
    "lists": trees.measure_lists,
    "commits": trees.measure_commits,
    "loads": trees.measure_loads,
    "files": files.measure,
    "writes": writes.measure,
    "waits": waits.measure,
}
ENOUGH = 3 << 30
"""The bytes that a run takes for its files, with some to spare."""
HERE = Path(__file__).resolve().parent


def place() -> str:
    """Returns where the folder is made: TMPDIR, or memory's own file system if it has room."""
    shared = "/dev/shm"
    if os.environ.get("TMPDIR"):
        return os.environ["TMPDIR"]
    if os.access(shared, os.W_OK) and shutil.disk_usage(shared).free >= ENOUGH:
        return shared
    return tempfile.gettempdir()


def printed(*words: str) -> str:
    """Returns the first line that a command prints."""
    ran = subprocess.run(words, stdout=subprocess.PIPE, stderr=subprocess.STDOUT, check=True)
    return ran.stdout.decode().splitlines()[0].strip()


def loads() -> str:
    """Returns the load of the last minute, of five and of fifteen."""
    return ", ".join(f"{it:.1f}" for it in os.getloadavg())


def describe(room: Room) -> None:
    """Prints what is measured, and where."""
    with open("/proc/cpuinfo", encoding="utf-8") as file:
        models = [line.split(": ")[1].strip() for line in file if line.startswith("model name")]
    programs = [printed(room.edend, "--version"), printed("git", "--version")]
    if shutil.which("watchman"):
        programs.append(f"Watchman {printed('watchman', '--version')}")
    processors = len(os.sched_getaffinity(0))
    print(f"Processor: {models[0] if models else 'unknown'}, {processors} of them.")
    print(f"Programs: {', '.join(programs)}.")
    print(f"Files: {printed('stat', '-f', '-c', '%T', str(room.folder))}. Turns: {room.turns}.")
    print(f"Load: {loads()}.", flush=True)


def run(edend: str, turns: int, is_quick: bool) -> None:
    """Measures all groups, or those that ONLY names."""
    names = os.environ.get("ONLY", "").split() or list(GROUPS)
    with tempfile.TemporaryDirectory(prefix="railburnet-peers-", dir=place()) as folder:
        room = Room(Path(folder), edend, turns, is_quick)
        client = [str(HERE / "client.c"), "-o", str(room.folder / "client")]
        subprocess.run(["cc", "-O2", "-pthread", *client], check=True)
        describe(room)
        for name in names:
            GROUPS[name](room)
        print(f"\nLoad at the end: {loads()}.")


def main() -> int:
    # An end by a signal goes through all clauses that end servers and remove files.
    for number in (signal.SIGHUP, signal.SIGINT, signal.SIGTERM):
        signal.signal(number, lambda number, _: sys.exit(128 + number))
    os.environ.update(GIT_CONFIG_GLOBAL=os.devnull, GIT_CONFIG_NOSYSTEM="1", LC_ALL="C")
    edend, turns, *quick = sys.argv[1:]
    try:
        run(os.path.abspath(edend), int(turns), bool(quick))
    except (Wrong, OSError, subprocess.SubprocessError) as fault:
        print(f"peers.sh: {fault}", file=sys.stderr)
        return 1
    return 0


if __name__ == "__main__":
    sys.exit(main())
