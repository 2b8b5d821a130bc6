"""Contents of files over a socket, beside `cp -r` and a bare connection."""
from __future__ import annotations

import os
import random
import shutil
import subprocess
from pathlib import Path
from typing import List, Sequence, Tuple

from beside import LIMIT, QUERY, Room, ask, frames, length_of, must_equal, served, table
from trees import Repository

CHARACTERS = b"abcdefghijklmnopqrstuvwxyz"
HEAD = 4 + 26
"""The bytes of a frame up to the query's end."""


def write_files(top: Path, count: int, size: int) -> List[bytes]:
    """Writes files, a hundred to a directory, and returns their paths, ascending."""
    chance, paths = random.Random(1), []
    for number in range(count):
        path = f"d{number // 100:02}/f{number % 100:02}"
        (top / path).parent.mkdir(parents=True, exist_ok=True)
        (top / path).write_bytes(chance.randbytes(size // 2).hex().encode())
        paths.append(path.encode())
    return paths


def as_lines(top: Path, paths: Sequence[bytes]) -> Tuple[List[bytes], str]:
    """Returns a script that writes all files."""
    lines = [b"mount empty 1 %d\n" % LIMIT]
    for path in paths:
        lines.append(b"write %s plain %s\n" % (path, (top / path.decode()).read_bytes()))
    return lines, ""


def as_objects(room: Room, top: Path) -> Tuple[List[bytes], str]:
    """Returns a script that mounts all files, and their objects."""
    folder = room.folder / "large"
    subprocess.run(["git", "init", "-q", "--bare", str(folder)], check=True)
    repository = Repository(room, folder)
    place = ["-c", "core.bare=false", "--work-tree", str(top), "-c", "core.compression=0"]
    repository.git(*place, "add", "-A")
    author = ["-c", "user.name=a", "-c", "user.email=a@a"]
    repository.git(*place, *author, "commit", "-q", "-m", "one")
    return [repository.mount("HEAD")], repository.batch("HEAD")


def copied(room: Room, top: Path, count: int) -> float:
    """Measures `cp -r`."""
    to = room.folder / "copy"
    took = room.timed([0], "run", "cp", "-r", str(top), str(to))
    must_equal("files copied", sum(len(names) for _, _, names in os.walk(to)), count)
    shutil.rmtree(to)
    return took


def measure_files(room: Room, work: str, count: int, size: int, is_large: bool) -> None:
    """Measures a basis and all contents."""
    top = room.folder / "contents"
    paths = write_files(top, count, size)
    lines, objects = as_objects(room, top) if is_large else as_lines(top, paths)
    # A ContentIs has a head, a position, a path, a kind, a length and the bytes.
    body = 4 + 26 + 36 + 2 + 1 + 4 + size
    bytes_of_all = 4 + length_of(paths, 0, 0) + sum(body + len(it) for it in paths)
    into = room.folder / "kept"
    with served(room, lines, objects) as daemon:
        for reply in ask(daemon.port, *(frames.Fetch(QUERY, it) for it in paths)):
            must_equal("a content", reply.file.content, (top / reply.path.decode()).read_bytes())
        basis = room.put("basis", frames.encode_request(frames.Basis(QUERY)))
        one = frames.encode_request(frames.Fetch(QUERY, b"a"))
        words = ["fetch", daemon.port, basis, room.put("fetch", bytes(4) + one[4:HEAD])]

        def fetched(*more: str) -> float:
            return room.timed([count, bytes_of_all], *words, *more)

        def kept() -> float:
            into.mkdir()
            took = fetched(str(into))
            must_equal("files kept", subprocess.call(["diff", "-r", str(top), str(into)]), 0)
            shutil.rmtree(into)
            return took

        def bare() -> float:
            return room.timed([bytes_of_all], "loopback", bytes_of_all)

        copies = {"`cp -r`": lambda: copied(room, top, count)}
        room.row(f"{work}, dropped", fetched, {"bare connection": bare, **copies})
        room.row(f"{work}, written to files", kept, copies)
    shutil.rmtree(top)


def measure(room: Room) -> None:
    """Measures contents."""
    few, large = (1_000, 4) if room.is_quick else (10_000, 16)
    with table("Files and their contents"):
        measure_files(room, f"{few:,} files of 500 bytes", few, 500, False)
        measure_files(room, f"{large} files of 8 MiB", large, 1 << 23, True)
