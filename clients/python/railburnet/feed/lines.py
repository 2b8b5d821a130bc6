"""The lines that change the mount, and the number that it has after them."""
from __future__ import annotations

import io
import sys
from typing import BinaryIO, Callable, Dict, List, Tuple

from ..frames import OWN_PATHS
from .model import MOST_LINE, SURE_TO_FIT, line_of


class Lines:
    """Prints lines for edend, and counts what they do.

    The mount begins at number 1, and each line that changes it takes the next number, whatever it
    changes. A line that edend refuses takes none, nor does a rename of a path to itself. The count
    is right because feed prints neither. It removes and renames only files that it has told. It
    renames a directory only if one of them is below it. It writes or renames to a path only if no
    file that it has told is above or below it. Its paths are names of real directories, of at most
    1,024 bytes and 64 names, so edend takes each of them.
    """

    writes_all = False
    """Whether each file of at most 8 MiB can be written, now or once the mount is served."""

    def __init__(self, generation: int) -> None:
        self.generation, self.number = generation, 1
        self.meanwhile: Callable[[], None] = lambda: None
        """What is done again and again while edend takes long."""
        out = sys.stdout.buffer
        # PYTHONUNBUFFERED would have each line be written by itself.
        self._out: BinaryIO = io.BufferedWriter(out) if isinstance(out, io.FileIO) else out
        self._mounted = False

    def begin(self, commit: str, limit: int) -> None:
        """Prints the line that mounts a commit."""
        words = _label_of(commit), b"%d" % self.generation, b"%d" % limit
        self._out.write(line_of(b"mount", *words))

    def listen(self) -> None:
        """Prints the line from which on the mount can be asked."""
        self._out.write(b"listen\n")
        self._out.flush()

    def flush(self) -> None:
        """Gives edend all that was printed."""
        self._out.flush()

    def defers(self, size: int) -> bool:
        """Whether a file of a size can be written only once the mount is served."""
        return False

    def fits(self, path: bytes, kind: bytes, data: bytes) -> bool:
        """Whether a file can be written now."""
        if len(data) > MOST_LINE:
            return False
        line = b"" if len(data) <= SURE_TO_FIT else line_of(b"write", path, kind, data)
        return len(line) <= MOST_LINE + 1

    def change(self, *words: bytes) -> None:
        """Prints a line that changes the mount."""
        self._out.write(line_of(*words))
        self.number += 1

    def check_out(self, commit: str) -> None:
        """Has the mount go to a commit, and change all files that differ from it."""
        self.change(b"checkout", _label_of(commit), b"force")

    def name(self, path: bytes) -> None:
        """Tells a change of a path at which the mount has no file, and leaves it so."""
        self.change(b"write", path, b"plain", b"")
        self.change(b"remove", path)


def _label_of(commit: str) -> bytes:
    """Returns the label of a commit, which is named by its id or as `empty`."""
    return commit[:32].encode()


class Parking:
    """Keeps files of the mount that no line can write, while no path of the directory has them.

    They are renamed to a path that no directory can have, and back when a file of the same kind and
    bytes is there again.
    """

    def __init__(self, lines: Lines) -> None:
        self._lines = lines
        self._parked: Dict[Tuple[bytes, bytes], List[bytes]] = {}
        self._news = False

    def park(self, path: bytes, kind: bytes, id: bytes) -> None:
        """Takes a file of the mount away from its path, and keeps it."""
        places = self._parked.setdefault((kind, id), [])
        place = b"%s/parked/%s-%s-%d" % (OWN_PATHS, id.hex().encode(), kind, len(places) + 1)
        self._lines.change(b"rename", path, place)
        places.append(place)
        self._news = True

    def takes_news(self) -> bool:
        """Whether a file was parked since this was asked last."""
        news, self._news = self._news, False
        return news

    def has(self, kind: bytes, id: bytes) -> bool:
        """Whether a file of this kind and these bytes is kept."""
        return (kind, id) in self._parked

    def restore(self, path: bytes, kind: bytes, id: bytes) -> bool:
        """Puts a file that is kept at a path that has none, and says whether there was one."""
        places = self._parked.get((kind, id))
        if not places:
            return False
        self._lines.change(b"rename", places.pop(), path)
        if not places:
            del self._parked[kind, id]
        return True

    def places(self) -> List[bytes]:
        """Returns the paths of the mount at which files are kept."""
        return sorted(place for places in self._parked.values() for place in places)
