"""The directory on the disk: entered without following a link, listed, and read."""
from __future__ import annotations

import errno
import os
import stat
from typing import Dict, Iterator, Optional, Tuple

from .model import MOST_BYTES, Seen

_FOLDER = getattr(os, "O_PATH", os.O_RDONLY) | os.O_DIRECTORY | os.O_NOFOLLOW | os.O_CLOEXEC
_LISTED = os.O_RDONLY | os.O_DIRECTORY | os.O_NOFOLLOW | os.O_CLOEXEC
_READ = os.O_RDONLY | os.O_NOFOLLOW | os.O_NONBLOCK | os.O_CLOEXEC
_MOST_OPEN = 128


class Places:
    """The directories below a top, entered without following a link, and kept open for a turn."""

    def __init__(self, top: bytes) -> None:
        self._top = top
        self._open: Dict[bytes, int] = {}

    def at(self, path: bytes) -> int:
        """Returns a directory, open until `close`, or until many others were asked for."""
        number = self._open.get(path)
        if number is not None:
            return number
        if path:
            above, _, name = path.rpartition(b"/")
            number = os.open(name, _FOLDER, dir_fd=self.at(above))
        else:
            number = os.open(self._top, _FOLDER)
        while len(self._open) >= _MOST_OPEN:
            os.close(self._open.pop(next(iter(self._open))))
        self._open[path] = number
        return number

    def close(self) -> None:
        """Closes all directories, so that each is looked for again by its path."""
        while self._open:
            os.close(self._open.popitem()[1])

    def listed(self, path: bytes) -> int:
        """Returns a directory, open to be listed; the caller closes it."""
        return os.open(b".", _LISTED, dir_fd=self.at(path))

    def status(self, folder: int, name: bytes) -> os.stat_result:
        """Returns the status of a name of a directory, of a link itself."""
        return os.stat(name, dir_fd=folder, follow_symlinks=False)

    def read(self, folder: int, name: bytes, seen: Seen) -> Tuple[Seen, Optional[bytes], bool]:
        """Returns what was seen of a file before it was read, its bytes, and whether it stayed so.

        The bytes are None if a mount can't hold so many.
        """
        if stat.S_ISLNK(seen.mode):
            return seen, os.readlink(name, dir_fd=folder), True
        number = os.open(name, _READ, dir_fd=folder)
        try:
            before = Seen.of(os.fstat(number))
            if not stat.S_ISREG(before.mode):
                raise FileNotFoundError(errno.ENOENT, "no file any more")
            data = _bytes_of(number, before.size)
            return before, data, Seen.of(os.fstat(number)) == before
        finally:
            os.close(number)


def entries(listed: int) -> Iterator[Tuple[bytes, os.stat_result]]:
    """Yields the names in an open directory with their status, but for those that are gone
    meanwhile."""
    with os.scandir(listed) as found:
        for entry in found:
            try:
                yield os.fsencode(entry.name), entry.stat(follow_symlinks=False)
            except FileNotFoundError:
                pass


def _bytes_of(number: int, size: int) -> Optional[bytes]:
    """Returns the bytes of an open file of a size; None if a mount can't hold so many."""
    if size > MOST_BYTES:
        return None
    # One byte more than there should be: fewer come exactly if the end was read.
    data = os.read(number, size + 1)
    if len(data) == size:
        return data
    while len(data) <= MOST_BYTES:
        more = os.read(number, MOST_BYTES + 1 - len(data))
        if not more:
            return data
        data += more
    return None
