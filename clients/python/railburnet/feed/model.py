"""What was told of a directory."""
from __future__ import annotations

import errno
import os
import stat
import struct
import sys
from typing import Dict, FrozenSet, Iterator, NamedTuple, Optional, Tuple, Union

from ..frames import MOST_CONTENT

MOST_LINE = 65_536
MOST_BYTES = MOST_CONTENT
# Whatever its bytes and its path are, a file of this size fits into a line.
SURE_TO_FIT = (MOST_LINE - 2 * 1024 - len("write  plain \\e")) // 2
GIT_KINDS = {b"100644": b"plain", b"100664": b"plain", b"100755": b"exec", b"120000": b"link"}
# A time of change is that of a tick of the clock: a file that was read so soon after it may have
# been written once more at the same time.
YOUNG = 2_000_000_000
_PACKED = struct.Struct("=QQQQQII")
_SEEN = struct.Struct("=QQQqqII")
"""What `_PACKED` packs, with a sign of the times."""
_WORD = (1 << 64) - 1
Numbers = Tuple[int, int, int, int, int, int, int]
"""The numbers of a status: file system, inode, size, times of bytes and of status, mode, links."""
NOT_THERE = (errno.ENOENT, errno.ENOTDIR, errno.ELOOP, errno.ENXIO)


class Failure(Exception):
    """What ends the program with status 1, as a message."""


class NoNotices(Exception):
    """The system can't watch a directory."""


def tell(text: str) -> None:
    """Says something to whoever runs it."""
    print(f"feed: {text}", file=sys.stderr, flush=True)


def shown(path: bytes) -> str:
    """A path for people."""
    text = path.decode("utf-8", "backslashreplace")
    return "".join(c if c.isprintable() else ascii(c)[1:-1] for c in text) or "."


def spelled(word: bytes) -> bytes:
    """Returns a word of a script for some bytes."""
    return word.replace(b"\\", b"\\\\").replace(b"\n", b"\\n").replace(b" ", b"\\s") or b"\\e"


def line_of(*words: bytes) -> bytes:
    """Returns a line of a script, with its line feed."""
    line = b" ".join([spelled(word) for word in words])
    return line + (b"\\e\n" if line.endswith(b"\r") else b"\n")


def joined(folder: bytes, name: bytes) -> bytes:
    return folder + b"/" + name if folder else name


def folders_of(path: bytes) -> Iterator[bytes]:
    """The directories above a path, without the top."""
    end = path.find(b"/")
    while end >= 0:
        yield path[:end]
        end = path.find(b"/", end + 1)


def is_short(path: bytes) -> bool:
    """Whether a path is short enough for a mount."""
    return len(path) <= 1024 and path.count(b"/") <= 63


class Seen(bytes):
    """By what a file is known again that nobody changed: the numbers of its status, packed.

    A large directory has many, and bytes take a third of what a tuple of numbers takes. Times are
    kept modulo 2**64 nanoseconds.
    """

    __slots__ = ()

    @staticmethod
    def of(status: os.stat_result) -> Seen:
        """Returns what a status says."""
        return Seen(_PACKED.pack(
            status.st_dev, status.st_ino, status.st_size, status.st_mtime_ns & _WORD,
            status.st_ctime_ns & _WORD, status.st_mode, status.st_nlink))

    def numbers(self) -> Numbers:
        """Returns all numbers. Who needs several saves time by it."""
        return _SEEN.unpack(self)  # type: ignore[return-value]

    @property
    def node(self) -> Tuple[int, int]:
        """The number of its file system, and that of its inode."""
        return self.numbers()[:2]

    @property
    def size(self) -> int:
        """How many bytes it has."""
        return self.numbers()[2]

    @property
    def modified(self) -> int:
        """When its bytes changed, in nanoseconds."""
        return self.numbers()[3]

    @property
    def changed(self) -> int:
        """When it changed, in nanoseconds."""
        return self.numbers()[4]

    @property
    def mode(self) -> int:
        """Its type and who may do what."""
        return self.numbers()[5]

    @property
    def links(self) -> int:
        """How many names it has."""
        return self.numbers()[6]

    @property
    def kind(self) -> bytes:
        """The kind of file, as a script writes it."""
        return kind_of(self.mode)

    @property
    def moved(self) -> Tuple[int, int, int, int, bytes]:
        """What stays where a file is moved."""
        device, inode, size, modified, _, mode, _ = self.numbers()
        return device, inode, size, modified, kind_of(mode)


def kind_of(mode: int) -> bytes:
    """Returns the kind of a file of some mode, as a script writes it."""
    return b"link" if stat.S_ISLNK(mode) else b"exec" if mode & 0o100 else b"plain"


class File(NamedTuple):
    """A file of the directory, as it was told."""

    kind: bytes
    id: bytes
    """Git's id of the bytes, or nothing if they weren't read and Git's index has none."""
    seen: Optional[Seen] = None
    """None of a file of the commit that wasn't looked at."""
    told: bool = True
    """Whether the mount holds it; else it has no file there."""
    young: bool = False
    large: bool = False
    """Whether its bytes may not fit into a line."""


class Folder:
    """A directory as it was told, and its watch."""

    __slots__ = ("items", "watch", "is_copy", "passed_over")

    def __init__(self) -> None:
        self.items: Dict[bytes, Union[File, Folder]] = {}
        self.watch = -1
        self.is_copy = False
        """Whether `railburnet follow --into` keeps it; what it holds is left out."""
        self.passed_over: FrozenSet[bytes] = frozenset()
        """The names in it that are passed over, as `.git` is."""


class Model:
    """What was told of the directory."""

    def __init__(self) -> None:
        self.top = Folder()

    def get(self, path: bytes) -> Union[File, Folder, None]:
        """What stands at a path."""
        at: Union[File, Folder, None] = self.top
        for name in path.split(b"/") if path else ():
            at = at.items.get(name) if isinstance(at, Folder) else None
        return at

    def folder_for(self, path: bytes) -> Optional[Folder]:
        """Returns the directory at a path, made if there is none; None if a file is at it or
        above."""
        at = self.top
        for name in path.split(b"/") if path else ():
            below = at.items.get(name)
            if isinstance(below, File):
                return None
            if below is None:
                below = at.items[name] = Folder()
            at = below
        return at

    def folder(self, path: bytes) -> Folder:
        """The directory at a path, made where there is none, in place of files above and at it."""
        at = self.top
        for name in path.split(b"/") if path else ():
            below = at.items.get(name)
            if not isinstance(below, Folder):
                below = at.items[name] = Folder()
            at = below
        return at

    def put(self, path: bytes, file: File) -> None:
        """Sets the file at a path."""
        above, _, name = path.rpartition(b"/")
        self.folder(above).items[name] = file

    def take(self, path: bytes) -> Union[File, Folder, None]:
        """Takes away what stands at a path."""
        above, _, name = path.rpartition(b"/")
        folder = self.get(above)
        return folder.items.pop(name, None) if isinstance(folder, Folder) else None

    def below(self, item: Union[File, Folder, None],
              path: bytes) -> Iterator[Tuple[bytes, Union[File, Folder]]]:
        """An item at a path with all files and directories below it."""
        waiting = [(path, item)] if item is not None else []
        while waiting:
            path, item = waiting.pop()
            yield path, item
            if isinstance(item, Folder):
                waiting.extend((joined(path, name), below) for name, below in item.items.items())

    def files(self) -> Dict[bytes, File]:
        """All files."""
        return {path: item for path, item in self.below(self.top, b"") if isinstance(item, File)}
