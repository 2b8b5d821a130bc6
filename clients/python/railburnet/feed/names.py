"""What stands for the contents of files in a mount of names."""
from __future__ import annotations

import os
import re
import struct
import subprocess
from typing import Dict

from .model import Numbers, Seen

_ENTRY = re.compile(
    rb"[0-7]+ ([0-9a-f]+) 0\t([^\0]*)\0"
    rb"  ctime: (\d+):(\d+)\n  mtime: (\d+):(\d+)\n  dev: \d+\tino: (\d+)\n"
    rb"  uid: \d+\tgid: \d+\n  size: (\d+)\tflags: [0-9a-f]+\n")
_SECOND = 1_000_000_000
_STATUS = struct.Struct("=qqII")


class Texts:
    """Short texts in place of contents, for which no file is read.

    A text is `blob ID` if Git's index, as it was at the start, knows the file and its status is
    still that of the index; else `stat SIZE MODIFIED INODE`, with the time in nanoseconds.
    """

    def __init__(self, top: bytes) -> None:
        self._known = _index(top)

    def take_id(self, path: bytes, seen: Seen) -> bytes:
        """Returns the index's id of a file that is looked at first; nothing if it has none."""
        known = self._known.pop(path, b"") if self._known else b""
        return known[_STATUS.size :] if known.startswith(_status_of(seen)) else b""

    def text(self, id: bytes, seen: Numbers) -> bytes:
        """Returns the text for a file with this id, or with none."""
        if id:
            return b"blob %b" % id.hex().encode()
        _, inode, size, modified, _, _, _ = seen
        return b"stat %d %d %d" % (size, modified, inode)


def _status_of(seen: Seen) -> bytes:
    """Returns what the index keeps of a status."""
    _, inode, size, modified, changed, _, _ = seen.numbers()
    return _packed(modified, changed, inode, size)


def _packed(modified: int, changed: int, inode: int, size: int) -> bytes:
    return _STATUS.pack(modified, changed, inode & 0xFFFF_FFFF, size & 0xFFFF_FFFF)


def _index(top: bytes) -> Dict[bytes, bytes]:
    """Returns the status and the id, packed, of each file of Git's index below a directory."""
    try:
        where = _git(top, b"rev-parse", b"--git-path", b"index").rstrip(b"\n")
        written = os.stat(os.path.join(top, where)).st_mtime_ns
        listed = _git(top, b"ls-files", b"--stage", b"--debug", b"-z")
    except (OSError, subprocess.CalledProcessError):
        return {}
    known = {}
    for entry in _ENTRY.finditer(listed):
        id, path, *times, inode, size = entry.groups()
        second, part, modified_second, modified_part = map(int, times)
        modified = modified_second * _SECOND + modified_part
        # One that was written as late as the index may have been written once more since.
        if modified < written:
            changed = second * _SECOND + part
            status = _packed(modified, changed, int(inode), int(size))
            known[path] = status + bytes.fromhex(id.decode())
    return known


def _git(top: bytes, *words: bytes) -> bytes:
    """Returns what git prints in a directory.

    It runs no hook: that could ask, and wait for, the mount which begins here.
    """
    whole = [b"git", b"-C", top, b"-c", b"core.fsmonitor=", *words]
    done = subprocess.run(whole, stdout=subprocess.PIPE, stderr=subprocess.DEVNULL, check=True)
    return done.stdout
