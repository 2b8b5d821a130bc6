"""Notices of the kernel."""
from __future__ import annotations

import ctypes
import errno
import os
import struct
from typing import Dict, List, Set, Tuple

from .model import Failure, NoNotices, shown


class Inotify:
    """Notices of the kernel. The package watchdog passes over the notice that some were lost, so
    this calls the C library itself."""

    # IN_MODIFY, IN_ATTRIB, IN_CLOSE_WRITE, IN_MOVED_FROM, IN_MOVED_TO, IN_CREATE, IN_DELETE,
    # IN_DELETE_SELF, IN_MOVE_SELF, IN_ONLYDIR, IN_EXCL_UNLINK
    MASK = 0x2 | 0x4 | 0x8 | 0x40 | 0x80 | 0x100 | 0x200 | 0x400 | 0x800 | 0x0100_0000 | 0x0400_0000
    OVERFLOW, IGNORED = 0x4000, 0x8000
    DIRECTORY, MOVED_FROM, MOVED_TO = 0x4000_0000, 0x40, 0x80
    HEAD = struct.Struct("iIII")

    def __init__(self) -> None:
        try:
            library = ctypes.CDLL(None, use_errno=True)
            self._library, self.file = library, library.inotify_init1(os.O_NONBLOCK | os.O_CLOEXEC)
        except (OSError, AttributeError):
            raise Failure("no inotify here") from None
        if self.file < 0:
            raise Failure(f"no inotify here: {os.strerror(ctypes.get_errno())}")
        self.paths: Dict[int, bytes] = {}
        self._left: Dict[int, bytes] = {}
        self._moves: List[Tuple[bytes, bytes]] = []

    def add(self, folder: int, path: bytes) -> int:
        """Watches an open directory, and calls it by a path."""
        name = b"/proc/self/fd/%d" % folder
        watch: int = self._library.inotify_add_watch(self.file, name, self.MASK)
        if watch < 0:
            fault = ctypes.get_errno()
            too_few = ", too few watches, see fs.inotify.max_user_watches"
            more = too_few if fault == errno.ENOSPC else ""
            raise NoNotices(f"the system can't watch {shown(path)}: {os.strerror(fault)}{more}")
        self.paths[watch] = path
        return watch

    def remove(self, watch: int, path: bytes) -> None:
        """Watches a directory no longer, if it is still the one that is called so."""
        if self.paths.get(watch) == path:
            del self.paths[watch]
            self._library.inotify_rm_watch(self.file, watch)

    def read(self) -> Tuple[Set[bytes], bool]:
        """The paths at which something happened, and whether some notices were lost."""
        paths: Set[bytes] = set()
        lost = False
        unpack, head, moved = self.HEAD.unpack_from, self.HEAD.size, self.MOVED_FROM | self.MOVED_TO
        while True:
            try:
                data = os.read(self.file, 1 << 18)
            except BlockingIOError:
                return paths, lost
            at = 0
            while at < len(data):
                watch, mask, cookie, length = unpack(data, at)
                start = at + head
                at = start + length
                folder = self.paths.get(watch)
                if mask & (self.OVERFLOW | self.IGNORED):
                    lost = lost or bool(mask & self.OVERFLOW)
                    if mask & self.IGNORED:
                        self.paths.pop(watch, None)
                elif folder is not None and (length or not folder):
                    name = data[start:at].rstrip(b"\0")
                    path = folder + b"/" + name if folder and name else name
                    paths.add(path)
                    if mask & self.DIRECTORY and mask & moved:
                        self._move(path, cookie, mask)

    def _move(self, path: bytes, cookie: int, mask: int) -> None:
        """A directory left a path, or came to one. The two notices of one move have one cookie."""
        if mask & self.MOVED_FROM:
            self._left[cookie] = path
        elif cookie in self._left:
            self._moves.append((self._left.pop(cookie), path))

    def moves(self) -> List[Tuple[bytes, bytes]]:
        """Which directories were moved since this was asked last, each from one path to another,
        by the names that are known of what is watched."""
        moves, self._moves = self._moves, []
        self._left.clear()
        return moves
