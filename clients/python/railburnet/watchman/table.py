"""The rows of an answer: paths of files, and what the disk has there now."""
from __future__ import annotations

import os
import stat
from typing import Container, Dict, List, Optional, Sequence, Set, Tuple

from ..frames import Mark
from .clocks import Spec

_LETTERS = {
    stat.S_IFREG: b"f",
    stat.S_IFDIR: b"d",
    stat.S_IFLNK: b"l",
    stat.S_IFIFO: b"p",
    stat.S_IFSOCK: b"s",
    stat.S_IFCHR: b"c",
    stat.S_IFBLK: b"b",
}
MANY = 1000
"""From how many paths on directories are listed for the kinds of their files."""
Rows = List[int]
"""Which rows of a table, ascending."""
Since = Optional[Tuple[Set[bytes], Set[bytes]]]
"""The paths that changed since a clock, and those of them that are new; None if all did."""
Letters = Dict[bytes, Optional[bytes]]
"""All files, with the letters of their kinds; None of those that weren't asked for."""


def letter_of(mode: int) -> bytes:
    """Returns Watchman's letter for a kind of file."""
    return _LETTERS.get(stat.S_IFMT(mode), b"?")


class Disk:
    """A directory, held open, in which paths are looked at without following a link."""

    def __init__(self, top: bytes) -> None:
        self.top = top
        self._file = os.open(
            top, getattr(os, "O_PATH", os.O_RDONLY) | os.O_DIRECTORY | os.O_CLOEXEC
        )

    def close(self) -> None:
        """Lets the directory go."""
        os.close(self._file)

    def status(
        self, paths: Sequence[bytes], changed: Container[bytes] = ()
    ) -> List[Optional[os.stat_result]]:
        """Returns the status of each path; None if there is no file, or a directory.

        The mount has, or had, a file at each of them. So what is above them is a directory, unless
        it is itself among the paths that changed.
        """
        folders: Dict[bytes, bool] = {b"": True}
        look, file = os.stat, self._file
        found: List[Optional[os.stat_result]] = []
        for path in paths:
            above = path.rpartition(b"/")[0]
            is_folder = folders.get(above)
            if is_folder is None:
                is_folder = self._is_folder(above, folders, changed)
            try:
                status = look(path, dir_fd=file, follow_symlinks=False) if is_folder else None
            except OSError:
                status = None
            found.append(
                status if status is not None and not stat.S_ISDIR(status.st_mode) else None
            )
        return found

    def letters(self, paths: Sequence[bytes]) -> List[bytes]:
        """Returns Watchman's letter for the kind of each path that the mount has, so that it is a
        file or a link; of many by lists of directories, which are cheaper than many looks."""
        if len(paths) < MANY:
            statuses = self.status(paths)
            links = {path for path, it in zip(paths, statuses) if it and stat.S_ISLNK(it.st_mode)}
        else:
            above = {path.rpartition(b"/")[0] for path in paths}
            links = {link for folder in above for link in self._links(folder)}
        return [b"l" if path in links else b"f" for path in paths]

    def _links(self, folder: bytes) -> List[bytes]:
        """Returns the links in a directory."""
        start = folder + b"/" if folder else b""
        try:
            with os.scandir(os.path.join(self.top, folder)) as entries:
                return [start + entry.name for entry in entries if entry.is_symlink()]
        except OSError:
            return []

    def _is_folder(
        self, path: bytes, known: Dict[bytes, bool], changed: Container[bytes]
    ) -> bool:
        """Whether a path is a directory, and none of those above it a link."""
        if path not in known:
            known[path] = self._is_folder(path.rpartition(b"/")[0], known, changed)
            if known[path] and path in changed:
                try:
                    status = os.stat(path, dir_fd=self._file, follow_symlinks=False)
                    known[path] = stat.S_ISDIR(status.st_mode)
                except OSError:
                    known[path] = False
        return known[path]

    def target(self, path: bytes) -> Optional[bytes]:
        """Returns what a link names; None if there is no link."""
        try:
            return os.readlink(path, dir_fd=self._file)
        except OSError:
            return None


class Table:
    """Paths with their names below a directory of the root. What the disk has is looked up when it
    is asked for."""

    def __init__(
        self,
        disk: Disk,
        paths: List[bytes],
        marks: Optional[Dict[bytes, Mark]],
        skip: int,
        since: Dict[Spec, Since],
        clock: str,
        letters: Optional[Letters] = None,
    ) -> None:
        self.paths, self.marks, self.since, self.clock = paths, marks, since, clock
        self.names = [path[skip:] for path in paths] if skip else paths
        self.disk, self._letters = disk, letters
        self._bases: Optional[List[bytes]] = None
        self._statuses: Dict[int, Optional[os.stat_result]] = {}
        self._last: Tuple[Rows, List[Optional[os.stat_result]]] = [], []

    def letters(self, rows: Rows) -> List[Optional[bytes]]:
        """Returns Watchman's letter for the kind of file of each of these rows; None where there is
        none."""
        known = self._letters
        if known is None or self._statuses:
            return [
                None if status is None else letter_of(status.st_mode)
                for status in self.statuses(rows)
            ]
        paths = [self.paths[row] for row in rows]
        unknown = [path for path in paths if known[path] is None]
        known.update(zip(unknown, self.disk.letters(unknown)))
        return [known[path] for path in paths]

    @property
    def is_fresh(self) -> bool:
        """Whether the rows are all files, and not what changed."""
        return self.marks is None

    @property
    def bases(self) -> List[bytes]:
        """The last components of the names."""
        if self._bases is None:
            self._bases = [name.rpartition(b"/")[2] for name in self.names]
        return self._bases

    def names_of(self, rows: Rows) -> List[bytes]:
        """Returns the names of these rows."""
        if len(rows) == len(self.names):
            return self.names
        return [self.names[row] for row in rows]

    def statuses(self, rows: Rows) -> List[Optional[os.stat_result]]:
        """Returns the status of each of these rows."""
        if rows is not self._last[0]:
            known = self._statuses
            missing = [row for row in rows if row not in known]
            if missing:
                paths = [self.paths[row] for row in missing]
                known.update(zip(missing, self.disk.status(paths, self.marks or ())))
            self._last = rows, [known[row] for row in rows]
        return self._last[1]

    def existing(self, rows: Rows) -> Rows:
        """Returns those of these rows whose files are there."""
        if self.is_fresh and not self._statuses:
            # The mount has them, which is what the clock of the answer means.
            return rows
        return [row for row, status in zip(rows, self.statuses(rows)) if status is not None]
