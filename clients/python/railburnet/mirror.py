"""Mirrors: copies of the files that patterns admit, which ask and are told."""
from __future__ import annotations

import enum
import os
import time
from typing import Dict, Iterable, List, Optional, Protocol, Sequence, Tuple, Union

from .frames import (
    MOST_NUMBER,
    AttributesAre,
    Basis,
    BasisIs,
    Below,
    Cause,
    ChangesAre,
    ContentIs,
    Fetch,
    File,
    ListIs,
    Mark,
    Poll,
    Position,
    Query,
    Refused,
    Reply,
    Request,
    StatIs,
    StatusIs,
    drop_own,
    lies_below,
)


class Outcome(enum.Enum):
    """What came of a reply that was delivered to a mirror."""

    IGNORED = "it is late or not for this round"
    TAKEN = "it counted, and the round goes on"
    PLACED = "the round is over, and the mirror has moved to its position"
    UNPLACED = "the position is refused: the next round asks for a basis"
    ENDED = "a list doesn't fit into a frame: the round is over"


class Files(Protocol):
    """Where a mirror keeps its files."""

    def clear(self) -> None:
        """Holds none any more."""

    def keep_below(self, prefix: bytes, paths: Sequence[bytes]) -> None:
        """Of the files below a directory holds only those at these paths any more."""

    def put(self, path: bytes, file: Optional[File]) -> None:
        """Sets what stands at a path; None where no file does."""


class FileMap(Dict[bytes, File]):
    """Files that are kept in memory."""

    def keep_below(self, prefix: bytes, paths: Sequence[bytes]) -> None:
        """Drops the files below a directory but those at these paths."""
        for path in left_out(self, prefix, paths):
            del self[path]

    def put(self, path: bytes, file: Optional[File]) -> None:
        """Sets what stands at a path."""
        if file is None:
            self.pop(path, None)
        else:
            self[path] = file


def left_out(held: Iterable[bytes], prefix: bytes, paths: Sequence[bytes]) -> List[bytes]:
    """The held paths below a directory that aren't among the listed ones."""
    listed = set(paths)
    return [path for path in held if lies_below(path, prefix) and path not in listed]


def _of_others(paths: List[bytes]) -> List[bytes]:
    """The paths but those of feed's own files."""
    kept = list(paths)
    drop_own(kept)
    return kept


class Mirror:
    """A copy of the files that the patterns admit, which never looks at the mount but asks and is
    told.

    `begin` a round, send what is `outstanding`, in any order and as often as needed, and
    `deliver` each reply that comes, late, twice or not at all. Where a round ends as PLACED the
    files are those of the mount at `position`, but for paths that the next poll names. `files`
    is a FileMap where no other is given.
    """

    def __init__(
        self,
        patterns: Iterable[bytes] = (),
        mirror: Optional[int] = None,
        life: Optional[int] = None,
        files: Optional[Files] = None,
    ) -> None:
        self.patterns = tuple(patterns)
        self.mirror = int.from_bytes(os.urandom(8), "big") if mirror is None else mirror
        self.life = time.time_ns() if life is None else life
        self.files: Files = FileMap() if files is None else files
        self.number = 0
        self.position: Optional[Position] = None
        self.listed: List[Tuple[Optional[Mark], bytes]] = []
        self.prefixes: List[bytes] = []
        self._asked: Optional[Request] = None
        self._target: Optional[Position] = None
        self._awaited: Dict[bytes, None] = {}
        self._unlisted: Dict[bytes, None] = {}

    def begin(self) -> None:
        """Begins a round, and gives up the one that there may be."""
        if self.number == MOST_NUMBER:
            raise OverflowError("a mirror has no number left: take a greater life")
        self.number += 1
        query = Query(self.mirror, self.life, self.number)
        self._target, self._awaited, self._unlisted = None, {}, {}
        if self.position is None:
            self._asked = Basis(query, self.patterns)
        else:
            self._asked = Poll(query, self.position, self.patterns)

    def outstanding(self) -> List[Request]:
        """What the round has no counting reply to yet."""
        if self._asked is not None:
            return [self._asked]
        query = Query(self.mirror, self.life, self.number)
        return [
            *(Below(query, prefix, self.patterns) for prefix in self._unlisted),
            *(Fetch(query, path) for path in self._awaited),
        ]

    @property
    def awaited(self) -> int:
        """How many contents are awaited, and lists of what stands below a directory."""
        return len(self._awaited) + len(self._unlisted)

    def deliver(self, reply: Reply) -> Outcome:
        """Takes a reply where it belongs to the round."""
        if reply.query != Query(self.mirror, self.life, self.number):
            return Outcome.IGNORED
        if isinstance(reply, (StatIs, AttributesAre, StatusIs)):
            return Outcome.IGNORED
        if isinstance(reply, ContentIs):
            return self._content(reply)
        if isinstance(reply, ListIs):
            return self._listed(reply)
        if self._asked is None and not (
            isinstance(reply, Refused) and reply.cause is Cause.TOO_LARGE and self._unlisted
        ):
            return Outcome.IGNORED
        if isinstance(reply, Refused):
            return self._refused(reply)
        if isinstance(reply, BasisIs) != isinstance(self._asked, Basis):
            return Outcome.IGNORED
        return self._list(reply)

    def _list(self, reply: Union[BasisIs, ChangesAre]) -> Outcome:
        if isinstance(reply, BasisIs):
            self.files.clear()
            self.position = None
            self.listed, self.prefixes = [(None, path) for path in _of_others(reply.paths)], []
        else:
            marks = {path: mark for mark, path in reply.marked}
            self.listed, self.prefixes = [
                (marks[path], path) for path in _of_others(list(marks))
            ], list(reply.prefixes)
        self._asked, self._target = None, reply.position
        self._awaited, self._unlisted = dict.fromkeys(
            path for _, path in self.listed
        ), dict.fromkeys(self.prefixes)
        return self._moved()

    def _content(self, reply: ContentIs) -> Outcome:
        if reply.path not in self._awaited or not self._is_new(reply.position):
            return Outcome.IGNORED
        self.files.put(reply.path, reply.file)
        del self._awaited[reply.path]
        return self._moved()

    def _listed(self, reply: ListIs) -> Outcome:
        """What isn't listed below the directory is gone, and what is becomes awaited."""
        if reply.prefix not in self._unlisted or not self._is_new(reply.position):
            return Outcome.IGNORED
        paths = _of_others(reply.paths)
        self.files.keep_below(reply.prefix, paths)
        self.listed += [(None, path) for path in paths if path not in self._awaited]
        self._awaited.update(dict.fromkeys(paths))
        del self._unlisted[reply.prefix]
        return self._moved()

    def _is_new(self, position: Position) -> bool:
        """Whether what stands somewhere at a position serves a round that leads to its target."""
        target = self._target
        return (
            target is not None
            and position.generation == target.generation
            and position.sequence >= target.sequence
        )

    def _moved(self) -> Outcome:
        """Moves to the list's position where nothing is awaited."""
        if self._awaited or self._unlisted:
            return Outcome.TAKEN
        self.position, self._target = self._target, None
        return Outcome.PLACED

    def _refused(self, reply: Refused) -> Outcome:
        if reply.cause is Cause.TOO_LARGE:
            self._asked, self._target, self._awaited, self._unlisted = None, None, {}, {}
            return Outcome.ENDED
        self._asked = self.position = None
        return Outcome.UNPLACED
