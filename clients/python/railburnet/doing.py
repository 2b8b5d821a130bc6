"""Changes that a client asks of a mount, their answers, and how bytes spell both: docs/formats.md."""
from __future__ import annotations

import enum
import struct
from dataclasses import dataclass, field
from typing import List, Optional, Tuple, Union

from .frames import (
    MOST_BODY,
    MOST_CONTENT,
    MOST_NUMBER,
    QUERY,
    VERSION,
    Fields,
    File,
    FrameFault,
    Position,
    Query,
    read_whole,
    spelled_path,
)

DO_TAG = 0x06
DONE_TAG = 0x86


class Mode(enum.IntEnum):
    """What a checkout does with files that differ from the commit below them: docs/script.md."""

    NORMAL = 1
    DRY = 2
    FORCE = 3


class ObjectType(enum.IntEnum):
    """What an object of Git's is."""

    BLOB = 1
    TREE = 2
    COMMIT = 3


class ChangeFault(enum.IntEnum):
    """Why a change is refused."""

    NOT_A_DIRECTORY = 1
    IS_A_DIRECTORY = 2
    NO_ENTRY = 3
    TOO_LARGE = 4
    INTO_ITSELF = 5
    PATH_TOO_LONG = 6
    NO_COMMIT = 7
    SEQUENCE_EXHAUSTED = 8
    GENERATION_NOT_NEW = 9
    BAD_OBJECT = 10
    NO_MEMORY = 11


class ObjectFault(enum.IntEnum):
    """Why an object is refused."""

    TOO_LARGE = 1
    ID_TAKEN = 2
    ZERO_ID = 3
    BAD_MODE = 4
    BAD_NAME = 5
    OUT_OF_ORDER = 6
    DUPLICATE = 7
    MISSING_CHILD = 8
    WRONG_CHILD_KIND = 9
    TOO_DEEP = 10
    PATH_TOO_LONG = 11
    CUT_SHORT = 12
    BAD_COMMIT = 13
    NO_MEMORY = 14


@dataclass(frozen=True)
class Write:
    """Sets the file at a path."""

    path: bytes
    file: File


@dataclass(frozen=True)
class Remove:
    """Removes the file at a path."""

    path: bytes


@dataclass(frozen=True)
class Rename:
    """Moves a file."""

    old: bytes
    new: bytes


@dataclass(frozen=True)
class RenameDir:
    """Moves each file below a directory to the same place below another one."""

    old: bytes
    new: bytes


@dataclass(frozen=True)
class Checkout:
    """Goes to a commit, and changes files as the mode says. The commit is its id, 20 bytes."""

    commit: bytes
    mode: Mode = Mode.NORMAL


@dataclass(frozen=True)
class Reset:
    """Goes to a commit, and leaves the files."""

    commit: bytes


@dataclass(frozen=True)
class Flush:
    """Forgets all changes so far."""


@dataclass(frozen=True)
class Remount:
    """Begins again under a greater generation."""

    generation: int


@dataclass(frozen=True)
class Object:
    """An object of Git's, which gets the id that Git gives it."""

    type: ObjectType
    payload: bytes


@dataclass(frozen=True)
class Import:
    """Puts objects, each after those that it names: all of them, or none if one is refused."""

    objects: Tuple[Object, ...]


Change = Union[Write, Remove, Rename, RenameDir, Checkout, Reset, Flush, Remount, Import]


@dataclass(frozen=True)
class Do:
    """Make this change."""

    query: Query
    change: Change


@dataclass(frozen=True)
class Done:
    """The change was made, or there was nothing to do: the position after it."""

    query: Query
    position: Position
    conflicts: List[bytes] = field(default_factory=list)
    """Of a checkout, the paths of changed files that conflict with the commit, ascending."""
    count: int = 0
    """How many conflicts there are. If more than 0 are and none is listed, a frame can't hold
    them."""


@dataclass(frozen=True)
class NotDone:
    """The change is refused, and nothing was changed."""

    query: Query
    fault: ChangeFault
    place: int = 0
    """Of an import, which object is refused, from 0."""
    object_fault: Optional[ObjectFault] = None


@dataclass(frozen=True)
class ReadOnly:
    """The connection may not change the mount, and nothing was changed."""

    query: Query


Answer = Union[Done, NotDone, ReadOnly]


class ChangeRefused(Exception):
    """The mount refuses a change. It has the NotDone as `answer`."""

    def __init__(self, answer: NotDone) -> None:
        object_fault = answer.object_fault
        which = "" if object_fault is None else f" {answer.place} {object_fault.name}"
        super().__init__(answer.fault.name + which)
        self.answer = answer


class NotWritable(Exception):
    """The mount can't be changed over this connection: edend needs its option `--writable`."""


# Bytes.


def encode_do(do: Do) -> bytes:
    """Returns the frame of a change. ValueError if a part of it is invalid or too long."""
    query = do.query
    parts = [
        QUERY.pack(VERSION, DO_TAG, query.mirror, query.life, query.number),
        *_spelled_change(do.change),
    ]
    length = sum(map(len, parts))
    if length > MOST_BODY:
        raise ValueError(f"a change of {length:,} bytes doesn't fit into a frame")
    return b"".join([struct.pack(">I", length), *parts])


def _spelled_change(change: Change) -> List[bytes]:
    """Returns the parts of a change, in their order."""
    if isinstance(change, Write):
        return [b"\x01", spelled_path(change.path), *_spelled_file(change.file)]
    if isinstance(change, Remove):
        return [b"\x01", spelled_path(change.path), b"\x00"]
    if isinstance(change, (Rename, RenameDir)):
        case = b"\x02" if isinstance(change, Rename) else b"\x03"
        return [case, spelled_path(change.old), spelled_path(change.new)]
    if isinstance(change, Checkout):
        return [b"\x04", _checked_id(change.commit), bytes([Mode(change.mode)])]
    if isinstance(change, Reset):
        return [b"\x05", _checked_id(change.commit)]
    if isinstance(change, Flush):
        return [b"\x06"]
    if isinstance(change, Remount):
        if not 0 <= change.generation <= MOST_NUMBER:
            raise ValueError(f"{change.generation} is not a generation")
        return [b"\x07", struct.pack(">Q", change.generation)]
    objects = [part for it in change.objects for part in _spelled_object(it)]
    return [b"\x08", struct.pack(">I", len(change.objects)), *objects]


def _spelled_file(file: File) -> List[bytes]:
    return [bytes([file.kind]), *_spelled_bytes(file.content)]


def _spelled_object(it: Object) -> List[bytes]:
    return [bytes([ObjectType(it.type)]), *_spelled_bytes(it.payload)]


def _spelled_bytes(data: bytes) -> List[bytes]:
    if len(data) > MOST_CONTENT:
        raise ValueError(f"{len(data):,} bytes are more than a file or an object has")
    return [struct.pack(">I", len(data)), data]


def _checked_id(id: bytes) -> bytes:
    if len(id) != 20:
        raise ValueError(f"an id has 20 bytes, not {len(id)}")
    return id


def decode_done(body: bytes) -> Answer:
    """Reads the body of the answer to a change. FrameFault if it is invalid."""
    return read_whole(body, _answer)


def _answer(fields: Fields) -> Answer:
    _, query = fields.head((DONE_TAG,))
    case = fields.number(1)
    if case == 0:
        return ReadOnly(query)
    if case == 3:
        return _not_done(fields, query)
    if case not in (1, 2, 4):
        raise FrameFault("BadField")
    position = fields.position()
    if case == 1:
        return Done(query, position)
    if case == 4:
        return Done(query, position, count=fields.number(4))
    conflicts = fields.paths()
    return Done(query, position, conflicts, len(conflicts))


def _not_done(fields: Fields, query: Query) -> NotDone:
    """Reads a refusal, whose last two fields are 0 if no object is its cause."""
    fault = ChangeFault(fields.one_of(ChangeFault))
    place = fields.number(8)
    if fault is ChangeFault.BAD_OBJECT:
        return NotDone(query, fault, place, ObjectFault(fields.one_of(ObjectFault)))
    if place != 0 or fields.number(1) != 0:
        raise FrameFault("BadField")
    return NotDone(query, fault)
