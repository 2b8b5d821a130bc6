"""Requests and replies of version 2, and how bytes spell them: docs/formats.md."""
from __future__ import annotations

import enum
import re
import struct
from bisect import bisect_left
from dataclasses import dataclass
from itertools import islice
from operator import lt
from typing import (
    Callable,
    Container,
    Iterator,
    List,
    Optional,
    Sequence,
    Tuple,
    TypeVar,
    Union,
)

VERSION = 2
MOST_BODY = 16_777_216
MOST_CONTENT = 8_388_608
MOST_NUMBER = 2**64 - 1
PATIENCE_TAG = 5
EXCLUSIONS_TAG = 7
STAT_TAG = 8
ATTRIBUTES_TAG = 9
STATUS_TAG = 10
OWN_PATHS = b".git/.railburnet"
"""The directory of a mount in which feed keeps files of its own: no directory that it follows
has it."""
NAMES_MARK = OWN_PATHS + b"/names"
"""Holds a file exactly if the mount has short texts instead of the contents of files."""


class Kind(enum.IntEnum):
    """What a file is; the content of a link is its target."""

    PLAIN = 1
    EXEC = 2
    LINK = 3


class Mark(enum.IntEnum):
    """What the changes of files did at a path; ROOT where none did, and the mount went over to
    another commit."""

    CREATED = 1
    REMOVED = 2
    CHANGED = 3
    ROOT = 4


class Cause(enum.IntEnum):
    """Why a request was refused."""

    STALE = 1
    AHEAD = 2
    TRUNCATED = 3
    TOO_LARGE = 4


@dataclass(frozen=True)
class Position:
    """A point in what happens to a mount. The root is the id of the commit below, and decides
    nothing."""

    generation: int
    sequence: int
    root: bytes = bytes(20)

    def __str__(self) -> str:
        return f"{self.generation} {self.sequence} {self.root.hex()}"


@dataclass(frozen=True)
class Query:
    """Which question of which client: a mirror's id, its life, and the number of its round."""

    mirror: int
    life: int
    number: int


@dataclass(frozen=True)
class File:
    """A file as a mount has it."""

    kind: Kind
    content: bytes


@dataclass(frozen=True)
class FileStat:
    """A file without its bytes: their number, and the id of the blob that they make, as
    `git hash-object` prints it."""

    kind: Kind
    length: int
    id: bytes


@dataclass(frozen=True)
class Basis:
    """Which paths hold a file?"""

    query: Query
    patterns: Tuple[bytes, ...] = ()


@dataclass(frozen=True)
class Poll:
    """What changed since a position?"""

    query: Query
    since: Position
    patterns: Tuple[bytes, ...] = ()


@dataclass(frozen=True)
class Fetch:
    """What stands at a path?"""

    query: Query
    path: bytes


@dataclass(frozen=True)
class Stat:
    """What stands at a path, without its bytes?"""

    query: Query
    path: bytes


@dataclass(frozen=True)
class Below:
    """Which paths below a directory hold a file? (The frame List.)"""

    query: Query
    prefix: bytes
    patterns: Tuple[bytes, ...] = ()


@dataclass(frozen=True)
class Attributes:
    """Which files are there, all or those below a directory, each without its bytes?"""

    query: Query
    prefix: Optional[bytes] = None
    patterns: Tuple[bytes, ...] = ()


@dataclass(frozen=True)
class Status:
    """Which paths differ from the mount's commit?"""

    query: Query
    patterns: Tuple[bytes, ...] = ()


@dataclass(frozen=True)
class BasisIs:
    """These paths hold a file, at this position."""

    query: Query
    position: Position
    paths: List[bytes]


@dataclass(frozen=True)
class ChangesAre:
    """These paths changed, and what stands below these directories, up to this position."""

    query: Query
    position: Position
    marked: List[Tuple[Mark, bytes]]
    prefixes: List[bytes]


@dataclass(frozen=True)
class ContentIs:
    """This stands at the path, at this position; None where no file does."""

    query: Query
    position: Position
    path: bytes
    file: Optional[File]


@dataclass(frozen=True)
class StatIs:
    """This stands at the path, at this position, without its bytes; None where no file does."""

    query: Query
    position: Position
    path: bytes
    stat: Optional[FileStat]


@dataclass(frozen=True)
class Refused:
    """The request is refused; the value is the mount's generation, its present number or its
    floor, by the cause."""

    query: Query
    cause: Cause
    value: int


@dataclass(frozen=True)
class ListIs:
    """These paths below the directory hold a file, at this position."""

    query: Query
    position: Position
    prefix: bytes
    paths: List[bytes]


@dataclass(frozen=True)
class AttributesAre:
    """These files are there, at this position, all or those below the directory."""

    query: Query
    position: Position
    prefix: Optional[bytes]
    files: List[Tuple[bytes, FileStat]]


@dataclass(frozen=True)
class StatusIs:
    """These paths differ from the commit that is the position's root, at this position. A mark
    says whether the file was created, removed or changed."""

    query: Query
    position: Position
    marked: List[Tuple[Mark, bytes]]


Request = Union[Basis, Poll, Fetch, Stat, Below, Attributes, Status]
Reply = Union[BasisIs, ChangesAre, ContentIs, StatIs, Refused, ListIs, AttributesAre, StatusIs]
Beside = TypeVar("Beside")
Message = TypeVar("Message")


class FrameFault(Exception):
    """A frame that is none: its name is one of TooLarge, CutShort, Version, BadTag, BadField and
    Trailing."""


class ConnectionLost(OSError):
    """There is no connection, or it ended before the reply."""


class PositionRefused(Exception):
    """The mount can't tell what changed since a position: begin anew with a basis. It has the
    Refused as `reply`."""

    def __init__(self, reply: Refused) -> None:
        super().__init__(f"{reply.cause.name} {reply.value}")
        self.reply = reply


class TooLarge(Exception):
    """The reply doesn't fit into a frame: narrower patterns may help."""


# Paths and patterns.

# A byte of a component, or a backslash and the byte that it stands for.
_PART = rb"(?:\\[^/]|[^\\/\[{])+"
_PATTERN = re.compile(rb"%s(?:/%s)*" % (_PART, _PART), re.DOTALL)
_TOKEN = re.compile(rb"\\.|.", re.DOTALL)


# A path is 1 to 64 components of 1 to 255 bytes, neither `.` nor `..`.
_NAME = rb"(?!\.\.?(?:/|\Z))[^/\0]{1,255}"
_PATH = re.compile(rb"%s(?:/%s){0,63}\Z" % (_NAME, _NAME))
_MARKS = dict(enumerate(Mark, 1))
MOST_SHORT = 126
"""A path of so few bytes has no component above 255 bytes, and at most 63 slashes."""
_WRONG = re.compile(rb"/\.{0,2}[/\0]"), re.compile(rb"\0\.{0,2}[/\0]")
"""What paths with a byte 00 before and after each have if a component of one is invalid."""


def path_fault(path: bytes) -> Optional[str]:
    """Why bytes are no path (Empty, TooLong, BadComponent or TooDeep), or None."""
    if not path:
        return "Empty"
    if len(path) > 1024:
        return "TooLong"
    parts = path.split(b"/")
    if b"\0" in path or any(not 0 < len(part) <= 255 or part in (b".", b"..") for part in parts):
        return "BadComponent"
    return "TooDeep" if len(parts) > 64 else None


def lies_below(path: bytes, prefix: bytes) -> bool:
    """Whether a path lies below a directory."""
    return path.startswith(prefix + b"/")


def parted(patterns: Sequence[bytes]) -> Tuple[List[bytes], List[bytes]]:
    """The patterns that include paths, and those that exclude paths, without their `!`."""
    return (
        [pattern for pattern in patterns if not pattern.startswith(b"!")],
        [pattern[1:] for pattern in patterns if pattern.startswith(b"!")],
    )


def admits(patterns: Sequence[bytes], path: bytes) -> bool:
    """Whether patterns admit a path: one that includes matches it, if any includes, and none that
    excludes does. docs/formats.md says what a pattern matches."""
    included, excluded = parted(patterns)
    return (not included or _some_admits(included, path)) and not _some_admits(excluded, path)


def _some_admits(patterns: Sequence[bytes], path: bytes) -> bool:
    parts = path.split(b"/")
    return any(_admits(pattern.split(b"/"), parts) for pattern in patterns)


def _admits(pattern: List[bytes], parts: List[bytes]) -> bool:
    """Whether the components of a pattern admit those of a path. Of each number of components,
    it keeps whether the pattern so far admits these."""
    reached = [True] + [False] * len(parts)
    for component in pattern:
        if component == b"**":
            first = reached.index(True) if True in reached else len(reached)
            reached = [at >= first for at in range(len(reached))]
        else:
            reached = [False] + [
                reached[at] and _matches(component, part) for at, part in enumerate(parts)
            ]
    return reached[-1]


def _matches(component: bytes, part: bytes) -> bool:
    """Whether a component of a pattern matches one of a path. After a mismatch the last star
    takes one byte more, which is enough."""
    tokens = [
        token[-1:] if token[:1] == b"\\" else {b"*": None, b"?": b""}.get(token, token)
        for token in _TOKEN.findall(component)
    ]
    at = token = 0
    star, taken = -1, 0
    while at < len(part):
        if token < len(tokens) and tokens[token] is None:
            star, taken, token = token, at, token + 1
        elif token < len(tokens) and tokens[token] in (b"", part[at : at + 1]):
            at, token = at + 1, token + 1
        elif star >= 0:
            taken += 1
            at, token = taken, star + 1
        else:
            return False
    return all(rest is None for rest in tokens[token:])


def drop_own(paths: List[bytes], beside: Optional[List[Beside]] = None) -> None:
    """Takes from a list of paths, which ascend, those of feed's own files; and from a list
    beside it what is at the same places."""
    first, last = bisect_left(paths, OWN_PATHS + b"/"), bisect_left(paths, OWN_PATHS + b"0")
    del paths[first:last]
    if beside is not None:
        del beside[first:last]


def literal(path: bytes) -> bytes:
    """Returns the pattern that admits a path alone."""
    return re.sub(rb"\A!|[*?\[{\\]", rb"\\\g<0>", path)


def patterns_fault(patterns: Sequence[bytes]) -> Optional[str]:
    """Why patterns are no filter, or None. A mount ends the connection at such a filter and
    answers nothing."""
    included, excluded = parted(patterns)
    if len(included) > 32:
        return "more than 32 patterns"
    if len(excluded) > 32:
        return "more than 32 patterns with `!`"
    for pattern in patterns:
        bare = pattern[1:] if pattern.startswith(b"!") else pattern
        if len(bare) > 256:
            return f"a pattern of more than 256 bytes: {shown(pattern)}"
        if not _PATTERN.fullmatch(bare):
            return f"no pattern: {shown(pattern) if pattern else 'an empty word'}"
    return None


def shown(path: bytes) -> str:
    """A path for people and terminals: text, with what is no printable text escaped."""
    return "".join(
        c if c.isprintable() else ascii(c)[1:-1] for c in path.decode("utf-8", "backslashreplace")
    )


def as_word(data: bytes) -> bytes:
    """Bytes as a word of a script has them: a space, a line feed and a backslash escaped, `\\e`
    where there are none."""
    return data.replace(b"\\", b"\\\\").replace(b"\n", b"\\n").replace(b" ", b"\\s") or b"\\e"


# Frames.

QUERY = struct.Struct(">BBQQQ")
_POSITION = struct.Struct(">QQ20s")


def spelled_path(path: bytes) -> bytes:
    """Returns a path as a frame has it. ValueError if it is invalid."""
    fault = path_fault(path)
    if fault:
        raise ValueError(fault)
    return struct.pack(">H", len(path)) + path


def _checked_filter(patterns: Sequence[bytes]) -> Tuple[bytes, bytes]:
    """What patterns that exclude put before the body of a request, and the filter in it."""
    fault = patterns_fault(patterns)
    if fault:
        raise ValueError(fault)
    included, excluded = map(_spelled_patterns, parted(patterns))
    return bytes([VERSION, EXCLUSIONS_TAG]) + excluded if excluded[0] else b"", included


def _spelled_patterns(patterns: Sequence[bytes]) -> bytes:
    return bytes([len(patterns)]) + b"".join(struct.pack(">H", len(p)) + p for p in patterns)


def _spelled_position(position: Position) -> bytes:
    return _POSITION.pack(position.generation, position.sequence, position.root)


def _spelled_prefix(prefix: Optional[bytes]) -> bytes:
    return b"\0" if prefix is None else b"\1" + spelled_path(prefix)


def encode_request(request: Request, patience: int = 0) -> bytes:
    """Returns the frame of a request, for whose reply the mount may wait so many milliseconds.

    Without patience and without patterns that exclude, the request is alone in it, as any mount
    reads it. ValueError if a path, a filter or the patience is invalid."""
    if not 0 <= patience < 2**32:
        raise ValueError(f"{patience} is no number of milliseconds that a frame holds")
    before = b""
    if isinstance(request, (Fetch, Stat)):
        tag = 3 if isinstance(request, Fetch) else STAT_TAG
        fields = spelled_path(request.path)
    else:
        before, wanted = _checked_filter(request.patterns)
        if isinstance(request, Below):
            tag, fields = 4, spelled_path(request.prefix) + wanted
        elif isinstance(request, Poll):
            tag, fields = 2, _spelled_position(request.since) + wanted
        elif isinstance(request, Attributes):
            tag, fields = ATTRIBUTES_TAG, _spelled_prefix(request.prefix) + wanted
        elif isinstance(request, Status):
            tag, fields = STATUS_TAG, wanted
        else:
            tag, fields = 1, wanted
    query = request.query
    body = before + QUERY.pack(VERSION, tag, query.mirror, query.life, query.number) + fields
    if patience:
        body = struct.pack(">BBI", VERSION, PATIENCE_TAG, patience) + body
    return struct.pack(">I", len(body)) + body


class Fields:
    """The fields of a body, from the front."""

    def __init__(self, body: bytes) -> None:
        self.body, self.at = body, 0

    def take(self, count: int) -> bytes:
        field = self.body[self.at : self.at + count]
        if len(field) != count:
            raise FrameFault("CutShort")
        self.at += count
        return field

    def number(self, count: int) -> int:
        return int.from_bytes(self.take(count), "big")

    def position(self) -> Position:
        generation, sequence = self.number(8), self.number(8)
        return Position(generation, sequence, self.take(20))

    def path(self) -> bytes:
        length = self.number(2)
        if not 0 < length <= 1024:
            raise FrameFault("BadField")
        path = self.take(length)
        if not _PATH.match(path):
            raise FrameFault("BadField")
        return path

    def paths(self, start: bytes = b"") -> List[bytes]:
        """A list of paths that begin so."""
        count = self.number(4)
        found = self._short(count, 0, start)
        return self._strict(count, start, None) if found is None else found[1]

    def marked(self) -> List[Tuple[Mark, bytes]]:
        """A list of paths with a mark before each."""
        count = self.number(4)
        found = self._short(count, 1, b"")
        if found is not None:
            return list(zip(map(_MARKS.__getitem__, found[0]), found[1]))
        marks: List[Mark] = []
        paths = self._strict(count, b"", marks)
        return list(zip(marks, paths))

    def _short(self, count: int, before: int, begin: bytes) -> Optional[Tuple[bytes, List[bytes]]]:
        """Reads a list of short paths, each after so many bytes of a mark: the marks and the paths.

        It returns None, and reads nothing, if a path is longer or anything is wrong. A short path
        has a byte 00 before its length and none in itself, so these bytes part the list, and no
        loop in Python is needed.
        """
        parts = self.body[self.at :].split(b"\0", count)
        if not 0 < count == len(parts) - 1 or len(parts[0]) != before or b"" in parts[1:]:
            return None
        sizes = bytes([part[0] for part in parts[1:]])
        last = parts[-1][: 1 + sizes[-1]]
        ends = [len(part) - 1 - before for part in parts[1:-1]] + [len(last) - 1]
        if list(sizes) != ends or max(sizes) > MOST_SHORT or b"\0" in last:
            return None
        marks = parts[0] + b"".join([part[-1:] for part in parts[1:-1]]) if before else b""
        paths = [part[1 : len(part) - before] for part in parts[1:-1]] + [last[1:]]
        around = b"\0%b\0" % b"\0".join(paths)
        if (
            not all(map(lt, paths, islice(paths, 1, None)))
            or any(wrong.search(around) for wrong in _WRONG)
            or not (paths[0].startswith(begin) and paths[-1].startswith(begin))
            or not _MARKS.keys() >= set(marks)
        ):
            return None
        self.at += sum(sizes) + count * (2 + before)
        return marks, paths

    def _strict(self, count: int, begin: bytes, marks: Optional[List[Mark]]) -> List[bytes]:
        """Reads any list, path by path, and raises the first fault."""
        body, at, size = self.body, self.at, len(self.body)
        is_path, before = _PATH.match, b""
        paths: List[bytes] = []
        for _ in range(count):
            if marks is not None:
                if at == size:
                    raise FrameFault("CutShort")
                if not 0 < body[at] < 5:
                    raise FrameFault("BadField")
                marks.append(_MARKS[body[at]])
                at += 1
            start = at + 2
            if start > size:
                raise FrameFault("CutShort")
            length = body[at] << 8 | body[at + 1]
            if not 0 < length <= 1024:
                raise FrameFault("BadField")
            at = start + length
            if at > size:
                raise FrameFault("CutShort")
            path = body[start:at]
            if path <= before or not is_path(path) or not path.startswith(begin):
                raise FrameFault("BadField")
            paths.append(path)
            before = path
        self.at = at
        return paths

    def one_of(self, values: Callable[[int], int]) -> int:
        try:
            return values(self.number(1))
        except ValueError:
            raise FrameFault("BadField") from None

    def file(self) -> Optional[File]:
        kind = self.number(1)
        if kind == 0:
            return None
        if kind > 3:
            raise FrameFault("BadField")
        length = self.number(4)
        if length > MOST_CONTENT:
            raise FrameFault("BadField")
        return File(Kind(kind), self.take(length))

    def stat(self) -> Optional[FileStat]:
        found = self.number(1)
        if found == 0:
            return None
        if found > 1:
            raise FrameFault("BadField")
        return self.file_stat()

    def file_stat(self) -> FileStat:
        return FileStat(Kind(self.one_of(Kind)), self.number(4), self.take(20))

    def prefix(self) -> Optional[bytes]:
        found = self.number(1)
        if found > 1:
            raise FrameFault("BadField")
        return self.path() if found else None

    def files(self, begin: bytes) -> List[Tuple[bytes, FileStat]]:
        """A list of files whose paths begin so, each with its path before it."""
        files: List[Tuple[bytes, FileStat]] = []
        before = b""
        for _ in range(self.number(4)):
            path = self.path()
            if not path.startswith(begin):
                raise FrameFault("BadField")
            files.append((path, self.file_stat()))
            if path <= before:
                raise FrameFault("BadField")
            before = path
        return files

    def attributes(self, query: Query, position: Position) -> AttributesAre:
        prefix = self.prefix()
        files = self.files(b"" if prefix is None else prefix + b"/")
        return AttributesAre(query, position, prefix, files)

    def refused(self, query: Query) -> Refused:
        cause = Cause(self.one_of(Cause))
        value = self.number(8)
        if cause is Cause.TOO_LARGE and value != 0:
            raise FrameFault("BadField")
        return Refused(query, cause, value)

    def head(self, tags: Container[int]) -> Tuple[int, Query]:
        """Reads the version, a tag that has to be one of some, and the query."""
        if self.number(1) != VERSION:
            raise FrameFault("Version")
        tag = self.number(1)
        if tag not in tags:
            raise FrameFault("BadTag")
        return tag, Query(self.number(8), self.number(8), self.number(8))

    def reply(self) -> Reply:
        tag, query = self.head((0x81, 0x82, 0x83, 0x84, 0x85, 0x88, 0x89, 0x8A))
        if tag == 0x84:
            return self.refused(query)
        position = self.position()
        if tag == 0x81:
            return BasisIs(query, position, self.paths())
        if tag == 0x82:
            return ChangesAre(query, position, self.marked(), self.paths())
        if tag == 0x89:
            return self.attributes(query, position)
        if tag == 0x8A:
            return StatusIs(query, position, self.marked())
        path = self.path()
        if tag == 0x83:
            return ContentIs(query, position, path, self.file())
        if tag == 0x88:
            return StatIs(query, position, path, self.stat())
        return ListIs(query, position, path, self.paths(path + b"/"))


def decode_reply(body: bytes) -> Reply:
    """Reads the body of a reply. FrameFault if it is invalid."""
    return read_whole(body, Fields.reply)


def read_whole(body: bytes, read: Callable[[Fields], Message]) -> Message:
    """Reads a body, of which nothing may be left."""
    if len(body) > MOST_BODY:
        raise FrameFault("TooLarge")
    fields = Fields(body)
    message = read(fields)
    if fields.at != len(body):
        raise FrameFault("Trailing")
    return message


class FrameReader:
    """Cuts a stream into the bodies of its frames."""

    def __init__(self) -> None:
        self._parts: List[bytes] = []
        self._held = 0

    def feed(self, data: bytes) -> Iterator[bytes]:
        """The bodies that are whole with these bytes behind those before; FrameFault at a length
        above the limit."""
        self._parts.append(data)
        self._held += len(data)
        if self._held < self._wanted():
            return
        text, at = b"".join(self._parts), 0
        try:
            while len(text) - at >= 4:
                start, end = at + 4, at + 4 + self._length(text[at : at + 4])
                if end > len(text):
                    break
                at = end
                yield text[start:end]
        finally:
            # Also where no more bodies are taken: one that was given comes once.
            self._parts, self._held = [text[at:]], len(text) - at

    def _wanted(self) -> int:
        """How many bytes the first frame has, as far as that is known."""
        if len(self._parts[0]) < 4:
            self._parts = [b"".join(self._parts)]
        return 4 + self._length(self._parts[0][:4]) if len(self._parts[0]) >= 4 else 4

    @staticmethod
    def _length(head: bytes) -> int:
        length = int.from_bytes(head, "big")
        if length > MOST_BODY:
            raise FrameFault("TooLarge")
        return length
