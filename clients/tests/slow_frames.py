"""Reads replies field by field, as docs/formats.md has them: slow, and what the faster reading
is compared with."""
from __future__ import annotations

from railburnet.frames import (
    MOST_BODY,
    MOST_CONTENT,
    VERSION,
    AttributesAre,
    BasisIs,
    Cause,
    ChangesAre,
    ContentIs,
    File,
    FileStat,
    FrameFault,
    Kind,
    ListIs,
    Mark,
    Position,
    Query,
    Refused,
    StatIs,
    StatusIs,
    lies_below,
    path_fault,
)


class Fields:
    """The fields of a body, from the front."""

    def __init__(self, body: bytes) -> None:
        self.body, self.at = body, 0

    def take(self, count: int) -> bytes:
        field = self.body[self.at : self.at + count]
        if len(field) != count:
            raise FrameFault("CutShort")
        self.at += count
        return field

    def number(self, count: int) -> int:
        return int.from_bytes(self.take(count), "big")

    def position(self) -> Position:
        generation, sequence = self.number(8), self.number(8)
        return Position(generation, sequence, self.take(20))

    def path(self) -> bytes:
        length = self.number(2)
        if not 0 < length <= 1024:
            raise FrameFault("BadField")
        path = self.take(length)
        if path_fault(path):
            raise FrameFault("BadField")
        return path

    def plain_paths(self) -> list:
        """A list of paths."""
        return [path for _, path in self.paths(lambda: 0)]

    def paths_below(self, prefix: bytes) -> list:
        """A list of paths, each of which has to lie below a directory."""
        paths = []
        for _, path in self.paths(lambda: 0):
            if not lies_below(path, prefix):
                raise FrameFault("BadField")
            paths.append(path)
        return paths

    def paths(self, first: Callable[[], int]) -> Iterator[Tuple[int, bytes]]:
        """A list of paths, each behind what `first` reads."""
        before = b""
        for _ in range(self.number(4)):
            value, path = first(), self.path()
            if path <= before:
                raise FrameFault("BadField")
            before = path
            yield value, path

    def files(self, prefix: Optional[bytes]) -> list:
        """A list of files, whose paths have to lie below a directory, if there is one."""
        files = []
        for _ in range(self.number(4)):
            path = self.path()
            if prefix is not None and not lies_below(path, prefix):
                raise FrameFault("BadField")
            stat = FileStat(self.one_of(Kind), self.number(4), self.take(20))
            if files and path <= files[-1][0]:
                raise FrameFault("BadField")
            files.append((path, stat))
        return files

    def one_of(self, values: Callable[[int], int]) -> int:
        try:
            return values(self.number(1))
        except (IndexError, ValueError):
            raise FrameFault("BadField") from None

    def file(self) -> Optional[File]:
        kind = self.number(1)
        if kind == 0:
            return None
        if kind > 3:
            raise FrameFault("BadField")
        length = self.number(4)
        if length > MOST_CONTENT:
            raise FrameFault("BadField")
        return File(Kind(kind), self.take(length))

    def stat(self) -> Optional[FileStat]:
        if not self.one_of((False, True).__getitem__):
            return None
        return FileStat(self.one_of(Kind), self.number(4), self.take(20))

    def refused(self, query: Query) -> Refused:
        cause = Cause(self.one_of(Cause))
        value = self.number(8)
        if cause is Cause.TOO_LARGE and value != 0:
            raise FrameFault("BadField")
        return Refused(query, cause, value)

    def reply(self) -> Reply:
        if self.number(1) != VERSION:
            raise FrameFault("Version")
        tag = self.number(1)
        if not 0x81 <= tag <= 0x85 and tag not in (0x88, 0x89, 0x8A):
            raise FrameFault("BadTag")
        query = Query(self.number(8), self.number(8), self.number(8))
        if tag == 0x84:
            return self.refused(query)
        position = self.position()
        if tag == 0x81:
            return BasisIs(query, position, self.plain_paths())
        if tag == 0x82:
            marked = [(Mark(m), path) for m, path in self.paths(lambda: self.one_of(Mark))]
            return ChangesAre(query, position, marked, self.plain_paths())
        if tag == 0x89:
            prefix = self.path() if self.one_of((False, True).__getitem__) else None
            return AttributesAre(query, position, prefix, self.files(prefix))
        if tag == 0x8A:
            marked = [(Mark(m), path) for m, path in self.paths(lambda: self.one_of(Mark))]
            return StatusIs(query, position, marked)
        path = self.path()
        if tag == 0x83:
            return ContentIs(query, position, path, self.file())
        if tag == 0x88:
            return StatIs(query, position, path, self.stat())
        return ListIs(query, position, path, self.paths_below(path))


def decode_reply(body: bytes) -> Reply:
    """Reads the body of a reply; FrameFault where it is none."""
    if len(body) > MOST_BODY:
        raise FrameFault("TooLarge")
    fields = Fields(body)
    reply = fields.reply()
    if fields.at != len(body):
        raise FrameFault("Trailing")
    return reply
