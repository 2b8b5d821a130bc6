"""BSER, versions 1 and 2: Watchman's binary form of JSON."""
from __future__ import annotations

import struct
from typing import Any, Callable, Dict, List, NamedTuple, Optional, Sequence

BYTES_ALONE = 1
"""The capability of a client that takes no text, only byte strings."""
MOST_DEPTH = 100
MOST_SIZE = 1 << 26

_ARRAY, _OBJECT, _BYTES, _REAL, _TRUE, _FALSE, _NULL, _TEMPLATE, _SKIP, _TEXT = (
    0,
    1,
    2,
    7,
    8,
    9,
    10,
    11,
    12,
    13,
)
_INTEGERS = {
    3: struct.Struct("<b"),
    4: struct.Struct("<h"),
    5: struct.Struct("<i"),
    6: struct.Struct("<q"),
}
_DOUBLE = struct.Struct("<d")
_CAPABILITIES = struct.Struct("<I")
_put_byte, _put_short = struct.Struct("<Bb").pack, struct.Struct("<Bh").pack
_put_int, _put_long = struct.Struct("<Bi").pack, struct.Struct("<Bq").pack
_put_double = struct.Struct("<Bd").pack


class BserFault(ValueError):
    """Bytes that are no BSER."""


class Head(NamedTuple):
    """What comes before the value of a message."""

    version: int
    capabilities: int
    size: int
    start: int


def head(data: bytes) -> Optional[Head]:
    """Reads the head of a message; None if more bytes are needed."""
    if len(data) < 3:
        return None
    version = data[1]
    if data[0] != 0 or version not in (1, 2):
        raise BserFault("not a BSER message")
    at = 2 if version == 1 else 6
    if len(data) <= at:
        return None
    form = _INTEGERS.get(data[at])
    if form is None:
        raise BserFault("a message without a length")
    if len(data) < at + 1 + form.size:
        return None
    size = form.unpack_from(data, at + 1)[0]
    if not 0 < size <= MOST_SIZE:
        raise BserFault(f"a message of {size} bytes")
    return Head(
        version,
        _CAPABILITIES.unpack_from(data, 2)[0] if version == 2 else 0,
        size,
        at + 1 + form.size,
    )


def loads(data: bytes) -> Any:
    """Reads a value. Strings become text, with surrogates for bytes that are not UTF-8."""
    reader = _Reader(data)
    try:
        value = reader.value(0)
    except (struct.error, IndexError):
        raise BserFault("a value that is cut short") from None
    if reader.at != len(data):
        raise BserFault("bytes after the value")
    return value


class _Reader:
    """A value, read from the front."""

    def __init__(self, data: bytes) -> None:
        self.data, self.at = data, 0

    def value(self, depth: int) -> Any:
        """Reads the next value."""
        tag = self.data[self.at]
        if tag in _INTEGERS:
            return self.integer()
        if tag in (_BYTES, _TEXT):
            return self.text()
        self.at += 1
        if tag in (_TRUE, _FALSE, _NULL):
            return {_TRUE: True, _FALSE: False, _NULL: None}[tag]
        if tag == _REAL:
            self.at += 8
            return _DOUBLE.unpack_from(self.data, self.at - 8)[0]
        if depth == MOST_DEPTH:
            raise BserFault("a value that is nested too deep")
        if tag == _ARRAY:
            return [self.value(depth + 1) for _ in range(self.count())]
        if tag == _OBJECT:
            return {self.text(): self.value(depth + 1) for _ in range(self.count())}
        if tag == _TEMPLATE:
            return self.rows(depth + 1)
        raise BserFault(f"the tag {tag}")

    def integer(self) -> int:
        """Reads an integer."""
        form = _INTEGERS.get(self.data[self.at])
        if form is None:
            raise BserFault(f"no integer but the tag {self.data[self.at]}")
        self.at += 1 + form.size
        number: int = form.unpack_from(self.data, self.at - form.size)[0]
        return number

    def count(self) -> int:
        """Reads how many items follow; each has a byte at least."""
        count = self.integer()
        if not 0 <= count <= len(self.data) - self.at:
            raise BserFault(f"{count} items in {len(self.data) - self.at} bytes")
        return count

    def text(self) -> str:
        """Reads a string."""
        if self.data[self.at] not in (_BYTES, _TEXT):
            raise BserFault(f"no string but the tag {self.data[self.at]}")
        self.at += 1
        size = self.count()
        self.at += size
        return self.data[self.at - size : self.at].decode("utf-8", "surrogateescape")

    def rows(self, depth: int) -> List[Dict[str, Any]]:
        """Reads objects whose keys are given once."""
        keys = self.value(depth)
        if not isinstance(keys, list) or not keys or not all(isinstance(key, str) for key in keys):
            raise BserFault("a template without keys")
        rows = []
        for _ in range(self.count()):
            row = {}
            for key in keys:
                if self.data[self.at] == _SKIP:
                    self.at += 1
                else:
                    row[key] = self.value(depth)
            rows.append(row)
        return rows


def integer(number: int) -> bytes:
    """Returns the shortest form of an integer."""
    if -0x80 <= number < 0x80:
        return _put_byte(3, number)
    if -0x8000 <= number < 0x8000:
        return _put_short(4, number)
    if -0x8000_0000 <= number < 0x8000_0000:
        return _put_int(5, number)
    return _put_long(6, number)


_SIZES = [bytes([_BYTES]) + integer(size) for size in range(1100)]
"""What comes before a byte string of each of these sizes; a path has 1,024 bytes at most."""


def of_bytes(values: Sequence[bytes]) -> List[bytes]:
    """Returns a column of byte strings."""
    sizes = _SIZES
    return [
        sizes[len(value)] + value if len(value) < 1100 else b"\2" + integer(len(value)) + value
        for value in values
    ]


def of_integers(values: Sequence[int]) -> List[bytes]:
    """Returns a column of integers, all of one width."""
    least, most = min(values, default=0), max(values, default=0)
    if -0x8000_0000 <= least and most < 0x8000_0000:
        return [_put_int(5, value) for value in values]
    return [_put_long(6, value) for value in values]


def of_reals(values: Sequence[float]) -> List[bytes]:
    """Returns a column of real numbers."""
    return [_put_double(_REAL, value) for value in values]


def of_flags(values: Sequence[bool]) -> List[bytes]:
    """Returns a column of truth values."""
    return [b"\x08" if value else b"\x09" for value in values]


NULL = bytes([_NULL])


class Writer:
    """Writes values for a client. Text is a byte string for who takes no other."""

    def __init__(self, version: int, capabilities: int) -> None:
        self._version, self._capabilities = version, capabilities
        self._text = _TEXT if version == 2 and not capabilities & BYTES_ALONE else _BYTES

    def text(self, value: str) -> bytes:
        """Returns a text."""
        data = value.encode("utf-8", "surrogateescape")
        return bytes([self._text]) + integer(len(data)) + data

    def template(
        self, keys: Sequence[str], columns: Sequence[Sequence[bytes]], count: int
    ) -> bytes:
        """Returns objects whose keys are given once, from a column of values for each key."""
        names = bytes([_ARRAY]) + integer(len(keys)) + b"".join(map(self.text, keys))
        rows = b"".join(map(b"".join, zip(*columns)))
        return bytes([_TEMPLATE]) + names + integer(count) + rows

    def array(self, values: Sequence[bytes]) -> bytes:
        """Returns an array of values that are written already."""
        return bytes([_ARRAY]) + integer(len(values)) + b"".join(values)

    def value(self, value: Any, other: Callable[[Any], bytes]) -> bytes:
        """Returns a value; `other` writes one of a kind that isn't known here."""
        if value is None or isinstance(value, bool):
            return bytes([_NULL if value is None else _TRUE if value else _FALSE])
        if isinstance(value, int):
            return integer(value)
        if isinstance(value, float):
            return _put_double(_REAL, value)
        if isinstance(value, bytes):
            return bytes([_BYTES]) + integer(len(value)) + value
        if isinstance(value, str):
            return self.text(value)
        if isinstance(value, (list, tuple)):
            return self.array([self.value(item, other) for item in value])
        if isinstance(value, dict):
            items = [
                self.value(_raw(key), other) + self.value(item, other)
                for key, item in value.items()
            ]
            return bytes([_OBJECT]) + integer(len(value)) + b"".join(items)
        return other(value)

    def message(self, body: bytes) -> bytes:
        """Returns the message that has a value which is written already."""
        begin = b"\0\1" if self._version == 1 else b"\0\2" + _CAPABILITIES.pack(self._capabilities)
        return begin + integer(len(body)) + body


def _raw(key: str) -> bytes:
    return key.encode("utf-8", "surrogateescape")
