"""Clocks: a position of a mount as Watchman's clients keep it, and what they ask changes since."""
from __future__ import annotations

import re
import zlib
from typing import NamedTuple, Optional, Tuple, Union

from .faults import Fault, QueryFault

Place = Tuple[int, int]
"""The generation of a mount and a number of it."""
_CLOCK = re.compile(r"c:(\d{1,20}):(\d{1,10}):(\d{1,10}):(\d{1,20})", re.ASCII)
_OLD_CLOCK = re.compile(r"c:-?\d+:\d+", re.ASCII)


class Cursor(NamedTuple):
    """A clock that the server keeps under a name."""

    name: str


class Time(NamedTuple):
    """A time in seconds since 1970."""

    seconds: int


class At(NamedTuple):
    """A clock; the place is None if it can't be one of the root."""

    place: Optional[Place]


Spec = Union[At, Cursor, Time]


def clock_of(top: bytes, place: Place) -> str:
    """Returns the clock of a place. Two clocks are equal exactly if their roots and places are."""
    return f"c:{place[0]}:{zlib.crc32(top)}:1:{place[1]}"


def parse(top: bytes, spec: object) -> Spec:
    """Reads what changes are asked since."""
    if isinstance(spec, bool) or spec is None:
        raise QueryFault("invalid value for 'since'")
    if isinstance(spec, int):
        return Time(spec)
    if isinstance(spec, dict):
        if spec.get("scm") is not None:
            raise QueryFault("This root does not support SCM-aware queries.")
        clock = spec.get("clock")
        # Without a clock it is the time 0 there, with which all files are new.
        return (
            At(None)
            if clock is None
            else At(_place(top, clock, "unable to parse `clock` value as a clock string"))
        )
    if isinstance(spec, str) and spec.startswith("n:"):
        return Cursor(spec)
    return At(_place(top, spec, "invalid clockspec"))


def _place(top: bytes, clock: object, why: str) -> Optional[Place]:
    """Reads a clock; None if it is one of another root or server."""
    found = _CLOCK.fullmatch(clock) if isinstance(clock, str) else None
    if found is None:
        if isinstance(clock, str) and _OLD_CLOCK.fullmatch(clock):
            return None
        raise Fault(why)
    generation, number = int(found[1]), int(found[4])
    ours = (
        int(found[2]) == zlib.crc32(top) and found[3] == "1" and max(generation, number) < 2**64
    )
    return (generation, number) if ours else None
