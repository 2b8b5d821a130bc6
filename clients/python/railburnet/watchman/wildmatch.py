"""Watchman's patterns of file names, as regular expressions over bytes."""
from __future__ import annotations

import re
from typing import Tuple

_CLASSES = {
    b"alnum": rb"0-9A-Za-z",
    b"alpha": rb"A-Za-z",
    b"blank": rb" \t",
    b"cntrl": rb"\x00-\x1f\x7f",
    b"digit": rb"0-9",
    b"graph": rb"!-~",
    b"lower": rb"a-z",
    b"print": rb" -~",
    b"punct": rb"!-/:-@\[-`{-~",
    b"space": rb"\s",
    b"upper": rb"A-Z",
    b"xdigit": rb"0-9A-Fa-f",
}
_NO_DOT = rb"(?!\.)"


def expression_of(pattern: bytes, dots: bool, noescape: bool = False) -> bytes:
    """Returns the expression that fully matches what a pattern does.

    Without `dots` no wildcard matches the dot at the beginning of a name. No star matches a slash
    but `**` that is a
    whole component, which matches any number of them.
    """
    out, at, begins = [], 0, True
    while at < len(pattern):
        if begins and re.match(rb"\*\*(?:/|\Z)", pattern[at:]):
            part, at = _components(pattern, at, dots)
        else:
            guard = b"" if dots or not begins else _NO_DOT
            part, at = _single(pattern, at, guard, noescape)
        out.append(part)
        begins = pattern[at - 1 : at] == b"/"
    return b"".join(out)


def _components(pattern: bytes, at: int, dots: bool) -> Tuple[bytes, int]:
    """A `**` that is a whole component, with the slashes after it."""
    rest = pattern[at + 2 :]
    if not rest:
        # The last `**` minds only a dot that it would begin with.
        return (b"" if dots else _NO_DOT) + b".*", len(pattern)
    slashes = len(rest) - len(rest.lstrip(b"/"))
    return (b"(?:.*/)?" if dots else rb"(?:%s[^/]+/)*" % _NO_DOT), at + 2 + slashes


def _single(pattern: bytes, at: int, guard: bytes, noescape: bool) -> Tuple[bytes, int]:
    """A piece that is no whole component."""
    one = pattern[at : at + 1]
    if one == b"*":
        end = at + len(pattern[at:]) - len(pattern[at:].lstrip(b"*"))
        return guard + b"[^/]*", end
    if one == b"?":
        return guard + b"[^/]", at + 1
    if one == b"[":
        return _bracket(pattern, at, guard)
    if one == b"\\" and not noescape and at + 1 < len(pattern):
        return re.escape(pattern[at + 1 : at + 2]), at + 2
    return re.escape(one), at + 1


def _bracket(pattern: bytes, at: int, guard: bytes) -> Tuple[bytes, int]:
    """A set of bytes in brackets; a bracket that isn't closed matches nothing."""
    found = re.compile(rb"\[([!^]?)(\]?(?:\[:[a-z]+:\]|\\.|[^\]\\])*)\]", re.DOTALL).match(
        pattern, at
    )
    if found is None:
        return rb"(?!)", len(pattern)
    inside = re.sub(rb"\[:([a-z]+):\]|\\?(.)(-?)", _member, found[2], flags=re.DOTALL)
    return guard + rb"(?!/)[" + (b"^" if found[1] else b"") + inside + b"]", found.end()


def _member(found: "re.Match[bytes]") -> bytes:
    if found[1] is not None:
        return _CLASSES.get(found[1], b"")
    # Each byte by its number, so that none has a meaning.
    return b"\\x%02x" % found[2][0] + found[3]
