"""What is answered as an error."""
from __future__ import annotations


class Fault(Exception):
    """Why a command isn't carried out, in Watchman's words."""


class QueryFault(Fault):
    """Why a query can't be read."""

    def __init__(self, why: str) -> None:
        super().__init__(f"failed to parse query: {why}")


def raw(text: str) -> bytes:
    """Returns the bytes of a text that a client sent."""
    return text.encode("utf-8", "surrogateescape")


def text(data: bytes) -> str:
    """Returns bytes as text, with surrogates for those that are not UTF-8."""
    return data.decode("utf-8", "surrogateescape")
