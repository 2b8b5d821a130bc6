"""Where a mount is served."""
from __future__ import annotations

from typing import Union

Place = Union[int, str]
"""A port, or the path of a Unix socket."""
MOST_SOCKET = 101
"""The length in bytes of the longest path of a socket that edend takes."""


def text_of(place: Place) -> str:
    """Returns a place as messages have it."""
    return f"port {place}" if isinstance(place, int) else f"socket {place}"
