"""Asks the feed of a mount, over its control socket: one line of text a question."""
from __future__ import annotations

import contextlib
import os
import select
import socket
import time
from typing import Any, Dict, Iterator, Optional, Tuple

SETTLE = 0.02
"""For how many seconds nothing has changed when a feed tells changes, unless they go on and on."""
MOST_NAME = 107
"""How many bytes the name of a Unix socket may have."""


class ControlFault(Exception):
    """Why a feed did not answer, as a message."""

    status = 3
    """The exit status of a command that it ends."""


@contextlib.contextmanager
def short_name(path: str) -> Iterator[str]:
    """Gives a name of a Unix socket that is short enough to bind or connect to, for as long as
    the block runs."""
    if len(os.fsencode(path)) <= MOST_NAME:
        yield path
        return
    folder = os.open(os.path.dirname(path), os.O_RDONLY | os.O_DIRECTORY | os.O_CLOEXEC)
    try:
        yield f"/proc/self/fd/{folder}/{os.path.basename(path)}"
    finally:
        os.close(folder)


def ask(control: str, word: str, timeout: float = 30.0) -> str:
    """Returns the line that the feed answers a word with. ControlFault if it doesn't answer."""
    try:
        with socket.socket(socket.AF_UNIX, socket.SOCK_STREAM) as peer:
            peer.settimeout(timeout)
            with short_name(control) as name:
                peer.connect(name)
            peer.sendall(word.encode() + b"\n")
            with peer.makefile("rb") as lines:
                line = lines.readline()
    except OSError as error:
        why = (
            f"no answer for {timeout:g} seconds"
            if isinstance(error, socket.timeout)
            else error.strerror
        )
        raise ControlFault(f"the feed of the mount doesn't answer: {why} ({control})") from None
    if not line.endswith(b"\n"):
        raise ControlFault(f"the feed of the mount ended before it answered ({control})")
    answer = line[:-1].decode("utf-8", "surrogateescape")
    if answer.startswith("error "):
        raise ControlFault(f"the feed of the mount refuses {word!r}: {answer[6:]}")
    return answer


def sync(control: str, timeout: float = 30.0) -> Tuple[int, int]:
    """Returns a generation and a number: all that was on disk before is in the mount at these."""
    return _place(ask(control, "sync", timeout))


def _place(answer: str) -> Tuple[int, int]:
    """Reads `at GENERATION NUMBER`."""
    words = answer.split(" ")
    if len(words) != 3 or words[0] != "at" or not (words[1].isdigit() and words[2].isdigit()):
        raise ControlFault(f"the feed of the mount answers {answer!r}, and not where it is")
    return int(words[1]), int(words[2])


def status(control: str, timeout: float = 30.0) -> Dict[str, Any]:
    """Returns what the feed says of itself."""
    import json  # Few need it, and it takes a while.

    answer = ask(control, "status", timeout)
    try:
        fields: Dict[str, Any] = json.loads(answer)
    except ValueError:
        raise ControlFault(f"the feed of the mount answers {answer!r} to status") from None
    return fields


class Bell:
    """A connection to a feed, which rings whenever something was told to the mount."""

    def __init__(self, control: str) -> None:
        self.at: Optional[Tuple[int, int]] = None
        """The generation and the number at which the mount has what was told last."""
        self._text = b""
        self._peer = socket.socket(socket.AF_UNIX, socket.SOCK_STREAM)
        try:
            self._peer.settimeout(10.0)
            with short_name(control) as name:
                self._peer.connect(name)
            self._peer.sendall(b"bell\n")
            self._peer.setblocking(False)
        except OSError as error:
            self._peer.close()
            raise ControlFault(
                f"the feed of the mount doesn't answer: {error.strerror or error} ({control})"
            ) from None

    def close(self) -> None:
        """Ends the connection."""
        self._peer.close()

    def wait(self, seconds: float) -> bool:
        """Waits until it rings, and says whether it did. ControlFault if the feed has ended."""
        end = time.monotonic() + seconds
        while True:
            ready, _, _ = select.select([self._peer], [], [], max(0.0, end - time.monotonic()))
            if not ready:
                return False
            if self._read():
                return True

    def _read(self) -> bool:
        """Reads what came, and says whether a whole line is among it."""
        try:
            data = self._peer.recv(1 << 16)
        except BlockingIOError:
            return False
        except OSError as error:
            raise ControlFault(f"the feed of the mount doesn't answer: {error.strerror}") from None
        if not data:
            raise ControlFault("the feed of the mount has ended")
        *lines, self._text = (self._text + data).split(b"\n")
        if lines:
            self.at = _place(lines[-1].decode("ascii", "replace"))
        return bool(lines)
