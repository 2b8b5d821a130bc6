"""Prints what the command prints: words, paths and messages."""
from __future__ import annotations

import contextlib
import os
import sys
from typing import Iterable, Iterator, Optional, Tuple, Union

from .frames import as_word


class OutputFault(Exception):
    """Standard output can't be written."""

    def __init__(self, error: OSError) -> None:
        super().__init__(f"standard output can't be written: {error.strerror}")


@contextlib.contextmanager
def _writing() -> Iterator[None]:
    try:
        yield
    except BrokenPipeError:
        raise
    except OSError as error:
        raise OutputFault(error) from None


def write(data: bytes) -> None:
    """Writes bytes to standard output."""
    with _writing():
        sys.stdout.buffer.write(data)


def flush() -> None:
    """Flushes standard output."""
    with _writing():
        sys.stdout.buffer.flush()


def drop() -> None:
    """Leaves what standard output still holds unwritten, since nobody takes it."""
    with contextlib.suppress(OSError, ValueError):
        os.dup2(os.open(os.devnull, os.O_WRONLY), sys.stdout.fileno())


def print_words(*words: Union[bytes, str]) -> None:
    """Prints a line."""
    write(b" ".join(word if isinstance(word, bytes) else word.encode() for word in words) + b"\n")


def print_paths(paths: Iterable[Tuple[Optional[str], bytes]], null: bool) -> None:
    """Prints a line for each path, after its word if it has one; or the path as it is and a NUL."""
    if null:
        write(b"".join(path + b"\0" for _, path in paths))
    else:
        write(
            b"".join(
                (word.encode() + b" " if word else b"") + as_word(path) + b"\n"
                for word, path in paths
            )
        )


def say(message: object) -> None:
    """Says something to whoever runs it."""
    print(f"railburnet: {message}", file=sys.stderr, flush=True)
