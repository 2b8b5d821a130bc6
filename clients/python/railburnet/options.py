"""Options that several subcommands have, and the client that they name."""
from __future__ import annotations

import argparse
import errno
import os
from typing import Callable, List, Optional, Union

from . import state
from .client import Client
from .frames import MOST_NUMBER, ConnectionLost, path_fault, patterns_fault, shown
from .output import say
from .place import Place, text_of
from .state import Mount


class UsageFault(Exception):
    """Why a command line can't be carried out, as a message."""


def number_of(word: str) -> int:
    """Reads a number of 64 bits."""
    if not (word.isascii() and word.isdigit()) or int(word) > MOST_NUMBER:
        raise argparse.ArgumentTypeError(f"{word!r} is not a number from 0 to {MOST_NUMBER}")
    return int(word)


def port_of(word: str) -> int:
    """Reads a port."""
    if not (word.isascii() and word.isdigit()) or not 0 < int(word) < 65_536:
        raise argparse.ArgumentTypeError(f"{word!r} is not a port from 1 to 65535")
    return int(word)


def seconds_of(word: str) -> float:
    """Reads a time in seconds."""
    try:
        seconds = float(word)
    except ValueError:
        seconds = -1.0
    if not 0 <= seconds < 1e9:
        raise argparse.ArgumentTypeError(f"{word!r} is not a number of seconds")
    return seconds


def pattern_of(word: str) -> bytes:
    """Reads a pattern, after a `!` if it excludes; `./src/**` is `src/**`, and `.` is all."""
    begin = b"!" if word.startswith("!") else b""
    pattern = os.fsencode(word)[len(begin) :]
    while pattern.startswith(b"./"):
        pattern = pattern[2:].lstrip(b"/")
    return begin + (pattern if pattern not in (b".", b"") or word in ("", "!") else b"**")


def add_mount(parser: argparse.ArgumentParser) -> None:
    """Adds the options that say where the mount is."""
    parser.add_argument(
        "--port",
        type=port_of,
        default=None,
        help="the port that edend serves (or the variable RAILBURNET_PORT)",
    )
    parser.add_argument(
        "--socket", metavar="PATH", default=None, help="the Unix socket that edend serves"
    )
    parser.add_argument(
        "--host", default="127.0.0.1", help="the machine that edend runs on; 127.0.0.1 by default"
    )
    add_root(parser)


def add_root(parser: argparse.ArgumentParser) -> None:
    """Adds the option that names a directory whose mount is meant."""
    parser.add_argument(
        "-C",
        "--root",
        metavar="DIR",
        help="the directory whose mount is meant, or one below it; by default the directory one is "
        "in",
    )


def add_directory(parser: argparse.ArgumentParser, text: str) -> None:
    """Adds a directory, as a word or as the option that other subcommands have."""
    parser.add_argument("-C", "--root", metavar="DIR", help="the same as DIR")
    parser.add_argument("directory", metavar="DIR", nargs="?", help=text)


def directory_of(options: argparse.Namespace) -> Optional[str]:
    """Returns the directory that a command line names, if it names one."""
    if options.directory is not None and options.root is not None:
        raise UsageFault("DIR and --root both name a directory; give one of them")
    named: Optional[str] = options.root if options.directory is None else options.directory
    return named


def add_null(parser: argparse.ArgumentParser) -> None:
    """Adds the option that prints paths alone."""
    parser.add_argument(
        "-0",
        "--null",
        action="store_true",
        help="print paths alone, as they are, each with a NUL after it",
    )


_EXCLUSIONS = (
    "; with ! before it, it leaves out what it matches, wherever it is in the list; "
    "\\! is a name's own !"
)


def add_patterns(parser: argparse.ArgumentParser, needed: bool = False) -> None:
    """Adds the patterns of wanted paths."""
    if needed:
        parser.add_argument(
            "patterns",
            metavar="PATTERN",
            nargs="+",
            type=pattern_of,
            help="a pattern of paths, from the mount's root on" + _EXCLUSIONS,
        )
    else:
        parser.add_argument(
            "patterns",
            metavar="PATTERN",
            nargs="*",
            type=pattern_of,
            default=[],
            help="a pattern of wanted paths, from the mount's root on; all paths by default"
            + _EXCLUSIONS,
        )


def mount_path(word: bytes) -> bytes:
    """Returns the path of a mount that a word names; `./a` is `a`. UsageFault if it is invalid."""
    path = word
    while path.startswith(b"./"):
        path = path[2:].lstrip(b"/")
    if path_fault(path):
        raise UsageFault(f"no path of a mount, {path_fault(path)}: {shown(path)}")
    return path


def check_patterns(patterns: List[bytes]) -> None:
    """Raises UsageFault for patterns that are no filter."""
    fault = patterns_fault(patterns)
    if fault:
        raise UsageFault(fault)


class Target:
    """The mount that a command line names: a port, a socket, or a directory whose mount the state
    folder notes."""

    def __init__(self, options: argparse.Namespace) -> None:
        given = [it for it in ("port", "socket", "root") if getattr(options, it) is not None]
        if len(given) > 1:
            raise UsageFault(
                f"--{given[0]} and --{given[1]} both name a mount; give one of them"
            )
        self.host: str = options.host
        self._folder = os.fsencode(options.root or ".")
        self._place: Optional[Place] = options.port
        if options.socket is not None:
            self._place = os.path.abspath(options.socket)
        named = os.environ.get("RAILBURNET_PORT")
        if named and not given:
            try:
                self._place = port_of(named)
            except argparse.ArgumentTypeError as error:
                raise UsageFault(f"RAILBURNET_PORT: {error}") from None

    def mount(self) -> Optional[Mount]:
        """Returns the mount as the state folder of this machine notes it; None if it notes none."""
        if self._place is None:
            return state.find_above(self._folder)
        if isinstance(self._place, int) and self.host not in ("127.0.0.1", "localhost"):
            return None
        return next((it for it in state.all_noted() if it.place == self._place and it.lives), None)

    def place(self) -> Place:
        """Returns where the mount is now; one that ended and began again may be elsewhere."""
        if self._place is not None:
            return self._place
        mount = state.find_above(self._folder)
        if mount is None:
            raise ConnectionLost(errno.ENOTCONN, self._missing())
        return mount.place

    def root(self) -> Optional[bytes]:
        """Returns the mount's root, if it is named by its directory; else it is not asked for."""
        mount = None if self._place is not None else state.find_above(self._folder)
        return None if mount is None else mount.root

    def needed(self) -> Mount:
        """Returns the mount that the state folder notes. ConnectionLost if it notes none."""
        mount = self.mount()
        if mount is None:
            raise ConnectionLost(errno.ENOTCONN, self._missing())
        return mount

    def client(self) -> Client:
        """Returns a client of the mount, which says once that it has to wait."""
        self.place()
        where: Union[Place, Callable[[], Place]] = self._place or self.place
        return Client(where, self.host, waits=say)

    def _missing(self) -> str:
        if self._place is not None:
            return f"no mount of this machine is at {text_of(self._place)}"
        dead = next(state.noted_above(self._folder), None)
        if dead is not None:
            path = os.fsdecode(dead.root)
            return f"the mount of {path} has ended; `railburnet up` there begins it again"
        path = os.fsdecode(os.path.realpath(self._folder))
        return (
            f"no mount of {path} or of a directory above it; `railburnet up` begins one, "
            "and --port or --socket names another"
        )
