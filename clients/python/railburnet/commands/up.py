"""railburnet up."""
from __future__ import annotations

import argparse
import os
import signal
import socket
import time
from types import FrameType
from typing import Optional

from .. import mount as mounts
from .. import state
from ..client import Client
from ..frames import ConnectionLost, FrameFault, TooLarge
from ..options import add_directory, directory_of, port_of, seconds_of
from ..output import flush, print_words, say
from ..place import text_of
from ..state import Mount

DESCRIPTION = """Mounts a directory, in the background: what it holds can be asked for from then on,
and what changes there.

It mounts HEAD if DIR is the top of a checkout, and then what differs from it; else all files of
DIR over the empty commit. It waits until the mount has all that the directory holds, and prints
`up: DIR at socket PATH, N files, S s`. If the mount is up already, it says so."""
EPILOG = """status: 0 the mount is up; 1 it can't begin; 2 the command line; 3 the state folder
can't be used; 130 interrupted"""


def add_options(parser: argparse.ArgumentParser) -> None:
    """Adds the options of the subcommand."""
    parser.add_argument(
        "--port",
        type=port_of,
        help="serve at this port, which whoever has an account on the machine can connect to, "
        "instead of a socket of this user's own",
    )
    parser.add_argument(
        "--names",
        action="store_true",
        help="keep a short text for each file instead of its contents: this takes little memory "
        "and time, and nothing can be copied from it",
    )
    parser.add_argument(
        "--empty", action="store_true", help="mount the empty commit, also if there is a HEAD"
    )
    parser.add_argument(
        "--skip",
        action="append",
        default=[],
        metavar="NAME",
        help="leave out each file and each directory with this name, wherever it is, as .git is; "
        "may be given again",
    )
    parser.add_argument(
        "--no-whole-renames",
        dest="whole_renames",
        action="store_false",
        help="report each file of a directory that was moved, and no prefixes",
    )
    parser.add_argument(
        "--timeout",
        type=seconds_of,
        default=600.0,
        metavar="SECONDS",
        help="how long to wait for the mount; 600 by default",
    )
    parser.add_argument(
        "--stay",
        action="store_true",
        help="stay until the mount ends, and end it when interrupted; for a supervisor",
    )
    add_directory(parser, "the directory; the one that one is in by default")


def run(options: argparse.Namespace) -> int:
    """Begins the mount."""
    root = os.path.realpath(os.fsencode(directory_of(options) or "."))
    if not options.stay:
        _begin(options, root)
        return 0
    signal.signal(signal.SIGTERM, _interrupted)
    try:
        mount = _begin(options, root)
        _notify(b"READY=1")
        return _wait(mount)
    except KeyboardInterrupt:
        ended = state.find(root)
        if ended is not None:
            mounts.stop(ended)
        return 0


def _begin(options: argparse.Namespace, root: bytes) -> Mount:
    """Begins the mount, and prints where it is."""
    begun = time.monotonic()
    mount, begins = mounts.begin(
        root,
        options.names,
        options.whole_renames,
        options.empty,
        options.port,
        say,
        options.timeout,
        skip=options.skip,
    )
    how = f"{time.monotonic() - begun:.1f} s" if begins else "up already"
    names = ", names alone" if mount.names else ""
    print_words(
        f"up: {os.fsdecode(root)} at {text_of(mount.place)}, {_files(mount)}{names}, {how}".encode(
            "utf-8", "surrogateescape"
        )
    )
    flush()
    for differs, word in (
        (mount.names != options.names, "--names"),
        (mount.whole_renames != options.whole_renames, "--no-whole-renames"),
        (options.port not in (None, mount.port), "--port"),
        (mount.skip != mounts.names_of(options.skip), "--skip"),
    ):
        if differs:
            say(f"the mount was begun with another setting of {word}; `railburnet down` ends it")
    return mount


def _files(mount: Mount) -> str:
    with Client(mount.place) as client:
        try:
            return f"{len(client.basis().paths):,} files"
        except TooLarge:
            return "more files than a list holds"
        except (ConnectionLost, FrameFault):
            # It is up no more, which whoever asks it next finds, and `--stay` at once.
            return "no files"


def _wait(mount: Mount) -> int:
    """Waits until the mount ends, by itself or since another process ends it."""
    while mount.lives:
        time.sleep(0.5)
    if state.noted(state.folder_of(mount.root)) != mount:
        return 0
    mounts.stop(mount)
    say(f"the mount of {os.fsdecode(mount.root)} has ended; see {state.folder_of(mount.root)}/log")
    return 1


def _interrupted(number: int, frame: Optional[FrameType]) -> None:
    raise KeyboardInterrupt


def _notify(text: bytes) -> None:
    """Tells a supervisor that asks for it, as sd_notify(3) does."""
    address = os.environ.get("NOTIFY_SOCKET")
    if address:
        with socket.socket(socket.AF_UNIX, socket.SOCK_DGRAM) as peer:
            peer.sendto(text, "\0" + address[1:] if address.startswith("@") else address)
