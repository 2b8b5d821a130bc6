"""railburnet watchman."""
from __future__ import annotations

import argparse
import asyncio
import contextlib
import os
import pwd
import shlex
import sys

from .. import state
from ..output import flush, print_words
from ..watchman.server import Server, ServerFault, clear

DESCRIPTION = """Serves Watchman's protocol, so that tools that speak to Watchman 4.9 use Railburnet.

    railburnet watchman &
    export WATCHMAN_SOCK=~/.local/state/railburnet/watchman/sock

It prints its socket, and the line that has tools use it. Each directory that a tool watches gets a
mount of its own, which ends when its watch is deleted or the server ends."""
EPILOG = """status: 0 it was told to end; 2 the command line; 3 the state folder or the socket can't
be used"""


def add_options(parser: argparse.ArgumentParser) -> None:
    """Adds the options of the subcommand."""
    parser.add_argument(
        "--socket",
        metavar="PATH",
        help="where to listen; watchman/sock in the state folder by default",
    )
    parser.add_argument(
        "--take-over",
        nargs="?",
        const="",
        metavar="PATH",
        help="link the socket at PATH, where tools look for Watchman that know no WATCHMAN_SOCK; by default where "
        "Debian's watchman looks. It is refused if another server answers there",
    )


def run(options: argparse.Namespace) -> int:
    """Serves until it is told to end."""
    path = os.path.abspath(options.socket or os.path.join(state.state_folder(), "watchman", "sock"))
    server = Server(path, tell)
    link = (
        None
        if options.take_over is None
        else os.path.abspath(options.take_over or default_socket())
    )

    def began() -> None:
        if link is not None:
            take_over(link, path)
        print_words(
            os.fsencode(f"watchman: serving {path}\nexport WATCHMAN_SOCK={shlex.quote(path)}")
        )
        flush()

    try:
        asyncio.run(server.serve(began))
    finally:
        if link is not None:
            with contextlib.suppress(OSError):
                if os.readlink(link) == path:
                    os.unlink(link)
    return 0


def default_socket() -> str:
    """Returns where clients look for Watchman's socket: in a folder of the user's, for temporary
    files."""
    temporary = os.environ.get("TMPDIR") or os.environ.get("TMP") or "/tmp"
    return os.path.join(temporary, f"{pwd.getpwuid(os.geteuid()).pw_name}-state", "sock")


def take_over(link: str, path: str) -> None:
    """Links the socket where clients look for it."""
    try:
        with contextlib.suppress(FileExistsError):
            os.makedirs(os.path.dirname(link), 0o700)
        clear(link, link)
        os.symlink(path, link)
    except OSError as error:
        raise ServerFault(f"{link}: {error.strerror}") from None


def tell(text: str) -> None:
    """Says what happens."""
    print(f"watchman: {text}", file=sys.stderr, flush=True)
