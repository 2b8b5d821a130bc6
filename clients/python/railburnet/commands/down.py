"""railburnet down."""
from __future__ import annotations

import argparse
import os

from .. import mount as mounts
from .. import state
from ..options import add_directory, directory_of
from ..output import print_words, say

DESCRIPTION = """Ends the mount of a directory, and waits until its processes have ended. So it does
with one that was left while it began; a mount whose processes died is forgotten."""
EPILOG = """status: 0 the mount has ended; 1 there was none; 2 the command line; 3 the state folder
can't be used"""


def add_options(parser: argparse.ArgumentParser) -> None:
    """Adds the options of the subcommand."""
    parser.add_argument("--all", action="store_true", help="end all mounts of this user")
    add_directory(
        parser,
        "the directory; by default the one that one is in, or the nearest above with a mount",
    )


def run(options: argparse.Namespace) -> int:
    """Ends the mounts."""
    if options.all:
        found = list(state.all_noted(state.begun))
    else:
        named = directory_of(options)
        path = os.fsencode(named or ".")
        nearest = state.noted_above(path, state.begun)
        mount = state.begun(state.folder_of(path)) if named else next(nearest, None)
        if mount is None:
            say(
                f"no mount of {os.fsdecode(os.path.realpath(path))}"
                + ("" if named else " or of a directory above it")
            )
            return 1
        found = [mount]
    for mount in found:
        mounts.stop(mount)
        print_words(b"down: " + mount.root)
    return 0
