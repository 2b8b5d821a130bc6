"""railburnet cat."""
from __future__ import annotations

import argparse
import os

from ..frames import shown
from ..options import Target, mount_path
from ..output import say, write

DESCRIPTION = "Prints the bytes of a file, or the target of a link."


def add_options(parser: argparse.ArgumentParser) -> None:
    """Adds the options of the subcommand."""
    parser.add_argument(
        "path", metavar="PATH", type=os.fsencode, help="a path, from the mount's root on"
    )


def run(options: argparse.Namespace) -> int:
    """Prints the file."""
    path = mount_path(options.path)
    with Target(options).client() as client:
        file = client.fetch(path).file
    if file is None:
        say(f"no file at {shown(path)}")
        return 1
    write(file.content)
    return 0
