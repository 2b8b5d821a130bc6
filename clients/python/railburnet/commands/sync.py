"""railburnet sync."""
from __future__ import annotations

import argparse

from ..options import Target, seconds_of
from ..output import print_words

DESCRIPTION = """Waits until the mount has all that is on disk below its root now, and prints its
position, `at GENERATION SEQUENCE ROOT`.

The root is twenty bytes 00, since this asks for no files. The mount has to be one of this
machine that `railburnet up` began."""


def add_options(parser: argparse.ArgumentParser) -> None:
    """Adds the options of the subcommand."""
    parser.add_argument(
        "--timeout",
        type=seconds_of,
        default=60.0,
        metavar="SECONDS",
        help="how long to wait; 60 by default",
    )


def run(options: argparse.Namespace) -> int:
    """Waits for the mount."""
    target = Target(options)
    mount = target.needed()
    with target.client() as client:
        print_words("at", str(client.sync(mount.control, options.timeout)))
    return 0
