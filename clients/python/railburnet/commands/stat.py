"""railburnet stat."""
from __future__ import annotations

import argparse
import os

from ..frames import as_word, shown
from ..options import Target, mount_path
from ..output import print_words, say

DESCRIPTION = """Prints a line KIND LENGTH ID PATH for each file: the number of its bytes, and the id
that `git hash-object` prints for them, or for the target of a link."""


def add_options(parser: argparse.ArgumentParser) -> None:
    """Adds the options of the subcommand."""
    parser.add_argument(
        "paths",
        metavar="PATH",
        type=os.fsencode,
        nargs="+",
        help="a path, from the mount's root on",
    )


def run(options: argparse.Namespace) -> int:
    """Prints the files."""
    paths = [mount_path(path) for path in options.paths]
    missing = 0
    with Target(options).client() as client:
        for path in paths:
            stat = client.stat(path).stat
            if stat is None:
                say(f"no file at {shown(path)}")
                missing = 1
            else:
                kind = stat.kind.name.lower()
                print_words(kind, str(stat.length), stat.id.hex(), as_word(path))
    return missing
