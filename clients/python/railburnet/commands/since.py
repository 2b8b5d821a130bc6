"""railburnet since."""
from __future__ import annotations

import argparse

from ..frames import Position
from ..options import Target, add_null, add_patterns, check_patterns, number_of
from ..output import print_paths, print_words

DESCRIPTION = """Prints what changed since a position: `changes N to GENERATION SEQUENCE ROOT`, and
a line MARK PATH for each path.

If directories were moved, `prefixes N` follows, and a line for each of them: below it any path
may have changed."""


def add_options(parser: argparse.ArgumentParser) -> None:
    """Adds the options of the subcommand."""
    add_null(parser)
    parser.add_argument(
        "generation", type=number_of, metavar="GENERATION", help="the first number of a position"
    )
    parser.add_argument(
        "sequence", type=number_of, metavar="SEQUENCE", help="the second number of a position"
    )
    add_patterns(parser)


def run(options: argparse.Namespace) -> int:
    """Prints the changes."""
    check_patterns(options.patterns)
    with Target(options).client() as client:
        changes = client.since(Position(options.generation, options.sequence), options.patterns)
    if not options.null:
        print_words("changes", str(len(changes.marked)), "to", str(changes.position))
    print_paths(((mark.name.capitalize(), path) for mark, path in changes.marked), options.null)
    if changes.prefixes:
        if not options.null:
            print_words("prefixes", str(len(changes.prefixes)))
        print_paths(((None, prefix) for prefix in changes.prefixes), options.null)
    return 0
