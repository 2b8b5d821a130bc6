"""railburnet dirty."""
from __future__ import annotations

import argparse

from ..options import Target, add_null, add_patterns, check_patterns
from ..output import print_paths, print_words

DESCRIPTION = """Prints which files differ from the mount's commit: the position, whose root is the
commit, `at GENERATION SEQUENCE ROOT`, then `dirty N`, and a line MARK PATH for each path. A file is
Created, Removed or Changed."""


def add_options(parser: argparse.ArgumentParser) -> None:
    """Adds the options of the subcommand."""
    add_null(parser)
    add_patterns(parser)


def run(options: argparse.Namespace) -> int:
    """Prints the paths."""
    check_patterns(options.patterns)
    with Target(options).client() as client:
        status = client.status(options.patterns)
    if not options.null:
        print_words("at", str(status.position))
        print_words("dirty", str(len(status.marked)))
    print_paths(((mark.name.capitalize(), path) for mark, path in status.marked), options.null)
    return 0
