"""railburnet list."""
from __future__ import annotations

import argparse

from ..options import Target, add_null, add_patterns, check_patterns
from ..output import print_paths, print_words

DESCRIPTION = """Prints which files there are: the position, `at GENERATION SEQUENCE ROOT`, then
`files N`, and a line for each path."""


def add_options(parser: argparse.ArgumentParser) -> None:
    """Adds the options of the subcommand."""
    add_null(parser)
    add_patterns(parser)


def run(options: argparse.Namespace) -> int:
    """Prints the files."""
    check_patterns(options.patterns)
    with Target(options).client() as client:
        basis = client.basis(options.patterns)
    if not options.null:
        print_words("at", str(basis.position))
        print_words("files", str(len(basis.paths)))
    print_paths(((None, path) for path in basis.paths), options.null)
    return 0
