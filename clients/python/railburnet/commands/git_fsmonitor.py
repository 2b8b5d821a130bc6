"""railburnet git-fsmonitor."""
from __future__ import annotations

import argparse

from .. import git_fsmonitor

DESCRIPTION = """Answers Git as its hook core.fsmonitor: which paths may have changed since a token.

Git runs it at the top of a checkout; `railburnet git-setup` names it to Git. It prints a new token
and then paths, each with a NUL after it, or `/` if everything may have changed. If there is no
mount, it begins one in the background, as `railburnet up --names --no-whole-renames` does."""
EPILOG = """status: 0 it has answered; 1 it has not, in five seconds at the most, or VERSION is not 2: Git
then looks at everything by itself; 2 the command line"""


def add_options(parser: argparse.ArgumentParser) -> None:
    """Adds the options of the subcommand."""
    parser.add_argument("version", metavar="VERSION", help="the version of the hook; 2 is answered")
    parser.add_argument("token", metavar="TOKEN", help="what it printed first when it was asked last")


def run(options: argparse.Namespace) -> int:
    """Answers Git."""
    return git_fsmonitor.main([options.version, options.token])
