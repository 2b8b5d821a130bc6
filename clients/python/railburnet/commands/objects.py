"""railburnet objects."""
from __future__ import annotations

import argparse
import sys
from typing import List, Tuple

from ..objects import Progress, Stuck, write
from ..output import OutputFault

DESCRIPTION = """Prints the objects of commits as `git cat-file --batch` does, each once and after
those that it names, for `edend serve --objects FILE`.

A mount can't hold a submodule, a file of mode 100664, an object above 8,388,608 bytes, a name
above 255 bytes, or a path above 1,024 bytes or 64 names. Each of these is reported with its
path, and nothing is printed. With --leave-out the commits are written again without them (a file
of mode 100664 gets mode 100644, as git checks it out), and their new ids are reported. The
repository stays as it is."""
EPILOG = """Status: 0 done; 1 something that a mount can't hold, or git failed; 2 the command
line; 3 standard output can't be written."""
MOST_SAID = 20


def add_options(parser: argparse.ArgumentParser) -> None:
    """Adds the options of the subcommand."""
    parser.add_argument(
        "--leave-out",
        action="store_true",
        help="write the commits again without what a mount can't hold",
    )
    parser.add_argument("repository", metavar="REPOSITORY", help="a repository's folder")
    parser.add_argument(
        "commits", metavar="COMMIT", nargs="+", help="a commit, by any name that git knows"
    )


def run(options: argparse.Namespace) -> int:
    """Prints the objects."""
    progress = Progress(sys.stderr.isatty())
    try:
        written = write(
            options.repository, options.commits, sys.stdout.buffer, options.leave_out, progress
        )
    except Stuck as stuck:
        _say_faults(stuck.faults, progress, "")
        progress.say(str(stuck))
        return 1
    except BrokenPipeError:
        raise
    except OSError as error:
        raise OutputFault(error) from None
    _say_faults(written.faults, progress, "left out: ")
    for id, new in written.ids.items():
        if new != id:
            progress.say(f"{id} is written anew as {new}")
    progress.say(f"{written.number:,} objects, {written.size / 1e6:,.1f} MB")
    return 0


def _say_faults(faults: List[Tuple[str, str]], progress: Progress, word: str) -> None:
    for path, why in faults[:MOST_SAID]:
        progress.say(f"{word}{path}: {why}")
    if len(faults) > MOST_SAID:
        progress.say(f"and {len(faults) - MOST_SAID:,} more")
