"""railburnet follow."""
from __future__ import annotations

import argparse
import os
import time
from typing import Callable, Dict, List, Optional, Tuple

from .. import control
from ..client import Changes, Client
from ..control import ControlFault
from ..faults import message_of
from ..folder import Folder
from ..frames import NAMES_MARK, ConnectionLost, FrameFault, TooLarge, admits, shown
from ..mirror import Mirror, Outcome
from ..options import Target, UsageFault, add_null, add_patterns, check_patterns, seconds_of
from ..output import flush, print_paths, print_words, say
from ..pace import Pace

DESCRIPTION = """Follows the mount: prints `at GENERATION SEQUENCE ROOT` for each position that it
comes to, and a line MARK PATH for each path that changed, or File and each path: at first, and
below directories that were moved.

With --into it keeps a directory equal to the mount instead, and prints the position, and how
many paths came and how many aren't equal."""
MOST_NAMED = 10
"""How many files that a mount can't hold are named at a time."""


def add_options(parser: argparse.ArgumentParser) -> None:
    """Adds the options of the subcommand."""
    add_null(parser)
    parser.add_argument(
        "--into",
        metavar="DIR",
        help="keep DIR equal to the files: each is replaced as a whole, what this didn't make is "
        "left alone and reported, and no link is followed; DIR/.railburnet is kept for its own "
        "files",
    )
    parser.add_argument(
        "--every",
        type=seconds_of,
        default=0.2,
        metavar="SECONDS",
        help="how long to wait between two polls, if the mount doesn't "
        "say by itself that something changed; 0.2 by default",
    )
    parser.add_argument(
        "--once", action="store_true", help="end when the files are those of a position"
    )
    add_patterns(parser)


def run(options: argparse.Namespace) -> int:
    """Follows the mount."""
    check_patterns(options.patterns)
    target = Target(options)
    with target.client() as client:
        if not options.into:
            return _loop(_follow_paths(client, options), target, options)
        folder = _folder(os.fsencode(options.into), target, client)
        try:
            return _loop(_follow_into(client, folder, target, options), target, options)
        finally:
            folder.close()


def _loop(step: Callable[[], Optional[int]], target: Target, options: argparse.Namespace) -> int:
    """Takes steps for good, or until one has a status and one is enough."""
    lost = False
    pace = Pace(target)
    while True:
        try:
            status = step()
            lost = False
        except (ConnectionLost, FrameFault, ControlFault) as fault:
            if options.once:
                raise
            if not lost:
                say(f"{message_of(fault)}; trying again")
            lost, status = True, None
            time.sleep(1)
        if options.once and status is not None:
            return status
        flush()
        pace.wait(options.every)


def _follow_paths(client: Client, options: argparse.Namespace) -> Callable[[], Optional[int]]:
    """Returns a step that prints what changed since the one before."""
    changes = Changes(client, options.patterns)

    def step() -> Optional[int]:
        before, marked = changes.position, changes.next()
        if changes.refused:
            say(f"the position is refused ({changes.refused}); here are all files")
        if changes.position != before and not options.null:
            print_words("at", str(changes.position))
        print_paths(
            ((mark.name.capitalize() if mark else "File", path) for mark, path in marked),
            options.null,
        )
        return 0

    return step


def _folder(into: bytes, target: Target, client: Client) -> Folder:
    """Opens the directory of the copy. UsageFault for one that no copy can be in."""
    mount = target.mount()
    if client.fetch(NAMES_MARK).file is not None:
        raise UsageFault(
            "the mount has the names of files alone (`--names`), so there are no contents to copy"
        )
    if os.path.lexists(into) and not os.path.isdir(into):
        raise UsageFault(f"--into {os.fsdecode(into)}: that is a file, not a directory")
    if mount is not None and (os.path.realpath(into) + b"/").startswith(
        mount.root.rstrip(b"/") + b"/"
    ):
        raise UsageFault(
            f"--into {os.fsdecode(into)}: that is in {os.fsdecode(mount.root)}, which is "
            "mounted, so the copy would copy itself"
        )
    return Folder(into, lambda path, why: say(f"{shown(path)}: {why}"))


def _follow_into(
    client: Client, folder: Folder, target: Target, options: argparse.Namespace
) -> Callable[[], Optional[int]]:
    """Returns a step that has one round, and makes the directory equal if the mirror was placed."""
    mirror = Mirror(options.patterns, files=folder)
    left_out = _LeftOut(target, options.patterns)
    checks, told = 5, -1

    def check() -> None:
        if client.basis([b"**/.railburnet/" + folder.token, b".railburnet/" + folder.token]).paths:
            raise UsageFault(
                f"--into {options.into}: that is in the directory that is mounted, so the copy "
                "would copy itself"
            )

    def step() -> Optional[int]:
        nonlocal checks, told
        before, outcome = mirror.position, client.round(mirror)
        if outcome is Outcome.ENDED:
            raise TooLarge()
        if outcome is Outcome.UNPLACED:
            say("the position is refused; beginning again with a list of all files")
        if outcome is not Outcome.PLACED:
            return None
        if checks and mirror.position != before:
            checks -= 1
            check()
        unequal = folder.place()
        if folder.lacking:
            unequal = folder.retry(lambda path: client.fetch(path).file)
        unequal += left_out.count()
        if mirror.position != before or unequal != told:
            print_words("at", str(mirror.position))
            print_words("paths", str(len(mirror.listed)), "unequal", str(unequal))
        told = unequal
        return 1 if unequal else 0

    return step


class _LeftOut:
    """The wanted files of the directory that the mount can't hold, as far as that is known."""

    def __init__(self, target: Target, patterns: List[bytes]) -> None:
        self._target, self._patterns = target, patterns
        self._reported: Dict[bytes, str] = {}

    def count(self) -> int:
        """Returns how many there are, and says which are new and why."""
        there = {path: why for path, why in self._all() if admits(self._patterns, path)}
        new = [path for path, why in there.items() if self._reported.get(path) != why]
        for path in new[:MOST_NAMED]:
            say(f"{shown(path)}: {there[path]}")
        if len(new) > MOST_NAMED:
            say(f"and {len(new) - MOST_NAMED:,} more; `railburnet status --json` lists them")
        self._reported = there
        return len(there)

    def _all(self) -> List[Tuple[bytes, str]]:
        mount = self._target.mount()
        try:
            known = {} if mount is None else control.status(mount.control, 5.0)["left_out"]
        except ControlFault:
            known = {}
        return [(os.fsencode(path), why) for path, why in known.items()]
