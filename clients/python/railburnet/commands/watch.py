"""railburnet watch."""
from __future__ import annotations

import argparse
import os
import shlex
import subprocess
import sys
import time
from typing import Dict, Iterator, List, Optional, Sequence, Tuple

from ..client import Changes
from ..faults import message_of
from ..frames import ConnectionLost, FrameFault, TooLarge, shown
from ..options import Target, UsageFault, add_patterns, check_patterns, seconds_of
from ..pace import Pace

DESCRIPTION = """Runs a command on the paths that changed in a mount, each time that some did.

    railburnet watch 'src/**' '*.toml' -- wc -c
    railburnet watch --null 'src/**' -- make
    railburnet watch --null '!build/**' '!**/*.o' -- make

The paths follow the command's words, as many as fit, and what doesn't fit comes in further runs; a
path that begins with `-` has `./` before it. With --null they come on its standard input instead,
each with a NUL after it, in one run. Nothing runs before something changed, nor while the command
still runs: what changes meanwhile is the next run's. It waits until nothing has changed for a
moment. If the mount can't tell what changed, as after it was begun again, the command runs on all
paths that there are or were.

The command runs in the mount's root, if that is known, so that the paths are right; with --port or
--socket it runs in the directory that one is in."""
USAGE = "railburnet watch [OPTION..] PATTERN.. -- COMMAND [WORD..]"
PATIENCE = 20.0
"""For how many seconds the mount waits with the reply to a poll if nothing changed."""
EPILOG = """status: 0 with --once; 1 more paths than a frame holds; 2 the command line; 3 no
mount; 130 interrupted"""


def add_options(parser: argparse.ArgumentParser) -> None:
    """Adds the options of the subcommand."""
    parser.add_argument(
        "--settle",
        type=seconds_of,
        default=0.05,
        metavar="SECONDS",
        help="how long nothing may change before it runs; 0.05 by default",
    )
    parser.add_argument(
        "--every",
        type=seconds_of,
        default=0.1,
        metavar="SECONDS",
        help="how long to wait between two polls, if the mount can't "
        "wait for a change itself; 0.1 by default",
    )
    parser.add_argument("--directory", metavar="DIR", help="where to run the command")
    parser.add_argument(
        "-0",
        "--null",
        action="store_true",
        help="give the paths on standard input, each with a NUL after it",
    )
    parser.add_argument(
        "--at-start", action="store_true", help="run once at the start, on all paths that there are"
    )
    parser.add_argument("--once", action="store_true", help="end after one run")
    add_patterns(parser, needed=True)


def split(words: Sequence[str]) -> Tuple[List[str], List[str]]:
    """The words before `--`, and the command after it."""
    if "--" not in words:
        return list(words), []
    at = words.index("--")
    return list(words[:at]), list(words[at + 1 :])


def run(options: argparse.Namespace) -> int:
    """Watches, and runs the command."""
    if not options.command:
        raise UsageFault("a command is needed: railburnet watch PATTERN.. -- COMMAND")
    check_patterns(options.patterns)
    target = Target(options)
    if options.directory is None:
        options.directory = target.root()
    watch = Watch(options, target)
    try:
        paths = watch.begin()
        while True:
            if not options.at_start:
                paths = watch.settled()
            options.at_start = False
            watch.run(paths)
            if options.once:
                return 0
    except TooLarge:
        tell("the list of paths doesn't fit into a frame: narrower patterns may help")
        return 1
    except KeyboardInterrupt:
        tell("interrupted")
        return 130


def tell(text: str) -> None:
    """Says what it does."""
    print(f"watch: {text}", file=sys.stderr, flush=True)


def counted(paths: Sequence[bytes]) -> str:
    """How many paths, and the first of them, for people."""
    names = ", ".join(map(shown, paths[:3]))
    return f"{len(paths):,} path{'s' * (len(paths) != 1)} changed: {names}" + (
        ", .." if len(paths) > 3 else ""
    )


def runs_of(command: Sequence[bytes], paths: Sequence[bytes]) -> Iterator[List[bytes]]:
    """Command lines with as many of the paths as the system lets be."""
    # Half of what the system takes, at most what any does; each word has a pointer too.
    most = min(os.sysconf("SC_ARG_MAX") // 2, 1 << 20) - sum(len(word) + 9 for word in command)
    run: List[bytes] = []
    size = 0
    for path in paths:
        word = b"./" + path if path.startswith(b"-") else path
        if run and size + len(word) + 9 > most:
            yield [*command, *run]
            run, size = [], 0
        run.append(word)
        size += len(word) + 9
    yield [*command, *run]


class Watch:
    """What changed, poll by poll, and the command."""

    def __init__(self, options: argparse.Namespace, target: Target) -> None:
        self._changes = Changes(target.client(), options.patterns)
        self._pace = Pace(target)
        self._options = options
        self._lost = False

    def poll(self, patience: float = 0.0) -> List[bytes]:
        """The paths that changed since the last poll, for which the mount may wait so many seconds;
        none where there is no connection."""
        try:
            marked = self._changes.next(patience)
        except (ConnectionLost, FrameFault) as fault:
            if not self._lost:
                tell(f"{message_of(fault)}; trying again")
            self._lost = True
            time.sleep(0.5)
            return []
        if self._lost:
            tell("connected again")
        self._lost = False
        if self._changes.refused:
            tell(
                f"the mount can't tell what changed since then ({self._changes.refused}): "
                "beginning again with all paths"
            )
        return [path for _, path in marked]

    def begin(self) -> List[bytes]:
        """Waits for the first position; the paths that there are."""
        while self._changes.position is None:
            paths = self.poll()
        tell(
            f"watching {len(paths):,} path{'s' * (len(paths) != 1)} from "
            f"{self._changes.position.generation} {self._changes.position.sequence} on"
        )
        return paths

    def settled(self) -> List[bytes]:
        """Waits until something changed, and then until nothing has for a moment."""
        paths: Dict[bytes, None] = {}
        while not paths:
            paths.update(dict.fromkeys(self._waited(PATIENCE, self._options.every)))
        # The feed has waited for a while already when it says that something changed.
        settle = max(0.0, self._options.settle - self._pace.settled)
        every = min(self._options.every, self._options.settle)
        end = time.monotonic() + 20 * self._options.settle
        quiet = time.monotonic() + settle
        while time.monotonic() < min(quiet, end):
            more = self._waited(min(quiet, end) - time.monotonic(), every)
            if more:
                paths.update(dict.fromkeys(more))
                quiet = time.monotonic() + settle
        return sorted(paths)

    def _waited(self, seconds: float, every: float) -> List[bytes]:
        """Waits for changes for so many seconds at most: the paths that changed."""
        begun = time.monotonic()
        paths = self.poll(seconds)
        left = begun + seconds - time.monotonic()
        # A mount that can't wait has answered at once.
        if not paths and left > 0:
            self._wait(min(every, left), left)
        return paths

    def _wait(self, seconds: float, most: float) -> None:
        """Waits until something may have changed: so many seconds, or, where a bell rings, at
        most so many."""
        at = self._changes.position
        if at is not None and self._pace.reached(at.generation, at.sequence):
            self._pace.wait(seconds, min(most, 1.0))
        else:
            # It rang for a change that the mount is about to have.
            time.sleep(0.001)

    def run(self, paths: List[bytes]) -> None:
        """Runs the command on some paths, and waits for its end."""
        command = " ".join(map(shlex.quote, map(os.fsdecode, self._options.command)))
        tell(f"{counted(paths)}; running {command}")
        begun = time.monotonic()
        if self._options.null:
            statuses = [self._ran(self._options.command, b"".join(path + b"\0" for path in paths))]
        else:
            statuses = [self._ran(words, None) for words in runs_of(self._options.command, paths)]
        # Of several runs the first that failed is told.
        status = next((status for status in statuses if status), 0)
        how = f"status {status}" if status >= 0 else f"signal {-status}"
        many = f" in {len(statuses)} runs" if len(statuses) > 1 else ""
        tell(f"ended with {how}{many} after {time.monotonic() - begun:.1f} s")

    def _ran(self, words: Sequence[bytes], text: Optional[bytes]) -> int:
        try:
            process = subprocess.Popen(
                words,
                stdin=subprocess.DEVNULL if text is None else subprocess.PIPE,
                cwd=self._options.directory,
            )
        except OSError as error:
            tell(f"{os.fsdecode(words[0])}: {error.strerror}")
            return 127
        try:
            process.communicate(text)
        except KeyboardInterrupt:
            # The terminal has interrupted the command too: it may end in its own way.
            process.wait()
            raise
        return process.returncode
