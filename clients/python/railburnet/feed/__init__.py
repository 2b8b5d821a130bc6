"""Follows a directory, and prints lines that make a mount of edend serve hold what it holds.

    railburnet objects DIR HEAD > objects
    railburnet feed DIR | edend serve --port 7777 --connections 8 --stay --objects objects

It mounts a commit, tells what differs from it, and prints `listen`: so whoever asks the mount finds
the directory as it is. Then it tells what happens: `write`, `remove`, `rename` if a file was moved,
and `renamedir` if a directory was. A file that is written again with the same bytes, or touched, is
told as a write too. Another commit that is checked out in DIR is told file by file; or by one line
`checkout`, if --also names it. While git works (its index.lock is there) nothing is told.

All that is below DIR is told, but for what is named .git or .railburnet or by --skip, and for
copies that `railburnet follow --into` keeps there. A line has 65,536 bytes at the most. A larger
file, up to 8,388,608 bytes, is in the mount while its bytes and its kind are those of a file of the
mounted commit. Other large files, and those that can't be read, are not in the mount. Each change
of one is still a change of its path there; standard error says why, and `status` lists them.

With --socket PATH it prints lines up to `listen` alone, and then asks edend for each change over
the socket at PATH, where it has to serve with its option --writable. So each file of up to
8,388,608 bytes is in the mount.

With --control SOCKET it answers lines of text at a Unix socket. `sync` is answered with `at
GENERATION NUMBER`: at that number the mount has all that was on disk before. `bell` is answered
with the same line, now and again each time something was told; `status` with one line of JSON.

The system reports changes by inotify, and it looks at everything again if that lost some. Without
inotify it looks at everything every two seconds. Bytes that are written through a mapping are told
when the mapping ends.
"""
from __future__ import annotations

import argparse
import os
import signal
import sys
import time
from typing import Callable, Optional, Sequence, Set

from .. import state
from ..control import SETTLE
from ..frames import MOST_NUMBER, NAMES_MARK
from .commits import Commits
from .feeder import Feeder
from .inotify import Inotify
from .lines import Lines
from .loop import Lock, Loop
from .model import Failure, NoNotices, shown, tell
from .names import Texts

__all__ = ["Failure", "Feeder", "Inotify", "NoNotices", "main"]


class Heads:
    """The commit that the mount is over, of those of the command line."""

    def __init__(self, feeder: Feeder, commits: Commits, root: str) -> None:
        self._feeder, self._commits, self._root = feeder, commits, root

    def go_over(self) -> Set[bytes]:
        """Goes over to the commit that is checked out, and returns the paths to look at."""
        head = self._commits.head(self._root)
        if head == self._root:
            return set()
        root, target = self._commits.files(self._root), self._commits.files(head)
        look = self._feeder.go_over(self._commits.known_as(head), root, target)
        self._root = head
        return look


def generation_of(top: bytes, wanted: Optional[int]) -> int:
    """Returns a generation that no mount of the directory had, so that no old position is good
    in it."""
    try:
        generation = state.next_generation(state.folder_of(top), wanted)
    except (OSError, state.StateFault) as fault:
        tell(f"the last generation of the directory can't be kept: {fault}")
        return time.time_ns() if wanted is None else wanted
    if wanted is not None and generation != wanted:
        last = generation - 1
        raise Failure(f"generation {wanted} isn't above {last}, the last one of {shown(top)}")
    return generation


def commits_of(options: argparse.Namespace, top: bytes) -> Optional[Commits]:
    """Returns the commits of the repository; None if the empty commit is mounted."""
    if options.empty or options.names:
        return None
    commits = Commits(options.repository or options.folder)
    if options.repository is None:
        own = commits.run("rev-parse", "--show-toplevel").rstrip(b"\n")
        if os.path.realpath(own) != top:
            raise Failure(f"{options.folder} isn't the top of a checkout, which is {shown(own)}; "
                          "see --repository and --empty")
    return commits


def lock_of(commits: Optional[Commits], top: bytes) -> Lock:
    """Returns git's lock on the index of a directory."""
    if commits is None:
        return Lock(os.path.join(top, b".git", b"index.lock"))
    path = commits.run("rev-parse", "--git-path", "index.lock").rstrip(b"\n")
    return Lock(os.path.join(top, path))


def lines_of(options: argparse.Namespace, top: bytes) -> Lines:
    """Returns what tells edend of changes, by lines alone or over its socket too."""
    if options.socket is None or options.once:
        return Lines(generation_of(top, options.generation))
    # Who feeds by lines alone needs no client.
    from .served import Served

    return Served(generation_of(top, options.generation), options.socket)


def watches_of(options: argparse.Namespace) -> Optional[Inotify]:
    """Returns the kernel's notices, if they are wanted and there are any."""
    if options.scan or options.once:
        return None
    try:
        return Inotify()
    except Failure as failure:
        tell(f"{failure}: looking at everything every {options.every:g} seconds")
        return None


def run(options: argparse.Namespace) -> None:
    """Does what the command line says."""
    top = os.path.realpath(os.fsencode(options.folder))
    if not os.path.isdir(top):
        raise Failure(f"{options.folder} is no directory")
    commits = commits_of(options, top)
    root = commits.add(options.commit) if commits else ""
    also = [commits.add(name) for name in options.also] if commits else []
    lines = lines_of(options, top)
    watches = watches_of(options)
    feeder = Feeder(top, {b".git", *map(os.fsencode, options.skip)}, watches, lines,
                    options.each_file, Texts(top) if options.names else None)
    heads = Heads(feeder, commits, root) if commits and also else None
    loop = Loop(feeder, lines, watches, lock_of(commits, top), options.settle, options.every,
                heads.go_over if heads else lambda: set(), 0.5 if heads else None)
    try:
        if options.control is not None:
            loop.listen(options.control, lambda: {
                "root": os.fsdecode(top), "names": options.names,
                "parked": list(map(os.fsdecode, feeder.parking.places())),
                "left_out": {os.fsdecode(path): why
                             for path, why in feeder.sayings.left_out.items()}})
        lines.begin(commits.known_as(root) if commits else "empty", options.limit)
        if options.names:
            lines.change(b"write", NAMES_MARK, b"plain", b"")
        if options.listen_first:
            loop.serve()
        feeder.mounted(commits.files(root) if commits else {})
        lines.flush()
        loop.look_first()
        if options.once:
            return
        if not options.listen_first:
            loop.serve()
        how = "" if watches else f", by looking at everything every {options.every:g} seconds"
        tell(f"following {shown(top)}{how}")
        loop.follow()
    finally:
        loop.close()


def generation(word: str) -> int:
    """Reads a generation of the command line."""
    if not word.isascii() or not word.isdigit() or int(word) > MOST_NUMBER:
        raise argparse.ArgumentTypeError(f"{word!r} is no number from 0 to {MOST_NUMBER}")
    return int(word)


def parser() -> argparse.ArgumentParser:
    """Returns the parser of the command line."""
    made = argparse.ArgumentParser(
        prog="railburnet feed", description=__doc__,
        formatter_class=argparse.RawDescriptionHelpFormatter,
        epilog="Status: 0 with --once, or if nobody reads any more; 1 DIR is gone, git fails, or "
        "what is printed can't be written; 2 the command line; 130 interrupted.")
    add = made.add_argument
    add("folder", metavar="DIR")
    add("--commit", default="HEAD", metavar="COMMIT[=ID]",
        help="the commit to mount (default: HEAD); ID if `railburnet objects` gave it another id")
    add("--also", action="append", default=[], metavar="COMMIT[=ID]",
        help="another commit that edend has the objects of")
    add("--repository", metavar="DIR",
        help="the repository of the commits, if it isn't that of DIR")
    add("--empty", action="store_true", help="mount the empty commit; this needs no git")
    add("--names", action="store_true",
        help="mount the empty commit, and tell short texts instead of contents: no file is read. A "
        "text is `blob ID` if git's index knows the file, else `stat SIZE MODIFIED INODE`; the "
        "mount has a file " + os.fsdecode(NAMES_MARK))
    add("--each-file", action="store_true",
        help="tell a moved directory file by file, so that each name that is gone is told")
    add("--control", metavar="SOCKET",
        help="answer `sync`, `bell` and `status` at this Unix socket, which is its owner's alone")
    add("--socket", metavar="PATH",
        help="change the mount over this Unix socket from `listen` on, where edend serves it with "
        "its option --writable")
    add("--listen-first", action="store_true",
        help="print `listen` before what differs: the mount answers sooner, and holds the commit "
        "at first")
    add("--generation", type=generation, metavar="N",
        help="the mount's generation, above the last one of DIR (default: the nanoseconds of the "
        "clock, or one more than the last one)")
    add("--limit", type=generation, default=100_000_000, metavar="N",
        help="what the changes that the mount keeps may cost (default: 100000000)")
    add("--skip", action="append", default=[], metavar="NAME",
        help="leave out whatever has this name, as .git is")
    _add_times(add)
    add("--once", action="store_true", help="print what differs, without `listen`, and end")
    return made


def _add_times(add: Callable[..., argparse.Action]) -> None:
    """Adds the options that say when to look."""
    add("--settle", type=float, default=SETTLE, metavar="SECONDS",
        help=f"how long nothing may happen before it looks (default: {SETTLE:g})")
    add("--scan", action="store_true",
        help="look at everything again and again, without inotify")
    add("--every", type=float, default=2.0, metavar="SECONDS",
        help="how long to wait between two such looks (default: 2)")


def end(number: int, frame: object) -> None:
    """Ends the program as a signal asks, with its socket taken away."""
    raise SystemExit(128 + number)


def main(words: Optional[Sequence[str]] = None) -> int:
    """Runs the command line, and returns the exit status."""
    options = parser().parse_args(words)
    signal.signal(signal.SIGTERM, end)
    try:
        run(options)
        sys.stdout.buffer.flush()
    except Failure as failure:
        tell(str(failure))
        return 1
    except BrokenPipeError:
        _discard_output()
        tell("nobody reads any more")
        return 0
    except OSError as error:
        _discard_output()
        tell(f"can't write what it prints: {error.strerror}" if error.filename is None
             else str(error))
        return 1
    except KeyboardInterrupt:
        return 130
    return 0


def _discard_output() -> None:
    """Has what is still to be printed go nowhere, so that the end of the program doesn't fail."""
    os.dup2(os.open(os.devnull, os.O_WRONLY), sys.stdout.fileno())
