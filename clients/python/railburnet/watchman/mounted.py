"""The mount of a root: where it is, what changed in it, and beginning it again. Its calls wait, so
they have a thread."""
from __future__ import annotations

import bisect
import contextlib
import json
import os
import time
from typing import Any, Callable, Dict, Iterator, List, NamedTuple, Optional, Tuple

from .. import control, mount, state
from ..client import Client
from ..frames import (
    ConnectionLost,
    FrameFault,
    Mark,
    Position,
    PositionRefused,
    TooLarge,
    literal,
)
from ..mount import MountFault
from ..state import Mount, StateFault
from .clocks import Place
from .faults import Fault, text
from .table import Disk, Letters

FRONT = "watchman"
SETTLE = 0.01
"""After how many seconds of rest a change is told, if .watchmanconfig doesn't say it in
milliseconds."""
UNWATCHED = ("--skip", ".hg", "--skip", ".svn")
SYNC = 60_000
MOST_TIMES = 1000
ENDING = 2.0
"""How many seconds a process that answers no more is given to end."""
GONE = (ConnectionLost, FrameFault, control.ControlFault)
"""What is raised if one of the processes of the mount has ended."""


class Changes(NamedTuple):
    """The paths that changed up to a place, with their marks; None if the mount can't tell, so that
    all may have."""

    marks: Optional[Dict[bytes, Mark]]
    place: Place


class Mounted:
    """The mount of a directory that this server began."""

    def __init__(self, top: bytes, say: Callable[[str], None]) -> None:
        self.top, self._say = top, say
        self.config = config_of(top)
        self.mount: Optional[Mount] = None
        self.disk: Optional[Disk] = None
        self._client: Optional[Client] = None
        self._least = self._reached = 0
        self._is_synced = False
        """Whether the mount has at `_least` all that was on disk when it was asked."""
        self._times: List[Tuple[float, int]] = []
        self._shared: Dict[Tuple[Place, Tuple[bytes, ...]], Changes] = {}
        self._letters: Letters = {}
        self._listed: Optional[Place] = None
        """The place at which the files are those of `_letters`; None if they weren't listed."""

    def begin(self) -> None:
        """Begins the mount, or finds it, also where it was begun by a server before this one."""
        self._let_go()
        settle = self.config.get("settle")
        seconds = settle / 1000 if isinstance(settle, int) and settle >= 0 else SETTLE
        try:
            self.mount = mount.ensure(
                self.top,
                names=True,
                whole_renames=False,
                front=FRONT,
                say=self._say,
                feed=(*UNWATCHED, "--settle", f"{seconds:g}"),
            )
            self.disk = Disk(self.top)
        except (MountFault, StateFault, OSError) as fault:
            raise Fault(f"unable to watch {text(self.top)}: {fault}") from None
        self._client = Client(self.mount.place, timeout=60.0, connections=2)
        self._least = self._reached = 0
        self._times = [(time.time(), self._now().sequence)]

    def end(self) -> None:
        """Ends the mount."""
        self._let_go()
        if self.mount is not None:
            mount.stop(self.mount)

    def _let_go(self) -> None:
        if self._client is not None:
            self._client.close()
        if self.disk is not None:
            self.disk.close()
        self._client = self.disk = self._listed = None
        self._letters = {}
        self._shared.clear()

    @property
    def control(self) -> str:
        """The control socket of the feed."""
        assert self.mount is not None
        return self.mount.control

    def again(self, ask: Callable[[], Any]) -> Any:
        """Returns what a question comes to; it is asked once more of a mount that was begun
        again."""
        try:
            if self._client is None:
                self.begin()
            return ask()
        except GONE as fault:
            if not self._has_ended():
                raise Fault(f"the mount doesn't answer: {fault}") from None
            self._say(f"{text(self.top)}: {fault}; begun again")
        self.begin()
        try:
            return ask()
        except GONE as fault:
            raise Fault(f"the mount ended again: {fault}") from None

    def _has_ended(self) -> bool:
        """Whether a process of the mount has ended. The last of its sockets ends a moment before
        that can be seen."""
        end = time.monotonic() + ENDING
        while self.mount is not None and self.mount.lives:
            if time.monotonic() > end:
                return False
            time.sleep(0.01)
        return True

    # Questions, which raise one of GONE if the mount has ended.

    def sync(self, milliseconds: int) -> None:
        """Has each answer from now on be of all that is on disk now."""
        if milliseconds == 0:
            return
        assert self.mount is not None
        end = time.monotonic() + milliseconds / 1000
        try:
            generation, number = control.sync(self.mount.control, milliseconds / 1000)
        except control.ControlFault:
            if time.monotonic() >= end and self.mount.lives:
                raise Fault("synchronization failed: Connection timed out") from None
            raise
        if generation != self.mount.generation:
            raise ConnectionLost("the mount began again")
        self.expect(number)
        self._is_synced = True

    def rung(self, place: Place) -> None:
        """Has each answer from now on be of a place that the feed told, if it is this mount's."""
        if self.mount is not None and place[0] == self.mount.generation:
            self.expect(place[1])

    def expect(self, number: int) -> None:
        """Has each answer from now on be of this number or a later one."""
        if number > self._least:
            self._least = number
            self.forget()

    def forget(self) -> None:
        """Has each answer from now on be one that is asked for from now on."""
        self._is_synced = False
        self._shared.clear()

    def now(self) -> Place:
        """Returns where the mount is."""
        return self._waited(self._now)

    def _now(self) -> Position:
        assert self._client is not None
        return self._client.position()

    def _answered(self, ask: Callable[[], Position]) -> Place:
        """Asks for much, once the mount has what is waited for."""
        if self._reached < self._least:
            self.now()
        return self._waited(ask)

    def _waited(self, ask: Callable[[], Position]) -> Place:
        """Asks until the answer is of the number that is waited for."""
        assert self.mount is not None
        wait, end = 0.0001, time.monotonic() + 60
        while True:
            position = ask()
            if position.generation != self.mount.generation:
                raise FrameFault("another mount answers")
            self._reached = position.sequence
            if position.sequence >= self._least:
                if position.sequence > self._least:
                    self.expect(position.sequence)
                if not self._times or self._times[-1][1] != position.sequence:
                    self._times = [*self._times[-MOST_TIMES:], (time.time(), position.sequence)]
                return position.generation, position.sequence
            if time.monotonic() > end:
                raise Fault(
                    f"synchronization failed: the mount is at {position.sequence}, "
                    f"and not at {self._least}"
                )
            if wait > 0.005 and not self.mount.lives:
                raise ConnectionLost("the mount has ended")
            time.sleep(wait)
            wait = min(1.5 * wait, 0.01)

    def changes(self, since: Optional[Place], patterns: Tuple[bytes, ...]) -> Changes:
        """Returns what changed since a place. Who asks the same before `forget` or `expect` is
        given the same."""
        if since is None:
            return Changes(None, self.now())
        assert self.mount is not None
        if self._is_synced and since == (self.mount.generation, self._least):
            return Changes({}, since)
        key = (since, patterns)
        if key not in self._shared:
            self._shared[key] = self._changes(since, patterns)
        return self._shared[key]

    def _changes(self, since: Place, patterns: Tuple[bytes, ...]) -> Changes:
        assert self._client is not None
        client, marks = self._client, {}

        def ask() -> Position:
            nonlocal marks
            told = client.since(Position(*since), patterns)
            marks = {path: mark for mark, path in told.marked}
            for prefix in told.prefixes:
                # No feed of this front tells any; then each file below may have changed.
                marks.update((path, Mark.CHANGED) for path in client.below(prefix, patterns).paths)
                self._listed = None
            return told.position

        try:
            place = self._answered(ask)
        except (PositionRefused, TooLarge):
            return Changes(None, self.now())
        return Changes(marks, place)

    def everything(self, patterns: Tuple[bytes, ...]) -> Tuple[Letters, Place]:
        """Returns all files, at a place or after it, with the kinds that are known of them."""
        if patterns:
            paths, place, _ = self._list(patterns)
            return dict.fromkeys(paths), place
        changes = self.changes(self._listed, ())
        if self._listed is None or changes.marks is None or Mark.ROOT in changes.marks.values():
            paths, place, is_whole = self._list(())
            self._letters, self._listed = dict.fromkeys(paths), place if is_whole else None
            return self._letters, place
        for path, mark in changes.marks.items():
            if mark is Mark.REMOVED:
                self._letters.pop(path, None)
            elif mark is Mark.CREATED or path in self._letters:
                self._letters[path] = None
        self._listed = changes.place
        return self._letters, changes.place

    def _list(self, patterns: Tuple[bytes, ...]) -> Tuple[List[bytes], Place, bool]:
        """Returns all files, at a place or after it, and whether they are those of the place."""
        assert self._client is not None
        client, paths = self._client, []  # type: Client, List[bytes]

        def ask() -> Position:
            nonlocal paths
            told = client.basis(patterns)
            paths = told.paths
            return told.position

        try:
            place = self._answered(ask)
        except TooLarge:
            place = self.now()
            return sorted(self._in_pieces(b"", patterns)), place, False
        return paths, place, True

    def _in_pieces(self, folder: bytes, patterns: Tuple[bytes, ...]) -> Iterator[bytes]:
        """Yields the files below a directory, where they don't fit into one answer; what changes
        meanwhile is told later."""
        assert self._client is not None
        above = folder + b"/" if folder else b""
        if not patterns:
            yield from self._client.basis((literal(above) + b"*",)).paths
        folders = []
        with contextlib.suppress(OSError), os.scandir(os.path.join(self.top, folder)) as entries:
            folders = [
                above + os.fsencode(entry.name)
                for entry in entries
                if entry.is_dir(follow_symlinks=False)
            ]
        for below in folders:
            try:
                yield from self._client.below(below, patterns).paths
            except TooLarge:
                yield from self._in_pieces(below, patterns)

    def place_at(self, seconds: int) -> Place:
        """Returns a place that the mount had before a time, or the first one that is known."""
        assert self.mount is not None
        at = bisect.bisect_left(self._times, (float(seconds), 0)) - 1
        return self.mount.generation, self._times[at][1] if at >= 0 else 0


def config_of(top: bytes) -> Dict[str, Any]:
    """Returns what .watchmanconfig says; Fault if it can't be read."""
    try:
        with open(os.path.join(top, b".watchmanconfig"), "rb") as file:
            written = file.read()
        config = json.loads(written) if written.strip() else {}
    except OSError:
        return {}
    except ValueError as error:
        raise Fault(f"failed to parse json from {text(top)}/.watchmanconfig: {error}") from None
    return config if isinstance(config, dict) else {}
