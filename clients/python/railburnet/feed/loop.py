"""When to look at a directory, and where; and who is answered."""
from __future__ import annotations

import json
import os
import select
import sys
import time
from typing import Callable, Optional, Set

from .control import Control
from .feeder import Feeder
from .inotify import Inotify
from .lines import Lines
from .model import NoNotices, shown, tell

MOST_WAIT_FOR_GIT = 60.0
SAID_WAIT_FOR_GIT = 2.0
MOST_CATCHING_UP = 1.5
MANY = 100
"""From how many paths on these are looked at before all has settled, if no file is read for it."""


class Lock:
    """Git's lock on its index: while it is there git works, unless it was left behind."""

    def __init__(self, path: bytes) -> None:
        self._path = path
        self._known: object = None
        self._since = 0.0
        self._said = False

    def holds(self) -> bool:
        """Whether git works, and is to be waited for: a minute for one lock, and only once."""
        try:
            status = os.lstat(self._path)
            known: object = (status.st_ino, status.st_ctime_ns)
        except OSError:
            known = None
        now = time.monotonic()
        if known != self._known:
            self._known, self._since, self._said = known, now, False
        if known is None:
            return False
        if now - self._since > SAID_WAIT_FOR_GIT and not self._said:
            self._said = True
            tell(f"waiting for git, whose lock {shown(self._path)} is there; "
                 f"for {MOST_WAIT_FOR_GIT:g} seconds at the most")
        return now - self._since < MOST_WAIT_FOR_GIT

    @property
    def waits(self) -> Optional[float]:
        """For how many seconds it has been waited for; None if it isn't."""
        waits = time.monotonic() - self._since
        return None if self._known is None or waits >= MOST_WAIT_FOR_GIT else round(waits, 3)


class Loop:
    """Looks at the directory when something has happened there and settled, and answers who asks.

    A sync is answered after a turn that began after it was asked. The kernel queues a notice within
    the call that makes the change. So a turn over all that is in the queue tells all that was on
    disk when the sync was asked, and no file is written for that. It waits neither until DIR has
    settled nor for git's lock, since git holds that while it runs a hook that may ask.
    """

    def __init__(self, feeder: Feeder, lines: Lines, watches: Optional[Inotify], lock: Lock,
                 settle: float, every: float, go_over: Callable[[], Set[bytes]],
                 every_head: Optional[float]) -> None:
        self._feeder, self._lines, self._watches, self._lock = feeder, lines, watches, lock
        self._settle, self._every = settle, every
        self._go_over, self._every_head = go_over, every_head
        self._control: Optional[Control] = None
        self._following = False
        self._paths: Set[bytes] = set()
        self._everything = False
        self._first = self._quiet = time.monotonic()
        """When the first of what is to be looked at came, and until when nothing more may come."""
        self._served = 0.0
        self._rung = lines.number
        """The number at which the bells rang last."""
        self._poll = select.poll()
        # No event is asked for: it tells when nobody reads any more.
        self._poll.register(sys.stdout.fileno(), 0)
        if watches is not None:
            self._poll.register(watches.file, select.POLLIN)
        feeder.meanwhile = lines.meanwhile = self._serve_meanwhile

    def listen(self, path: str, status: Callable[[], "dict[str, object]"]) -> None:
        """Makes the control socket."""
        lines = self._lines
        self._control = Control(path, self._poll, lambda: f"at {lines.generation} {lines.number}\n",
                                lambda: json.dumps({**status(), **self._status()}) + "\n")

    def close(self) -> None:
        """Ends the control socket."""
        if self._control is not None:
            self._control.close()

    def look_first(self) -> None:
        """Tells what differs now."""
        self._look(None)

    def serve(self) -> None:
        """Has edend serve the mount, and tells it what could not be told before."""
        self._lines.listen()
        if self._feeder.again and self._lines.writes_all:
            self._look(set(self._feeder.again))

    def follow(self) -> None:
        """Tells what happens, for good."""
        self._following, self._rung = True, self._lines.number
        self._first = self._quiet = time.monotonic()
        while True:
            self._wait(self._seconds())
            self._gather()
            if self._control is not None and self._control.asked:
                self._catch_up()
                self._control.answer()
            elif self._is_due() and not self._waits_for_git():
                self._turn()
            elif len(self._paths) >= MANY and not self._feeder.reads and not self._lock.holds():
                # So little is left to do when a sync is asked. No bell rings before all settles.
                self._look_around()

    def _status(self) -> "dict[str, object]":
        waits = self._lock.waits if self._is_behind else None
        return {"following": self._following, "generation": self._lines.generation,
                "number": self._lines.number, "waits_for_lock": waits}

    # What comes.

    def _wait(self, seconds: Optional[float]) -> None:
        """Waits for notices and requests, and takes the requests."""
        for file, event in self._poll.poll(None if seconds is None else max(0.0, seconds) * 1000):
            if file == sys.stdout.fileno():
                raise BrokenPipeError
            if self._control is not None:
                self._control.take(file, event)

    def _serve_meanwhile(self) -> None:
        """Takes requests while a turn takes long."""
        now = time.monotonic()
        if now - self._served > 0.05:
            self._served = now
            self._wait(0)

    def _gather(self) -> None:
        """Takes all notices that there are."""
        if self._watches is None:
            return
        paths, lost = self._watches.read()
        if not paths and not lost:
            return
        now = time.monotonic()
        if not self._is_behind:
            self._first = now
        self._quiet = now + self._settle
        self._paths |= paths
        if lost:
            self._everything = True
            tell("the system lost some notices: looking at everything again")

    # When to look.

    @property
    def _is_behind(self) -> bool:
        """Whether there is something to look at, or bells have to ring."""
        return bool(self._paths) or self._everything or self._lines.number > self._rung

    def _due(self) -> Optional[float]:
        """When to look next, if nothing more comes."""
        if self._is_behind:
            return min(self._quiet, self._first + 10 * self._settle)
        if self._watches is None:
            return self._first + self._every
        due = [self._first + 0.1] if self._feeder.again else []
        # Nothing tells of another commit, so it is looked for now and then.
        due += [self._first + self._every_head] if self._every_head is not None else []
        return min(due, default=None)

    def _seconds(self) -> Optional[float]:
        """For how long there is nothing to do; a sync may have come while a turn took long."""
        if self._control is not None and self._control.asked:
            return 0.0
        due = self._due()
        return None if due is None else due - time.monotonic()

    def _is_due(self) -> bool:
        due = self._due()
        return due is not None and due <= time.monotonic()

    def _waits_for_git(self) -> bool:
        """Whether git works; then it looks once that has ended and settled."""
        if not self._lock.holds():
            return False
        self._first = time.monotonic()
        self._quiet = self._first + max(self._settle, 0.02)
        self._everything = self._everything or self._watches is None
        return True

    # Looking.

    def _catch_up(self) -> None:
        """Tells all that was on disk before now; a file that never rests, as it was read
        meanwhile."""
        end = time.monotonic() + MOST_CATCHING_UP
        while True:
            self._turn()
            self._gather()
            if not self._feeder.again and not self._everything or time.monotonic() > end:
                return
            time.sleep(0.005)

    def _turn(self) -> None:
        """Looks at what is to be looked at, and rings the bells if something was told."""
        self._look_around()
        self._first = self._quiet = time.monotonic()
        if self._lines.number > self._rung:
            self._rung = self._lines.number
            if self._control is not None:
                self._control.ring()

    def _look_around(self) -> None:
        """Looks at what is to be looked at."""
        look = self._go_over()
        everything = self._everything or self._watches is None
        paths = self._paths | look | self._feeder.again.keys()
        self._paths, self._everything = set(), False
        if everything or paths:
            self._look(None if everything else paths)
        self._lines.flush()

    def _look(self, paths: Optional[Set[bytes]]) -> None:
        """Has a turn, and does without notices if the system can't watch all directories."""
        try:
            self._feeder.turn(paths)
        except NoNotices as failure:
            tell(f"{failure}; looking at everything every {self._every:g} seconds")
            self._feeder.unwatch()
            if self._watches is not None:
                self._poll.unregister(self._watches.file)
            self._watches = None
            self._feeder.turn(None)
