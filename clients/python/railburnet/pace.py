"""When to poll a mount again."""
from __future__ import annotations

import time
from typing import Optional

from .control import SETTLE, Bell, ControlFault
from .options import Target


class Pace:
    """Waits between two polls: for the bell of the feed if it is a mount of this machine, else
    for a time."""

    def __init__(self, target: Target) -> None:
        self._target = target
        self._bell: Optional[Bell] = None
        self._next = 0.0

    def wait(self, seconds: float, most: float = 1.0) -> bool:
        """Waits until something may have changed, and says whether the bell rang. Where no bell
        rings, so many seconds are waited."""
        if self._bell is None and time.monotonic() >= self._next:
            self._next = time.monotonic() + 5.0
            self._bell = self._new_bell()
        if self._bell is None:
            time.sleep(seconds)
            return False
        try:
            return self._bell.wait(most)
        except ControlFault:
            self._bell.close()
            self._bell, self._next = None, 0.0
            time.sleep(min(seconds, 0.1))
            return False

    @property
    def settled(self) -> float:
        """For how many seconds nothing had changed when the mount was told of a change: the feed
        of a mount of this machine waits."""
        return SETTLE if self._target.mount() is not None else 0.0

    def _new_bell(self) -> Optional[Bell]:
        try:
            mount = self._target.mount()
            return None if mount is None else Bell(mount.control)
        except ControlFault:
            return None

    def reached(self, generation: int, number: int) -> bool:
        """Whether a position has all that the bell rang for."""
        at = self._bell.at if self._bell is not None else None
        return at is None or at[0] != generation or at[1] <= number
