"""What is said on standard error of single paths, once each and in no flood."""
from __future__ import annotations

import time
from typing import Dict

from .model import shown, tell

MOST_LINES = 20
WINDOW = 60.0


class Sayings:
    """Why paths are left out: said once each, 20 in a minute, and the others as a count."""

    def __init__(self) -> None:
        self.left_out: Dict[bytes, str] = {}
        """Of each path that is left out now the reason."""
        self._begun, self._said, self._counted, self._held = 0.0, 0, 0, 0

    def say(self, path: bytes, why: str) -> None:
        """Says why a path is left out, unless it was said already."""
        if self.left_out.get(path) == why:
            return
        self.left_out[path] = why
        now = time.monotonic()
        if now - self._begun > WINDOW:
            self._begun, self._said, self._counted, self._held = now, 0, 0, 0
        if self._said < MOST_LINES:
            self._said += 1
            tell(f"{shown(path)}: {why}")
        else:
            self._held += 1

    def end_turn(self) -> None:
        """Says how many paths it kept to itself, if they have doubled since that was said."""
        if self._held >= 2 * self._counted and self._held > self._counted:
            self._counted = self._held
            tell(f"and {self._held:,} more like these in a minute; "
                 f"{len(self.left_out):,} paths are left out now")

    def forget(self, path: bytes) -> None:
        """Notes that a path isn't left out any more."""
        self.left_out.pop(path, None)
