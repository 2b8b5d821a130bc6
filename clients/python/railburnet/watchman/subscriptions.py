"""Subscriptions: what of a query changed is pushed to a client each time that something did."""
from __future__ import annotations

from typing import Any, Callable, Dict, FrozenSet, Optional

from . import clocks
from .clocks import Place
from .faults import Fault
from .mounted import Mounted
from .query import Query, place_of

Message = Dict[str, Any]
Send = Callable[[Message], None]


class Subscription:
    """A query of a client, with the place up to which its answers were pushed."""

    def __init__(
        self, owner: object, send: Send, name: str, query: Query, options: Dict[str, Any]
    ) -> None:
        self.owner, self.name, self.query, self.send = owner, name, query, send
        self._defer, self._drop = _states(options, "defer"), _states(options, "drop")
        self._begun = False
        self.at: Optional[Place] = None

    def message(self, top: bytes, **more: Any) -> Message:
        """Returns a message that nobody asked for."""
        return {"unilateral": True, "subscription": self.name, "root": top, **more}

    def begin(self, mounted: Mounted, cursors: Dict[str, Place]) -> Optional[Message]:
        """Returns the first message: what changed since the clock of the subscription, or else all
        files."""
        return self._next(mounted, place_of(mounted, self.query.since, cursors))

    def next(self, mounted: Mounted, now: Place, asserted: FrozenSet[str]) -> Optional[Message]:
        """Returns what changed since the last message; None if nothing did, or the client wants it
        later."""
        if not self._begun or self.at == now or asserted & self._defer:
            return None
        if asserted & self._drop:
            self.at = now
            return None
        return self._next(mounted, self.at)

    def is_held(self, asserted: FrozenSet[str]) -> bool:
        """Whether the client wants nothing now."""
        return bool(asserted & (self._defer | self._drop))

    def drops(self, asserted: FrozenSet[str]) -> bool:
        """Whether the client wants never to hear of what changes now."""
        return bool(asserted & self._drop)

    def _next(self, mounted: Mounted, since: Optional[Place]) -> Optional[Message]:
        answer = self.query.run(mounted, since, self.query.empty_if_fresh)
        # Who knows files has to learn that none of them may be there, also if none is.
        knows = self._begun or self.query.since is not None
        self.at, self._begun = answer.place, True
        if not answer.files.count and not (answer.is_fresh and knows):
            return None
        message = self.message(
            mounted.top,
            clock=clocks.clock_of(mounted.top, answer.place),
            is_fresh_instance=answer.is_fresh,
            files=answer.files,
        )
        if since is not None and not answer.is_fresh:
            message["since"] = clocks.clock_of(mounted.top, since)
        return message


def _states(options: Dict[str, Any], name: str) -> FrozenSet[str]:
    """Reads the names of the states in which a client wants nothing."""
    names = options.get(name, [])
    if not isinstance(names, list) or not all(isinstance(one, str) for one in names):
        raise Fault(f"'{name}' must be an array of strings")
    return frozenset(names)


def state_of(what: object) -> "tuple[str, Optional[int], Any]":
    """Reads which state is entered or left: its name, how long to wait for the mount, and what is
    told with it."""
    if isinstance(what, str):
        return what, None, None
    if not isinstance(what, dict):
        raise Fault("json_ref::get called on a non object type")
    name = what.get("name")
    if not isinstance(name, str):
        raise Fault("key 'name' is not present in this json object")
    wait = what.get("sync_timeout")
    if wait is not None and (isinstance(wait, bool) or not isinstance(wait, int) or wait < 0):
        raise Fault("sync_timeout must be an integer value >= 0")
    return name, wait, what.get("metadata")
