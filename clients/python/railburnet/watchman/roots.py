"""Watched roots: a mount each, and who is told of what changes there."""
from __future__ import annotations

import asyncio
import concurrent.futures
from typing import Any, Callable, Dict, FrozenSet, List, Optional, Tuple, TypeVar

from ..control import short_name
from . import clocks
from .clocks import Place
from .faults import Fault, text
from .mounted import Mounted
from .query import ignored_of
from .subscriptions import Message, Subscription
from .triggers import Trigger

Result = TypeVar("Result")
PAUSE = 1.0
"""How many seconds to wait before a mount that can't begin is tried again."""


class Root:
    """A watched directory. What waits for its mount runs in a thread of its own, one after the
    other."""

    def __init__(self, top: bytes, say: Callable[[str], None]) -> None:
        self.top, self._say = top, say
        self.mounted = Mounted(top, say)
        self.ignored: Tuple[bytes, ...] = ignored_of(self.mounted.config)
        self.cursors: Dict[str, Place] = {}
        self.subscriptions: List[Subscription] = []
        self.triggers: Dict[str, Trigger] = {}
        self.states: Dict[str, object] = {}
        """Of each state that is asserted the client that did."""
        self._thread = concurrent.futures.ThreadPoolExecutor(1, thread_name_prefix="root")
        self._turn = asyncio.Lock()
        self._follows: Optional["asyncio.Task[None]"] = None

    async def ask(self, question: Callable[[], Result]) -> Result:
        """Returns what a question to the mount comes to, also if the mount has to be begun again
        for it."""

        def asked() -> Result:
            self.mounted.forget()
            return self.mounted.again(question)  # type: ignore[no-any-return]

        return await asyncio.get_running_loop().run_in_executor(self._thread, asked)

    async def end(self) -> None:
        """Ends the mount, and all that was told of it."""
        for subscription in self.subscriptions:
            subscription.send(subscription.message(self.top, canceled=True))
        self.subscriptions, self.triggers = [], {}
        if self._follows is not None:
            self._follows.cancel()
        await asyncio.get_running_loop().run_in_executor(self._thread, self.mounted.end)
        self._thread.shutdown(wait=False)

    def clock(self, place: Place) -> str:
        """Returns the clock of a place."""
        return clocks.clock_of(self.top, place)

    @property
    def asserted(self) -> FrozenSet[str]:
        """The states that are asserted."""
        return frozenset(self.states)

    # Who is told.

    def follow(self) -> None:
        """Has the mount's feed say when something changed, as long as somebody wants to know."""
        if self._follows is None or self._follows.done():
            self._follows = asyncio.get_running_loop().create_task(self._follow())

    async def _follow(self) -> None:
        while self.subscriptions or self.triggers:
            try:
                await self._ring()
            except (OSError, ValueError, Fault) as fault:
                self._say(f"{text(self.top)}: {fault}")
                await asyncio.sleep(0 if await self._begin_again() else PAUSE)

    async def _begin_again(self) -> bool:
        """Has the mount begun again if it has ended, and says whether it is there."""
        try:
            await self.ask(self.mounted.now)
        except Fault as fault:
            self._say(str(fault))
            return False
        return True

    async def _ring(self) -> None:
        """Pushes what changed each time that the feed says so, until the feed ends."""
        with short_name(self.mounted.control) as name:
            reader, writer = await asyncio.open_unix_connection(name)
        try:
            writer.write(b"bell\n")
            while self.subscriptions or self.triggers:
                line = await reader.readline()
                words = line.split()
                if len(words) != 3 or words[0] != b"at":
                    raise OSError("the feed of the mount has ended")
                await self.push((int(words[1]), int(words[2])))
        finally:
            writer.close()

    async def push(
        self, rung: Optional[Place] = None, of: Optional[Callable[[Subscription], bool]] = None
    ) -> None:
        """Tells everybody, or some of the subscriptions alone, what changed up to now, or to a
        place that the feed told."""
        asserted = self.asserted

        def told() -> (
            Tuple[List[Tuple[Subscription, Optional[Message]]], List[Tuple[Trigger, Any]]]
        ):
            if rung is not None:
                self.mounted.rung(rung)
            now = self.mounted.now()
            chosen = [one for one in self.subscriptions if of is None or of(one)]
            messages = [(one, one.next(self.mounted, now, asserted)) for one in chosen]
            triggers = (
                [] if of is not None else [(one, one.next(now)) for one in self.triggers.values()]
            )
            return messages, triggers

        async with self._turn:
            messages, runs = await self.ask(told)
            for subscription, message in messages:
                if message is not None and subscription in self.subscriptions:
                    subscription.send(message)
            for trigger, run in runs:
                if run is not None:
                    trigger.runs = asyncio.get_running_loop().create_task(self._run(trigger, run))

    async def _run(self, trigger: Trigger, run: Any) -> None:
        """Runs the command of a trigger, and then tells it what changed meanwhile."""
        try:
            await trigger.run(run)
        except OSError as error:
            self._say(f"trigger {trigger.name}: {error}")
        trigger.runs = None
        if self.triggers.get(trigger.name) is trigger:
            await self.push()

    async def begin(self, subscription: Subscription) -> None:
        """Sends the first message of a subscription."""
        async with self._turn:
            if subscription in self.subscriptions:
                message = await self.ask(lambda: subscription.begin(self.mounted, self.cursors))
                if message is not None:
                    subscription.send(message)
        self.follow()

    # States.

    async def enter(self, name: str, owner: object, metadata: Any, wait: int) -> Place:
        """Asserts a state of a client, and tells the others."""
        if name in self.states:
            raise Fault(f"state {name} is already asserted")
        place = await self._synced(wait)
        await self.push()
        self.states[name] = owner
        self._tell(place, metadata, **{"state-enter": name})
        return place

    async def leave(self, name: str, owner: object, metadata: Any, wait: int) -> Place:
        """Ends a state of a client, and tells the others, and what they didn't want to hear
        meanwhile."""
        if name not in self.states:
            raise Fault(f"state {name} is not asserted")
        if self.states[name] is not owner:
            raise Fault(f"state {name} was not asserted by this session")
        place = await self._synced(wait)
        await self._left(name, place, metadata)
        return place

    async def abandon(self, owner: object) -> None:
        """Ends the states and the subscriptions of a client that is gone."""
        self.subscriptions = [one for one in self.subscriptions if one.owner is not owner]
        for name in [name for name, one in self.states.items() if one is owner]:
            await self._left(name, await self.ask(self.mounted.now), None, abandoned=True)

    async def _left(self, name: str, place: Place, metadata: Any, **more: Any) -> None:
        # Those that drop what changed in the state let it go now, before it ends.
        asserted = self.asserted
        await self.push(of=lambda one: one.drops(asserted))
        self.states.pop(name, None)
        self._tell(place, metadata, **{"state-leave": name}, **more)
        await self.push()

    async def _synced(self, wait: int) -> Place:
        def synced() -> Place:
            self.mounted.sync(wait)
            return self.mounted.now()

        return await self.ask(synced)

    def _tell(self, place: Place, metadata: Any, **more: Any) -> None:
        if metadata is not None:
            more["metadata"] = metadata
        for subscription in self.subscriptions:
            subscription.send(subscription.message(self.top, clock=self.clock(place), **more))
