"""A client's connection: requests in JSON by lines, or in BSER, and answers in the form of the last
request."""
from __future__ import annotations

import asyncio
import inspect
import json
from typing import TYPE_CHECKING, Any, Awaitable, Callable, List, Union

from . import bser, commands
from .faults import Fault, raw, text
from .fields import Files
from .subscriptions import Message

if TYPE_CHECKING:
    from .server import Server

VERSION = "4.9.0"
"""The version of Watchman whose commands there are; clients compare it."""
MOST_LINE = 1 << 26


class Session:
    """One connection."""

    def __init__(
        self, server: Server, reader: asyncio.StreamReader, writer: asyncio.StreamWriter
    ) -> None:
        self._server, self._reader, self._writer = server, reader, writer
        self._bser = 0
        """The version of BSER of the last request; 0 if that was JSON."""
        self._capabilities = 0
        self._later: List[Callable[[], Union[None, Awaitable[None]]]] = []

    def after(self, act: Callable[[], Union[None, Awaitable[None]]]) -> None:
        """Has something done once the answer to the present request was sent."""
        self._later.append(act)

    def send(self, message: Message) -> None:
        """Sends a message."""
        if not self._writer.is_closing():
            self._writer.write(
                encoded({"version": VERSION, **message}, self._bser, self._capabilities)
            )

    async def run(self) -> None:
        """Answers requests until the client ends."""
        try:
            while True:
                words = await self._request()
                self._later = []
                try:
                    answer = await commands.carry_out(self._server, self, words)
                except Fault as fault:
                    answer = {"error": raw(str(fault))}
                self.send(answer)
                for act in self._later:
                    done = act()
                    if inspect.isawaitable(done):
                        await done
                await self._writer.drain()
        except (asyncio.IncompleteReadError, ConnectionError, asyncio.LimitOverrunError):
            pass
        except (ValueError, RecursionError) as fault:
            self.send({"error": raw(f"failed to parse request: {fault}")})
        except Fault as fault:
            # What was to be done after an answer.
            self.send({"error": raw(str(fault))})
        finally:
            self._writer.close()
            await self._server.leave(self)

    async def _request(self) -> Any:
        """Reads the next request."""
        first = await self._reader.readexactly(1)
        if first != b"\0":
            self._bser = 0
            return json.loads(
                (first + await self._reader.readline()).decode("utf-8", "surrogateescape")
            )
        begin = first
        head = None
        while head is None:
            begin += await self._reader.readexactly(1)
            head = bser.head(begin)
        body = await self._reader.readexactly(head.size)
        self._bser, self._capabilities = head.version, head.capabilities
        return bser.loads(body)


def encoded(message: Message, version: int, capabilities: int) -> bytes:
    """Returns a message as JSON in a line, or as BSER."""
    if version:
        writer = bser.Writer(version, capabilities)

        def files(value: Any) -> bytes:
            assert isinstance(value, Files)
            return value.as_bser(writer)

        return writer.message(writer.value(message, files))
    parts = [
        b"%b:%b" % (_json(name), value.as_json() if isinstance(value, Files) else _json(value))
        for name, value in message.items()
    ]
    return b"{" + b",".join(parts) + b"}\n"


def _json(value: Any) -> bytes:
    return raw(json.dumps(value, ensure_ascii=False, separators=(",", ":"), default=text))
