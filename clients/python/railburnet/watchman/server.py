"""The server: its socket, and which directories are watched."""
from __future__ import annotations

import asyncio
import contextlib
import os
import signal
import socket
import stat
from typing import Callable, Dict, Optional, Set, Tuple

from .. import state
from ..control import short_name
from .faults import Fault, raw, text
from .mounted import FRONT
from .roots import Root
from .session import MOST_LINE, Session

PROJECT_FILES = (".watchmanconfig", ".hg", ".git", ".svn")
"""A directory with one of these is a project."""


class ServerFault(Exception):
    """Why the server can't begin, as a message."""

    status = 3
    """The exit status of the command that it ends."""


class Server:
    """A server of Watchman's protocol."""

    def __init__(self, path: str, say: Callable[[str], None]) -> None:
        self.socket, self.say = path, say
        self.roots: Dict[bytes, Root] = {}
        self._sessions: Set[Session] = set()
        self._beginning: Dict[bytes, "asyncio.Task[Root]"] = {}
        self._stops: Optional["asyncio.Event"] = None

    async def serve(self, began: Callable[[], None]) -> None:
        """Serves until it is told to stop, and then ends all mounts."""
        self._stops = asyncio.Event()
        loop = asyncio.get_running_loop()
        for number in (signal.SIGTERM, signal.SIGINT):
            loop.add_signal_handler(number, self.stop)
        listener = bound(self.socket)
        inode = os.lstat(self.socket).st_ino
        self._adopt()
        server = await asyncio.start_unix_server(self._connected, sock=listener, limit=MOST_LINE)
        try:
            began()
            await self._stops.wait()
        finally:
            server.close()
            with contextlib.suppress(OSError):
                if os.lstat(self.socket).st_ino == inode:
                    os.unlink(self.socket)
            for root in list(self.roots.values()):
                await self.unwatch(root)

    def stop(self) -> None:
        """Has the server end."""
        if self._stops is not None:
            self._stops.set()

    def _adopt(self) -> None:
        """Watches what a server before this one watched, if that was killed: its clocks stay
        good."""
        for mount in state.all_noted():
            if mount.front == FRONT and os.path.isdir(mount.root):
                with contextlib.suppress(Fault):
                    self.roots[mount.root] = Root(mount.root, self.say)

    async def _connected(self, reader: asyncio.StreamReader, writer: asyncio.StreamWriter) -> None:
        await Session(self, reader, writer).run()

    async def leave(self, session: Session) -> None:
        """Ends what a client has that is gone."""
        for root in list(self.roots.values()):
            with contextlib.suppress(Fault):
                await root.abandon(session)

    # Roots.

    async def watch(self, path: object) -> Root:
        """Watches a directory, unless it is watched already."""
        top = _resolved(path, "unable to resolve root {path}: realpath({path}) -> {why}")
        if not os.path.isdir(top):
            raise Fault(
                f'unable to resolve root {text(top)}: path "{text(top)}" must be a directory'
            )
        return await self._watch(top)

    async def _watch(self, top: bytes) -> Root:
        root = self.roots.get(top)
        if root is not None:
            return root
        task = self._beginning.get(top)
        if task is None:
            task = self._beginning[top] = asyncio.get_running_loop().create_task(self._begin(top))
            task.add_done_callback(lambda _: self._beginning.pop(top, None))
        return await asyncio.shield(task)

    async def _begin(self, top: bytes) -> Root:
        root = Root(top, self.say)
        await root.ask(root.mounted.now)
        self.roots[top] = root
        return root

    async def watch_project(self, path: object) -> Tuple[Root, bytes]:
        """Watches the project that a directory is in; returns it with the rest of the path."""
        whole = _resolved(path, "resolve_projpath: path `{path}`: open: {path}: {why}")
        if not os.path.isdir(whole):
            raise Fault(f"resolve_projpath: path `{text(whole)}` is not a directory")
        top = self._project_of(whole)
        return await self._watch(top), whole[len(top) :].lstrip(b"/")

    def _project_of(self, path: bytes) -> bytes:
        watched = [top for top in self.roots if (path + b"/").startswith(top.rstrip(b"/") + b"/")]
        if watched:
            return max(watched, key=len)
        at = path
        while True:
            if any(os.path.lexists(os.path.join(at, os.fsencode(name))) for name in PROJECT_FILES):
                return at
            if at == b"/":
                return path
            at = os.path.dirname(at)

    def root(self, path: object) -> Root:
        """Returns a watched directory."""
        top = _resolved(path, "unable to resolve root {path}: realpath({path}) -> {why}")
        root = self.roots.get(top)
        if root is None:
            raise Fault(f"unable to resolve root {text(top)}: directory {text(top)} is not watched")
        return root

    async def unwatch(self, root: Root) -> None:
        """Ends the watch of a directory, and its mount."""
        if self.roots.get(root.top) is root:
            del self.roots[root.top]
            await root.end()


def _resolved(path: object, fault: str) -> bytes:
    """Returns the real path of what a client has named."""
    if not isinstance(path, str) or not path:
        raise Fault("invalid root path")
    data = raw(path)
    if not os.path.isabs(data):
        raise Fault(f'unable to resolve root {path}: path "{path}" must be absolute')
    if b"\0" in data:
        raise Fault("invalid root path")
    top = os.path.realpath(data)
    try:
        os.stat(top)
    except OSError as error:
        raise Fault(fault.format(path=path, why=error.strerror)) from None
    return top


def bound(path: str) -> socket.socket:
    """Returns a socket that listens at a path, to which nobody but its owner may ever connect."""
    state.make_folder(os.path.dirname(path))
    listener = socket.socket(socket.AF_UNIX, socket.SOCK_STREAM)
    try:
        with short_name(path) as name:
            clear(name, path)
            before = os.umask(0o177)
            try:
                listener.bind(name)
            finally:
                os.umask(before)
        listener.listen(128)
        listener.setblocking(False)
    except OSError as error:
        listener.close()
        raise ServerFault(f"{path}: {error.strerror or error}") from None
    except ServerFault:
        listener.close()
        raise
    return listener


def clear(name: str, path: str) -> None:
    """Takes away a socket, or a link to one, that nobody answers at any more."""
    with socket.socket(socket.AF_UNIX, socket.SOCK_STREAM) as peer:
        try:
            peer.connect(name)
        except (ConnectionRefusedError, FileNotFoundError):
            with contextlib.suppress(FileNotFoundError):
                mode = os.lstat(name).st_mode
                if not (stat.S_ISSOCK(mode) or stat.S_ISLNK(mode)):
                    raise ServerFault(f"{path}: there is a file that is no socket") from None
                os.unlink(name)
        else:
            raise ServerFault(f"{path}: another server answers there")
