"""The control socket: who asks there learns when the mount has all that the directory holds."""
from __future__ import annotations

import contextlib
import errno
import os
import select
import socket
import stat
from typing import Callable, Dict, List

from ..control import short_name
from .model import Failure

MOST_PEERS = 200
MOST_LINE = 256


class Peer:
    """One connection to the control socket."""

    def __init__(self, stream: socket.socket) -> None:
        self.stream = stream
        self.read = bytearray()
        self.unsent = bytearray()
        self.waits = False
        """Whether it has asked for a sync that isn't answered yet."""
        self.bell = False
        self.owed = False
        """Whether something was told while it took no more."""
        self.ended = False
        """Whether it asks nothing more."""

    @property
    def is_done(self) -> bool:
        """Whether it gets nothing more."""
        return self.ended and not (self.waits or self.bell or self.unsent)


class Control:
    """The control socket and its connections, none of which is ever waited for."""

    def __init__(self, path: str, poll: select.poll, place: Callable[[], str],
                 status: Callable[[], str]) -> None:
        self._path, self._poll, self._place, self._status = path, poll, place, status
        self._peers: Dict[int, Peer] = {}
        self._listener = _bound(path)
        self._inode = os.lstat(path).st_ino
        self._listens = False
        self._listen(True)

    @property
    def asked(self) -> bool:
        """Whether a sync is to be answered."""
        return any(peer.waits for peer in self._peers.values())

    def take(self, file: int, event: int) -> None:
        """Takes an event of the poll, if it is of this socket or of one of its connections."""
        if file == self._listener.fileno():
            self._accept()
        elif file in self._peers:
            peer = self._peers[file]
            if event & (select.POLLHUP | select.POLLERR):
                self._drop(peer)
            elif event & select.POLLOUT:
                self._send(peer, b"")
                self._read_on(peer)
            else:
                self._receive(peer)

    def answer(self) -> None:
        """Answers each sync with the present place, which has to have what it asked about."""
        for peer in list(self._peers.values()):
            if peer.waits:
                peer.waits = False
                self._send(peer, self._place().encode())
                self._read_on(peer)

    def ring(self) -> None:
        """Tells each bell the present place."""
        for peer in list(self._peers.values()):
            if peer.bell and not peer.waits:
                if peer.unsent:
                    # It has the newest place once it takes what was sent before.
                    peer.owed = True
                else:
                    self._send(peer, self._place().encode())

    def close(self) -> None:
        """Ends the socket, and takes its name away if it is still this one's."""
        for peer in list(self._peers.values()):
            self._drop(peer)
        self._listener.close()
        with contextlib.suppress(OSError):
            if os.lstat(self._path).st_ino == self._inode:
                os.unlink(self._path)

    def _listen(self, listens: bool) -> None:
        """Takes more connections, or lets them wait in the system's queue."""
        if listens and not self._listens:
            self._poll.register(self._listener.fileno(), select.POLLIN)
        elif self._listens and not listens:
            self._poll.unregister(self._listener.fileno())
        self._listens = listens

    def _accept(self) -> None:
        try:
            stream, _ = self._listener.accept()
        except OSError as error:
            # With no descriptor left it would be ready again at once.
            self._listen(error.errno not in (errno.EMFILE, errno.ENFILE) or not self._peers)
            return
        stream.setblocking(False)
        self._peers[stream.fileno()] = Peer(stream)
        self._poll.register(stream.fileno(), select.POLLIN)
        self._listen(len(self._peers) < MOST_PEERS)

    def _drop(self, peer: Peer) -> None:
        self._poll.unregister(peer.stream.fileno())
        del self._peers[peer.stream.fileno()]
        peer.stream.close()
        self._listen(True)

    def _receive(self, peer: Peer) -> None:
        """Reads what a peer asks."""
        try:
            data = peer.stream.recv(4096)
        except BlockingIOError:
            return
        except OSError:
            self._drop(peer)
            return
        peer.ended = not data
        peer.read += data
        self._read_on(peer)

    def _read_on(self, peer: Peer) -> None:
        """Takes the requests that a peer has sent, up to one that is answered later."""
        while not peer.waits and b"\n" in peer.read and len(peer.unsent) <= MOST_LINE:
            line, _, peer.read = peer.read.partition(b"\n")
            self._request(peer, bytes(line))
        if len(peer.read) > MOST_LINE and b"\n" not in peer.read:
            peer.read.clear()
            self._send(peer, b"error unknown request\n")
        self._watch(peer)

    def _request(self, peer: Peer, word: bytes) -> None:
        if word == b"status":
            self._send(peer, self._status().encode())
        elif word in (b"sync", b"bell"):
            peer.waits = True
            peer.bell = peer.bell or word == b"bell"
        else:
            self._send(peer, b"error unknown request\n")

    def _send(self, peer: Peer, data: bytes) -> None:
        """Sends as much as the peer takes, and keeps the rest."""
        peer.unsent += data
        with contextlib.suppress(OSError):
            while (peer.unsent or peer.owed) and peer.stream.fileno() >= 0:
                if not peer.unsent:
                    peer.owed = False
                    peer.unsent += self._place().encode()
                del peer.unsent[: peer.stream.send(peer.unsent)]
        self._watch(peer)

    def _watch(self, peer: Peer) -> None:
        """Waits until a peer takes what is unsent; else for what it asks, if all was answered."""
        if self._peers.get(peer.stream.fileno()) is not peer:
            return
        if peer.is_done:
            self._drop(peer)
        else:
            more = not peer.ended and len(peer.read) <= MOST_LINE
            wanted = select.POLLOUT if peer.unsent else select.POLLIN if more else 0
            self._poll.modify(peer.stream.fileno(), wanted)


def _bound(path: str) -> socket.socket:
    """Returns a socket that listens at a path, which nobody but its owner may ever connect to."""
    listener = socket.socket(socket.AF_UNIX, socket.SOCK_STREAM)
    try:
        with short_name(path) as name:
            _clear(name, path)
            before = os.umask(0o177)
            try:
                listener.bind(name)
            finally:
                os.umask(before)
        listener.listen(MOST_PEERS)
        listener.setblocking(False)
    except OSError as error:
        listener.close()
        raise Failure(f"the control socket {path}: {error.strerror or error}") from None
    return listener


def _clear(name: str, path: str) -> None:
    """Takes away a socket that a feed has left behind."""
    with socket.socket(socket.AF_UNIX, socket.SOCK_STREAM) as peer:
        try:
            peer.connect(name)
        except ConnectionRefusedError:
            if not stat.S_ISSOCK(os.lstat(name).st_mode):
                fault = "there is a file that is no socket"
                raise Failure(f"the control socket {path}: {fault}") from None
            os.unlink(name)
        except FileNotFoundError:
            pass
        else:
            raise Failure(f"the control socket {path}: another feed answers there")
