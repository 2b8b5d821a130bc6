"""Connections to a mount, and the questions that a client asks over them."""
from __future__ import annotations

import errno
import math
import os
import selectors
import socket
import time
from typing import (
    TYPE_CHECKING,
    Callable,
    Dict,
    Iterable,
    Iterator,
    List,
    Optional,
    Sequence,
    Tuple,
    Union,
)

from . import control as controls
from .frames import (
    MOST_NUMBER,
    Attributes,
    AttributesAre,
    Basis,
    BasisIs,
    Below,
    Cause,
    ChangesAre,
    ConnectionLost,
    ContentIs,
    Fetch,
    FrameFault,
    FrameReader,
    ListIs,
    Mark,
    Poll,
    Position,
    PositionRefused,
    Query,
    Refused,
    Reply,
    Request,
    Stat,
    StatIs,
    Status,
    StatusIs,
    TooLarge,
    decode_reply,
    drop_own,
    encode_request,
    lies_below,
    parted,
)
from .mirror import Mirror, Outcome
from .place import Place, text_of

if TYPE_CHECKING:
    # Few change a mount, and it takes a while.
    from .doing import Answer, Change, Do, Done

SILENT = 5.0
"""After how many seconds without an answer somebody is told."""
MOST_PATIENCE = 60.0
"""For how many seconds a mount waits at most for a change."""
ENDED = (errno.ECONNRESET, errno.EPIPE)
"""The system's numbers for a connection that its peer ended."""
MOST_CUT = 2
"""After how many connections in a row that end at a patient request no more are tried."""
UNSURE = "the change may have been made, unless the mount is too old for changes"
"""What a lost connection leaves open."""


class Connection:
    """One connection to a mount. `silent` is called whenever nothing came for some seconds."""

    def __init__(
        self,
        place: Place,
        host: str = "127.0.0.1",
        timeout: float = 30.0,
        silent: Callable[[], None] = lambda: None,
    ) -> None:
        self._timeout, self._silent = timeout, silent
        try:
            self._socket = _connect(place, host, timeout)
        except OSError as error:
            where = f"{host} {text_of(place)}" if isinstance(place, int) else text_of(place)
            raise ConnectionLost(
                error.errno, f"no connection to {where}: {error.strerror or error}"
            ) from None
        self._socket.setblocking(False)
        self._selector = selectors.DefaultSelector()
        self._selector.register(self._socket, selectors.EVENT_READ)
        self._reader = FrameReader()

    def close(self) -> None:
        """Ends the connection."""
        self._selector.close()
        self._socket.close()

    def ask_all(self, requests: Iterable[Request], patience: float = 0.0) -> Iterator[Reply]:
        """The replies to requests, in their order, as they come. The mount may wait with each for
        so many seconds, if it is a poll and nothing changed.

        Who doesn't take all replies has to close the connection. ConnectionLost where it ends or
        is silent for too long, FrameFault where a reply can't be read.
        """
        frames = (encode_request(request, math.ceil(patience * 1000)) for request in requests)
        return map(decode_reply, self._bodies(frames, patience))

    def do_all(self, changes: Iterable[Do]) -> Iterator[Answer]:
        """The answers to changes, in their order, as they come: each is asked for once.

        It raises what `ask_all` does. Of those that have no answer then, the first ones may have
        been made; if the mount was silent, all may still be.
        """
        from . import doing

        return map(doing.decode_done, self._bodies(map(doing.encode_do, changes)))

    @property
    def is_open(self) -> bool:
        """Whether the mount has not ended it, as far as is known, while nothing is asked."""
        try:
            self._socket.recv(1, socket.MSG_PEEK)
        except BlockingIOError:
            return True
        except OSError:
            pass
        return False

    def _bodies(self, frames: Iterator[bytes], patience: float = 0.0) -> Iterator[bytes]:
        """The bodies of the replies to frames.

        Frames are sent ahead while replies are read, so two full buffers can't wait for each other.
        """
        unsent, waiting, more = bytearray(), 0, True
        while True:
            while more and len(unsent) < 65_536:
                frame = next(frames, None)
                if frame is None:
                    more = False
                else:
                    unsent += frame
                    waiting += 1
            if waiting == 0:
                return
            del unsent[: self._send(unsent)]
            for body in self._received(bool(unsent), patience):
                waiting -= 1
                yield body

    def _send(self, data: bytearray) -> int:
        """Sends what can be sent at once."""
        try:
            return self._socket.send(data) if data else 0
        except BlockingIOError:
            return 0
        except OSError as error:
            if error.errno in ENDED:
                # What the mount replied before the end is still read, and then the end.
                return len(data)
            raise ConnectionLost(error.errno, f"the connection broke: {error.strerror}") from None

    def _received(self, unsent: bool, patience: float) -> Iterator[bytes]:
        """Waits until something can be read, or sent where there is something to send, and gives
        the bodies that came. It isn't silence that the mount waits so long."""
        self._selector.modify(
            self._socket, selectors.EVENT_READ | (selectors.EVENT_WRITE if unsent else 0)
        )
        events = self._selector.select(patience + min(self._timeout, SILENT))
        if not events and self._timeout > SILENT:
            self._silent()
            events = self._selector.select(self._timeout - SILENT)
        if not events:
            seconds = self._timeout + patience
            raise ConnectionLost(errno.ETIMEDOUT, f"no reply within {seconds:g} seconds")
        if not events[0][1] & selectors.EVENT_READ:
            return
        try:
            data = self._socket.recv(1 << 18)
        except OSError as error:
            raise ConnectionLost(error.errno, f"the connection broke: {error.strerror}") from None
        if not data:
            raise ConnectionLost(errno.ECONNRESET, "the mount ended the connection")
        yield from self._reader.feed(data)


class Client:
    """Questions to a mount, over a connection that is made when it is needed, and anew where it was
    lost.

    At most `connections` are made for one question or one round; then ConnectionLost is raised.
    The place is a port or the path of a Unix socket, or a function that is asked for it before each
    connection. The files that feed keeps for itself below `.git/.railburnet` are in no list.
    `waits` is given a message, once until an answer comes, when the mount is silent.
    """

    def __init__(
        self,
        place: Union[Place, Callable[[], Place]],
        host: str = "127.0.0.1",
        timeout: float = 30.0,
        connections: int = 16,
        waits: Optional[Callable[[str], None]] = None,
    ) -> None:
        self._place = place
        self._host, self._timeout = host, timeout
        self._waits, self._waiting = waits, False
        self._generation = 0
        self._most = connections
        self._connection: Optional[Connection] = None
        self._mirror = int.from_bytes(os.urandom(8), "big")
        self._life = time.time_ns()
        self._number = 0
        self._cut = 0
        self._fault: Exception = ConnectionLost("no connection was made")

    def close(self) -> None:
        """Ends the connection, if there is one."""
        if self._connection is not None:
            self._connection.close()
            self._connection = None

    def __enter__(self) -> Client:
        return self

    def __exit__(self, *_: object) -> None:
        self.close()

    def position(self) -> Position:
        """Returns where the mount is now. Its root is not the mount's, but twenty bytes 00: nothing
        is asked that would report it.

        A poll since the greatest number is refused with the present one, or else with the
        present generation, which is then polled.
        """
        while True:
            reply = self._ask(Poll(self._query(), Position(self._generation, MOST_NUMBER)))
            if isinstance(reply, ChangesAre):
                return Position(reply.position.generation, reply.position.sequence)
            assert isinstance(reply, Refused)
            if reply.cause is Cause.AHEAD:
                return Position(self._generation, reply.value)
            if reply.cause is not Cause.STALE:
                raise PositionRefused(reply)
            self._generation = reply.value

    def sync(self, control: str, timeout: float = 60.0) -> Position:
        """Returns a position at which the mount has all that was on disk before the call. The root
        is that of `position`.

        It asks the feed at its control socket, and waits for the mount. ControlFault if the feed
        doesn't answer, or the mount doesn't come to it.
        """
        end = time.monotonic() + timeout
        wanted = controls.sync(control, timeout)
        for turn in range(1_000_000_000):
            position = self.position()
            if position.generation == wanted[0] and position.sequence >= wanted[1]:
                return position
            if time.monotonic() > end:
                raise controls.ControlFault(
                    f"the mount is at {position.generation} {position.sequence}, and not at "
                    f"{wanted[0]} {wanted[1]} "
                    f"after {timeout:g} seconds"
                )
            if position.generation != wanted[0]:
                # One of the two began again.
                wanted = controls.sync(control, timeout)
            time.sleep(min(0.0005 * turn, 0.02))
        raise AssertionError("a loop that ends with the time")

    def basis(self, patterns: Iterable[bytes] = ()) -> BasisIs:
        """The paths of all files that the patterns admit. TooLarge where they don't fit into a
        frame."""
        reply = self._ask(Basis(self._query(), tuple(patterns)))
        if isinstance(reply, Refused):
            raise TooLarge()
        assert isinstance(reply, BasisIs)
        drop_own(reply.paths)
        return reply

    def since(self, position: Position, patterns: Iterable[bytes] = ()) -> ChangesAre:
        """What changed since a position. PositionRefused where that can't be told, TooLarge
        where it doesn't fit into a frame."""
        return _changes(self._ask(Poll(self._query(), position, tuple(patterns))))

    def wait(
        self, position: Position, patterns: Iterable[bytes] = (), patience: float = 20.0
    ) -> ChangesAre:
        """What changed since a position, as soon as something did, or nothing after so many
        seconds, at most 60. It raises what `since` does.

        A mount that can't wait answers at once, as `since` does: one that keeps an audit, and an
        older one, which ends the connection first.
        """
        poll = Poll(self._query(), position, tuple(patterns))
        patience = min(patience, MOST_PATIENCE)
        if self._cut < MOST_CUT:
            try:
                reply = self._reply(poll, patience)
                self._cut = 0
                return _changes(reply)
            except (ConnectionLost, FrameFault) as fault:
                self._lost(fault)
                self._cut += 1
        return _changes(self._ask(poll))

    def fetch(self, path: bytes) -> ContentIs:
        """What stands at a path."""
        reply = self._ask(Fetch(self._query(), path))
        assert isinstance(reply, ContentIs) and reply.path == path
        return reply

    def stat(self, path: bytes) -> StatIs:
        """What stands at a path, without its bytes: its kind, their number and their id.

        ConnectionLost also if the mount is too old for it."""
        reply = self._ask(Stat(self._query(), path))
        assert isinstance(reply, StatIs) and reply.path == path
        return reply

    def below(self, prefix: bytes, patterns: Iterable[bytes] = ()) -> ListIs:
        """The paths of the files below a directory that the patterns admit. TooLarge where they
        don't fit into a frame."""
        reply = self._ask(Below(self._query(), prefix, tuple(patterns)))
        if isinstance(reply, Refused):
            raise TooLarge()
        assert isinstance(reply, ListIs) and reply.prefix == prefix
        drop_own(reply.paths)
        return reply

    def attributes(
        self, patterns: Iterable[bytes] = (), prefix: Optional[bytes] = None
    ) -> AttributesAre:
        """Returns the files that the patterns admit, all or those below a directory: of each its
        path, its kind, the number of its bytes and their id. TooLarge if they don't fit into a
        frame.

        ConnectionLost also if the mount is too old for it."""
        reply = self._ask(Attributes(self._query(), prefix, tuple(patterns)))
        if isinstance(reply, Refused):
            raise TooLarge()
        assert isinstance(reply, AttributesAre) and reply.prefix == prefix
        drop_own([path for path, _ in reply.files], reply.files)
        return reply

    def status(self, patterns: Iterable[bytes] = ()) -> StatusIs:
        """Returns the paths that the patterns admit and that differ from the mount's commit.
        TooLarge if they don't fit into a frame.

        ConnectionLost also if the mount is too old for it."""
        reply = self._ask(Status(self._query(), tuple(patterns)))
        if isinstance(reply, Refused):
            raise TooLarge()
        assert isinstance(reply, StatusIs)
        drop_own([path for _, path in reply.marked], reply.marked)
        return reply

    def do(self, change: Change) -> Done:
        """Makes a change to the mount, and returns the position after it.

        ChangeRefused if the mount refuses it, and NotWritable if it can't be changed over this
        connection. It is asked for once. So if ConnectionLost or FrameFault is raised, it may have
        been made: ask what changed since the position before. ValueError if a part of it is
        invalid, and then nothing is asked.
        """
        from . import doing

        query = self._query()
        connection = self._open()
        try:
            (answer,) = connection.do_all([doing.Do(query, change)])
            if answer.query != query:
                raise FrameFault("a reply to another question")
            self._waiting = False
        except (ConnectionLost, FrameFault) as fault:
            self._lost(fault)
            if isinstance(fault, ConnectionLost):
                raise ConnectionLost(fault.errno, f"{fault.strerror}; {UNSURE}") from None
            raise
        if isinstance(answer, doing.ReadOnly):
            raise doing.NotWritable("the mount can't be changed over this connection")
        if isinstance(answer, doing.NotDone):
            raise doing.ChangeRefused(answer)
        return answer

    def round(self, mirror: Mirror) -> Outcome:
        """One round of a mirror. IGNORED where no reply counted any more, since the mount was
        begun anew meanwhile: begin another."""
        mirror.begin()
        for _ in self._connections(_newer_patterns(mirror.patterns)):
            outcome = self._deliveries(mirror)
            while outcome is Outcome.TAKEN:
                outcome = self._deliveries(mirror)
            if outcome is not None:
                return outcome
        raise AssertionError("connections end by an exception")

    def _deliveries(self, mirror: Mirror) -> Optional[Outcome]:
        """Sends what is outstanding and delivers the replies: the last outcome that isn't
        IGNORED, or None where the connection was lost."""
        last = Outcome.IGNORED
        try:
            for reply in self._connected().ask_all(mirror.outstanding()):
                self._waiting = False
                outcome = mirror.deliver(reply)
                last = last if outcome is Outcome.IGNORED else outcome
        except (ConnectionLost, FrameFault) as fault:
            self._lost(fault)
            return None
        return last

    def _ask(self, request: Request) -> Reply:
        for _ in self._connections(_newer(request)):
            try:
                return self._reply(request)
            except (ConnectionLost, FrameFault) as fault:
                self._lost(fault)
                # What comes next may be another mount, which can wait.
                self._cut = 0
        raise AssertionError("connections end by an exception")

    def _reply(self, request: Request, patience: float = 0.0) -> Reply:
        """Asks once, over the connection that there is or a new one."""
        for reply in self._connected().ask_all([request], patience):
            if reply.query == request.query:
                self._waiting = False
                return reply
        raise FrameFault("a reply to another question")

    def _query(self) -> Query:
        self._number += 1
        return Query(self._mirror, self._life, self._number)

    def _connections(self, newer: str = "") -> Iterator[int]:
        """A turn for each connection that may be made; then the last fault is raised. If the mount
        ended the connection soon and was asked what is newer, its message says that this may be why.
        """
        begun = 0.0
        for turn in range(self._most):
            if turn:
                time.sleep(min(0.01 * turn, 0.1))
            begun = time.monotonic()
            yield turn
        fault = self._fault
        if isinstance(fault, ConnectionLost) and fault.errno in ENDED and newer:
            # A mount that has no place for a connection ends it too, but later.
            if time.monotonic() - begun < SILENT:
                why = f"the mount may be too old for {newer}"
                fault = ConnectionLost(fault.errno, f"{fault.strerror} ({why})")
        raise fault

    def _open(self) -> Connection:
        """Returns a connection that the mount has not ended, before anything is sent over it."""
        if self._connection is not None and not self._connection.is_open:
            self.close()
        for _ in self._connections():
            try:
                return self._connected()
            except ConnectionLost as fault:
                self._lost(fault)
        raise AssertionError("connections end by an exception")

    def _connected(self) -> Connection:
        if self._connection is None:
            self._connection = self._connect()
        return self._connection

    def _connect(self) -> Connection:
        place = self._place() if callable(self._place) else self._place
        return Connection(place, self._host, self._timeout, lambda: self._silent(place))

    def _silent(self, place: Place) -> None:
        if self._waits is not None and not self._waiting:
            self._waiting = True
            self._waits(
                f"connected to {text_of(place)}, no answer for {SILENT:g} s: "
                "are all connections taken?"
            )

    def _lost(self, fault: Exception) -> None:
        self._fault = fault
        self.close()


def _connect(place: Place, host: str, timeout: float) -> socket.socket:
    """Connects to a port of a machine, or to a socket of this one."""
    if isinstance(place, int):
        connected = socket.create_connection((host, place), timeout)
        connected.setsockopt(socket.IPPROTO_TCP, socket.TCP_NODELAY, 1)
        return connected
    connected = socket.socket(socket.AF_UNIX)
    try:
        connected.settimeout(timeout)
        connected.connect(place)
    except BaseException:
        connected.close()
        raise
    return connected


def _newer(request: Request) -> str:
    """Returns what a request has that the first mounts of version 2 end the connection at."""
    if isinstance(request, Stat):
        return "stat"
    if isinstance(request, (Attributes, Status)):
        return "attributes" if isinstance(request, Attributes) else "status"
    if isinstance(request, Fetch):
        return ""
    return _newer_patterns(request.patterns)


def _newer_patterns(patterns: Sequence[bytes]) -> str:
    return "patterns with `!`" if parted(patterns)[1] else ""


def _changes(reply: Reply) -> ChangesAre:
    """Returns the reply to a poll without feed's own files, or raises why it is refused."""
    if isinstance(reply, Refused):
        raise TooLarge() if reply.cause is Cause.TOO_LARGE else PositionRefused(reply)
    assert isinstance(reply, ChangesAre)
    drop_own([path for _, path in reply.marked], reply.marked)
    return reply


class Changes:
    """Which paths changed, poll by poll; no contents."""

    def __init__(self, client: Client, patterns: Iterable[bytes] = ()) -> None:
        self._client, self._patterns = client, tuple(patterns)
        self._known: Dict[bytes, None] = {}
        self.position: Optional[Position] = None
        self.refused: Optional[str] = None

    def next(self, patience: float = 0.0) -> List[Tuple[Optional[Mark], bytes]]:
        """What changed since the last call; the first call gives all files that there are, without
        marks. Any other waits for a change for so many seconds, as `Client.wait` does.

        Where files were moved from one directory to another, every path below these that there
        was or is may have changed, and is given without a mark unless it has one. Where the
        mount can't tell what changed, so is every path; `refused` says why until the next call.
        """
        self.refused = None
        if self.position is not None:
            try:
                reply = self._since(self.position, patience)
                below = [path for prefix in reply.prefixes for path in self._below(prefix)]
            except (PositionRefused, TooLarge) as refusal:
                self.refused, self.position = str(refusal) or "TOO_LARGE", None
            else:
                self.position = reply.position
                marks: Dict[bytes, Optional[Mark]] = {
                    **dict.fromkeys(below),
                    **{path: mark for mark, path in reply.marked},
                }
                self._known.update(dict.fromkeys(marks))
                return [(marks[path], path) for path in sorted(marks)]
        basis = self._client.basis(self._patterns)
        self.position = basis.position
        before, self._known = self._known, dict.fromkeys(basis.paths)
        return [(None, path) for path in sorted({*before, *basis.paths})]

    def _since(self, position: Position, patience: float) -> ChangesAre:
        if patience > 0:
            return self._client.wait(position, self._patterns, patience)
        return self._client.since(position, self._patterns)

    def _below(self, prefix: bytes) -> List[bytes]:
        """The paths below a directory that there were or are."""
        return [
            *(path for path in self._known if lies_below(path, prefix)),
            *self._client.below(prefix, self._patterns).paths,
        ]
