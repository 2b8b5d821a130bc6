"""Changes over the mount's socket, each of which is answered."""
from __future__ import annotations

import os
import time
from collections import deque
from typing import Deque, Optional, Tuple

from ..client import SILENT, Connection
from ..doing import (
    Answer,
    Change,
    Checkout,
    Do,
    Done,
    Mode,
    NotDone,
    ReadOnly,
    Remove,
    Rename,
    RenameDir,
    Write,
)
from ..faults import message_of
from ..frames import (
    MOST_NUMBER,
    OWN_PATHS,
    Cause,
    ConnectionLost,
    File,
    FrameFault,
    Kind,
    Poll,
    Position,
    Query,
    Refused,
)
from .lines import Lines
from .model import MOST_LINE, Failure, shown, tell

KINDS = {b"plain": Kind.PLAIN, b"exec": Kind.EXEC, b"link": Kind.LINK}
ANY_TIME = 86_400.0
"""For how many seconds an answer is waited for. If edend ends, so does the connection."""
MOST_ASKED = 1 << 20
"""After how many bytes of changes their answers are waited for."""
NOT_WRITABLE = "edend needs the option --writable"
BESIDE_FILE = 64
"""How many bytes a change has beside those of a file, about."""
MOST_LOST = 3
"""After how many connections in a row that end before an answer no more are tried."""


class Served(Lines):
    """Prints lines up to `listen`, and then asks the mount for each change over its socket.

    So each file that a mount can hold can be written. Changes are asked for in their order, over
    one connection, and answered, so the number is the mount's own, whoever else changes it. If the
    connection ends before an answer, the mount's number says how many changes were made. So none is
    made twice or left out, unless somebody else changes the mount just then.
    """

    writes_all = True

    def __init__(self, generation: int, socket: str) -> None:
        super().__init__(generation)
        self._socket = socket
        self._connection: Optional[Connection] = None
        """The connection, from `listen` on."""
        self._unanswered: Deque[Do] = deque()
        self._size = 0
        """How many bytes what has no answer has, about."""
        self._mirror, self._life = int.from_bytes(os.urandom(8), "big"), time.time_ns()
        self._queries = 0

    def listen(self) -> None:
        """Has edend serve the mount, and waits until it does."""
        super().listen()
        connection, self.number = self._connected()
        # There is no such file, so nothing is renamed.
        nothing = OWN_PATHS + b"/nothing"
        try:
            (answer,) = connection.do_all([Do(self._query(), Rename(nothing, nothing))])
        except ConnectionLost as lost:
            raise self._failure(f"{lost.strerror}; edend may be too old") from None
        if isinstance(answer, ReadOnly):
            raise self._failure(NOT_WRITABLE)
        self._connection = connection

    def defers(self, size: int) -> bool:
        """Whether a file of a size can be written only once the mount is served."""
        return self._connection is None and size > MOST_LINE

    def fits(self, path: bytes, kind: bytes, data: bytes) -> bool:
        """Whether a file can be written now."""
        return self._connection is not None or super().fits(path, kind, data)

    def change(self, *words: bytes) -> None:
        """Changes the mount as a line of such words does."""
        if self._connection is None:
            super().change(*words)
        elif words[0] == b"write":
            _, path, kind, data = words
            self._ask(Write(path, File(KINDS[kind], data)), len(data))
        elif words[0] == b"remove":
            self._ask(Remove(words[1]))
        elif words[0] == b"rename":
            self._ask(Rename(words[1], words[2]))
        else:
            self._ask(RenameDir(words[1], words[2]))

    def check_out(self, commit: str) -> None:
        """Has the mount go to a commit, and change all files that differ from it."""
        if self._connection is None:
            super().check_out(commit)
        else:
            self._ask(Checkout(bytes.fromhex(commit), Mode.FORCE))

    def flush(self) -> None:
        """Has edend make all changes so far."""
        if self._connection is None:
            super().flush()
            return
        lost = 0
        while self._unanswered:
            before = len(self._unanswered)
            try:
                self._deliver(self._connection)
            except (ConnectionLost, FrameFault) as fault:
                self._connection.close()
                self._connection = self._resumed()
                lost = lost + 1 if len(self._unanswered) == before else 0
                if lost == MOST_LOST:
                    raise Failure(f"the mount ends each connection: {fault}") from None
        self._size = 0

    def _ask(self, change: Change, size: int = 0) -> None:
        """Asks for a change, at the latest when all are flushed."""
        self._unanswered.append(Do(self._query(), change))
        self._size += size + BESIDE_FILE
        if self._size > MOST_ASKED:
            self.flush()

    def _deliver(self, connection: Connection) -> None:
        """Sends what has no answer, and takes the answers."""
        for answer in connection.do_all(list(self._unanswered)):
            do = self._unanswered[0]
            if answer.query != do.query:
                raise FrameFault("an answer to another change")
            self._unanswered.popleft()
            self._take(do.change, answer)

    def _take(self, change: Change, answer: Answer) -> None:
        """Takes the answer to a change."""
        if isinstance(answer, Done):
            self.generation, self.number = answer.position.generation, answer.position.sequence
        elif isinstance(answer, NotDone):
            tell(f"`{_shown_change(change)}` was refused: {answer.fault.name}")
        else:
            raise self._failure(NOT_WRITABLE)

    def _resumed(self) -> Connection:
        """Connects again, and goes on after the changes that were made and not answered."""
        connection, number = self._connected()
        made = number - self.number
        if not 0 <= made <= len(self._unanswered):
            raise Failure("others changed the mount while the connection to it was lost")
        for _ in range(made):
            self._unanswered.popleft()
        self.number = number
        return connection

    def _connected(self) -> Tuple[Connection, int]:
        """Returns a new connection, once there can be one, and the number that the mount is at."""
        begun, said = time.monotonic(), False
        while True:
            connection: Optional[Connection] = None
            try:
                connection = Connection(self._socket, timeout=ANY_TIME, silent=_say_silent)
                number = self._number(connection)
                if number is not None:
                    return connection, number
                why = f"another mount is at {self._socket}"
            except (ConnectionLost, FrameFault) as fault:
                why = message_of(fault)
            if connection is not None:
                connection.close()
            if not said and time.monotonic() - begun > SILENT:
                said = True
                tell(f"waiting for edend: {why}")
            # This ends the program if edend has ended.
            self.meanwhile()
            time.sleep(0.01)

    def _number(self, connection: Connection) -> Optional[int]:
        """Returns the number of the mount; None if another mount answers."""
        poll = Poll(self._query(), Position(self.generation, MOST_NUMBER))
        (reply,) = connection.ask_all([poll])
        if isinstance(reply, Refused) and reply.cause is Cause.AHEAD:
            return reply.value
        return None

    def _failure(self, why: str) -> Failure:
        return Failure(f"the mount at {self._socket} takes no change: {why}")

    def _query(self) -> Query:
        self._queries += 1
        return Query(self._mirror, self._life, self._queries)


def _say_silent() -> None:
    tell(f"edend has not answered for {SILENT:g} seconds")


def _shown_change(change: Change) -> str:
    """Returns a change as a line of a script has it, without what a file holds."""
    words = [value for value in vars(change).values() if isinstance(value, bytes)]
    texts = [word.hex() if isinstance(change, Checkout) else shown(word) for word in words]
    return " ".join([type(change).__name__.lower(), *texts])
