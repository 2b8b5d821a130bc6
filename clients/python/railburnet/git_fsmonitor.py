"""Git's hook core.fsmonitor: prints which paths of a checkout may have changed since a token.

    git_fsmonitor.py 2 TOKEN            # run by Git, at the top of the checkout

It prints a new token and then the paths, each with a NUL after it, or `/` for everything. A token
is GENERATION:NUMBER:PID:STARTED, the place in the mount and the edend that has it. Everything may
have changed since a token of another mount, one that the journal doesn't reach back to, or one
that ends with `:all`, which was given when the mount could not know of all files.

A token that was given with `/` ends with `:folders`. Git keeps what it knows of untracked files
then, and a command such as `git diff`, which doesn't look for them, would have the next one take it
for current. So whoever asks since such a token is given a name in each directory, and Git lists
all of them again.

It fails rather than waits for more than five seconds. Git then looks at everything by itself.

Git runs it with each command, so how it begins is what it costs. It imports nearly nothing, and
reads the note of the mount and speaks the frames of docs/formats.md by itself.
"""
from __future__ import annotations

import os
import sys
import time
from stat import S_ISDIR
from struct import error as CutShort
from struct import pack, unpack_from

try:
    # The modules above these double the time in which Python starts.
    from _sha1 import sha1  # type: ignore[import]
    from _socket import AF_INET, AF_UNIX, SOCK_STREAM, socket
except ImportError:
    from hashlib import sha1
    from socket import AF_INET, AF_UNIX, SOCK_STREAM, socket  # type: ignore[assignment]

MOST_SECONDS = 5.0
MOST_BEGINNING = 1.0
MOST_SOCKET_NAME = 107
MOST_LEFT_OUT = 100
MOST_BODY = 16_777_216
POLL, CHANGES, REFUSED = 2, 0x82, 0x84
STALE, AHEAD = 1, 2
CHANGED = 3
EVERYTHING = [b"/"]
FOLDERS = "folders"
NOBODYS = b".railburnet"
"""A name that Git knows in no directory."""


class Amiss(Exception):
    """Why there is no answer, as a message; an empty one if there is nothing to be done about it."""


class Stream:
    """A connection that is given up at a time."""

    def __init__(self, family: int, address: tuple[str, int] | bytes, end: float) -> None:
        self._end = end
        self._data = b""
        self._socket = socket(family, SOCK_STREAM)
        try:
            self._limit()
            self._socket.connect(address)
        except (Amiss, OSError):
            self.close()
            raise

    def close(self) -> None:
        """Ends the connection."""
        self._socket.close()

    def send(self, data: bytes) -> None:
        """Sends bytes."""
        self._limit()
        self._socket.sendall(data)

    def take(self, count: int) -> bytes:
        """Returns the next bytes."""
        parts = [self._data]
        held = len(self._data)
        while held < count:
            parts.append(self._received())
            held += len(parts[-1])
        data = b"".join(parts)
        self._data = data[count:]
        return data[:count]

    def line(self) -> bytes:
        """Returns the next line, without its line feed."""
        while b"\n" not in self._data:
            self._data += self._received()
        line, _, self._data = self._data.partition(b"\n")
        return line

    def _received(self) -> bytes:
        self._limit()
        data: bytes = self._socket.recv(1 << 18)
        if not data:
            raise Amiss("the mount ended while it was asked")
        return data

    def _limit(self) -> None:
        left = self._end - time.monotonic()
        if left <= 0:
            raise Amiss("the mount did not answer in time")
        self._socket.settimeout(left)


# The note of the mount, as state.py writes it.


class Note:
    """Where a mount is, as its note says."""

    def __init__(self, text: bytes) -> None:
        self.port = _number_after(text, b'"port": ', 0)
        self.generation = _number_after(text, b'"generation": ', 0)
        self.edend = _process_after(text, b'"edend": {')
        self.feed = _process_after(text, b'"feed": {')

    @property
    def lives(self) -> bool:
        """Whether both of its processes run."""
        return _lives(*self.feed) and _lives(*self.edend)


def _number_after(text: bytes, key: bytes, start: int) -> int:
    """Returns the number after a key. A quote in a string has a backslash before it, a key has none."""
    at = end = text.index(key, start) + len(key)
    while text[end : end + 1].isdigit():
        end += 1
    return int(text[at:end])


def _process_after(text: bytes, key: bytes) -> tuple[int, int]:
    at = text.index(key)
    return _number_after(text, b'"id": ', at), _number_after(text, b'"started": ', at)


def _lives(id: int, started: int) -> bool:
    """Whether a process runs that started then."""
    try:
        with open(f"/proc/{id}/stat", "rb", 0) as file:
            fields = file.read().rpartition(b")")[2].split()
    except (FileNotFoundError, ProcessLookupError):
        return False
    return fields[0] not in (b"Z", b"X") and int(fields[19]) == started


def folder_of(root: bytes) -> str:
    """Returns the folder of a directory in the state folder, as state.py does."""
    state = os.environ.get("RAILBURNET_STATE")
    if not state:
        home = os.environ.get("XDG_STATE_HOME") or os.path.expanduser("~/.local/state")
        state = os.path.join(home, "railburnet")
    return os.path.join(os.path.abspath(state), sha1(root).hexdigest()[:16])


def noted(folder: str) -> Note | None:
    """Returns the mount that a folder notes, if its processes run."""
    try:
        for each in (os.path.dirname(folder), folder):
            status = os.lstat(each)
            if not S_ISDIR(status.st_mode) or status.st_mode & 0o077 or status.st_uid != os.geteuid():
                raise Amiss(f"others may enter {each}, or own it")
        with open(os.path.join(folder, "mount.json"), "rb", 0) as file:
            note = Note(file.read())
    except FileNotFoundError:
        return None
    return note if note.lives else None


# A mount that isn't there yet.


def begun(root: bytes, folder: str) -> Note:
    """Has `railburnet up` mount a directory, and returns the mount if it is up soon.

    Amiss if it isn't: it then goes on, and is there for a later call.
    """
    if _is_beginning(folder):
        raise Amiss("")
    import subprocess
    packages = os.path.dirname(os.path.dirname(os.path.abspath(__file__)))
    # What Git sets for its hooks is not for those who ask for the mount later.
    environment = {name: value for name, value in os.environ.items() if not name.startswith("GIT_")}
    words = [sys.executable, "-m", "railburnet", "up", "--names", "--no-whole-renames", "--",
             os.fsdecode(root)]
    process = subprocess.Popen(
        words, cwd="/", env={**environment, "PYTHONPATH": packages}, start_new_session=True,
        stdin=subprocess.DEVNULL, stdout=subprocess.DEVNULL, stderr=subprocess.PIPE)
    try:
        said = process.communicate(timeout=MOST_BEGINNING)[1]
    except subprocess.TimeoutExpired:
        raise Amiss("") from None
    note = noted(folder)
    if note is None:
        raise Amiss(said.decode("utf-8", "replace").strip().rpartition("railburnet: ")[2])
    return note


def _is_beginning(folder: str) -> bool:
    """Whether a mount begins or ends, and holds the lock."""
    import fcntl
    try:
        lock = os.open(os.path.join(folder, "lock"), os.O_RDWR | os.O_CLOEXEC)
    except FileNotFoundError:
        return False
    try:
        fcntl.flock(lock, fcntl.LOCK_EX | fcntl.LOCK_NB)
    except BlockingIOError:
        return True
    finally:
        os.close(lock)
    return False


# What the feed says.


def synced(folder: str, end: float) -> tuple[int, int, bool]:
    """Returns a place in the mount that has all that was on disk, and whether that is all files."""
    name = os.fsencode(os.path.join(folder, "control"))
    at = -1
    if len(name) > MOST_SOCKET_NAME:
        at = os.open(folder, os.O_RDONLY | os.O_DIRECTORY | os.O_CLOEXEC)
        name = b"/proc/self/fd/%d/control" % at
    try:
        feed = Stream(AF_UNIX, name, end)
    finally:
        if at >= 0:
            os.close(at)
    try:
        feed.send(b"sync\nstatus\n")
        place, status = feed.line(), feed.line()
    finally:
        feed.close()
    words = place.split(b" ")
    if len(words) != 3 or words[0] != b"at":
        raise Amiss(f"feed answers {place!r}")
    return int(words[1]), int(words[2]), not _leaves_out(status)


def _leaves_out(status: bytes) -> bool:
    """Whether the mount can't know of all files that Git knows."""
    # What has this name at the top is never in the mount.
    if os.path.lexists(NOBODYS):
        return True
    if b'"left_out": {}' in status:
        return False
    import json
    paths = json.loads(status)["left_out"]
    return len(paths) > MOST_LEFT_OUT or any(map(_is_unknown, map(os.fsencode, paths)))


def _is_unknown(path: bytes) -> bool:
    """Whether what happens at or below a path that is left out isn't reported.

    A change of a file is, whatever it holds. What is no file and no directory isn't shown by Git.
    """
    if len(path) > 1024 or path.count(b"/") > 63:
        return True
    try:
        return S_ISDIR(os.lstat(path).st_mode)
    except OSError:
        return True


# What edend says.


class Edend:
    """A connection to edend, for polls with no filter."""

    def __init__(self, port: int, folder: str, end: float) -> None:
        if port:
            self._stream = Stream(AF_INET, ("127.0.0.1", port), end)
        else:
            self._stream = Stream(AF_UNIX, os.fsencode(os.path.join(folder, "socket")), end)
        self._number = 0

    def close(self) -> None:
        """Ends the connection."""
        self._stream.close()

    def poll(self, generation: int, number: int) -> tuple[int, bytes]:
        """Asks what changed since a position, and returns the tag and the fields of the reply."""
        self._number += 1
        query = pack(">QQQ", os.getpid(), time.monotonic_ns(), self._number)
        body = pack(">BB24sQQ20sB", 2, POLL, query, generation, number, b"", 0)
        self._stream.send(pack(">I", len(body)) + body)
        (size,) = unpack_from(">I", self._stream.take(4))
        if not 26 <= size <= MOST_BODY:
            raise Amiss("edend's reply can't be read")
        reply = self._stream.take(size)
        if reply[0] != 2 or reply[1] not in (CHANGES, REFUSED) or reply[2:26] != query:
            raise Amiss("edend's reply can't be read")
        return reply[1], reply[26:]

    def comes_to(self, generation: int, number: int) -> None:
        """Waits until edend is at a position."""
        seconds = 0.0
        while True:
            tag, fields = self.poll(generation, number)
            if tag == REFUSED and fields[0] == STALE:
                raise Amiss("the mount began again while it was asked")
            if tag != REFUSED or fields[0] != AHEAD:
                return
            time.sleep(seconds)
            seconds = min(seconds + 0.0005, 0.02)


def _is_own(path: bytes) -> bool:
    """Whether feed keeps a file there for itself: nothing else of the mount has such a path."""
    return path.startswith(b".git/")


def changed(fields: bytes) -> tuple[int, list[bytes] | None]:
    """Reads a reply: its number, and the paths; None if a whole directory was moved.

    Git could be given a directory. But it keeps what it knows of directories below that one, and
    there may be such without files, which have no path here.
    """
    (number,) = unpack_from(">Q", fields, 8)
    (count,) = unpack_from(">I", fields, 36)
    at, paths = 40, []
    above: set[bytes] = set()
    for _ in range(count):
        (size,) = unpack_from(">H", fields, at + 1)
        path = fields[at + 3 : at + 3 + size]
        if not _is_own(path):
            paths.append(path)
            # Git passes over a path with `.git` in it: a repository was made or removed there.
            if fields[at] != CHANGED or path.endswith(b"/.git"):
                add_above(above, path)
        at += 3 + size
    (prefixes,) = unpack_from(">I", fields, at)
    return number, None if prefixes else [*paths, *[folder + NOBODYS for folder in above]]


def add_above(above: set[bytes], path: bytes) -> None:
    """Adds the directories above a path that came or went, each with a slash after it.

    Any of them may have come or gone with it. Git has to list the one above that again, and does
    if it is given a name in it. Given a path, some settings have it list that path's directory alone.
    """
    end = path.rfind(b"/")
    while path[: end + 1] not in above:
        above.add(path[: end + 1])
        end = path.rfind(b"/", 0, max(end, 0))


def since_of(token: str, generation: int, edend: str) -> int | None:
    """Returns the number of a token; None if it is of another mount, or was given for not all files."""
    words = token.split(":")
    is_ours = words[0] == str(generation) and ":".join(words[2:4]) == edend and words[4:] in ([], [FOLDERS])
    if not is_ours or not (words[1].isascii() and words[1].isdigit() and len(words[1]) < 20):
        return None
    return int(words[1])


def in_each_folder(root: bytes) -> list[bytes]:
    """Returns a name in each directory, without those of repositories themselves."""
    names, waiting = [], [b""]
    while waiting:
        start = waiting.pop()
        names.append(start + NOBODYS)
        try:
            with os.scandir(os.path.join(root, start)) as entries:
                waiting += [
                    start + entry.name + b"/"
                    for entry in entries
                    if entry.is_dir(follow_symlinks=False) and entry.name != b".git"
                ]
        except OSError:
            # Git finds out by itself.
            pass
    return names


def answer(token: str) -> tuple[str, list[bytes]]:
    """Returns a new token, and what may have changed since another."""
    end = time.monotonic() + MOST_SECONDS
    root = os.path.realpath(os.getcwdb())
    folder = folder_of(root)
    note = noted(folder) or begun(root, folder)
    generation, number, is_whole = synced(folder, end)
    if generation != note.generation:
        raise Amiss("the mount began again while it was asked")
    edend = Edend(note.port, folder, end)
    try:
        edend.comes_to(generation, number)
        identity = f"{note.edend[0]}:{note.edend[1]}"
        since = since_of(token, generation, identity)
        paths: list[bytes] | None = None
        if since is not None and is_whole:
            tag, fields = edend.poll(generation, since)
            if tag == CHANGES:
                number, paths = changed(fields)
    finally:
        edend.close()
    if paths is not None and token.endswith(":" + FOLDERS):
        paths += in_each_folder(root)
    kind = ":all" if not is_whole else ":" + FOLDERS if paths is None else ""
    return f"{generation}:{number}:{identity}{kind}", EVERYTHING if paths is None else paths


def main(words: list[str]) -> int:
    """Answers Git, and returns the exit status."""
    if len(words) != 2 or words[0] != "2":
        return 1
    try:
        token, paths = answer(words[1])
    except (Amiss, OSError, ValueError, CutShort) as fault:
        if str(fault):
            print(f"railburnet: {fault}", file=sys.stderr)
        return 1
    sys.stdout.buffer.write(b"".join(part + b"\0" for part in (os.fsencode(token), *paths)))
    sys.stdout.buffer.flush()
    return 0


if __name__ == "__main__":
    sys.exit(main(sys.argv[1:]))
