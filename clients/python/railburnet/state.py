"""Finds mounts again: a state folder of the user's own, with a folder in it for each directory
that is mounted."""
from __future__ import annotations

import contextlib
import fcntl
import hashlib
import json
import os
import stat
import time
from typing import Any, Callable, Dict, Iterator, NamedTuple, Optional, Tuple

from .place import Place

MOST_GENERATION = 2**64 - 1
BEGINNING = "beginning.json"
"""Notes a mount that isn't followed yet, so that one that was begun by half can be ended."""
_FOLDER = os.O_RDONLY | os.O_DIRECTORY | os.O_CLOEXEC


class StateFault(Exception):
    """Why the state folder can't be used, as a message."""

    status = 3
    """The exit status of a command that it ends."""


class Process(NamedTuple):
    """A process, with the time of its start, so that another with its id is not taken for it."""

    id: int
    started: int

    @staticmethod
    def of(id: int) -> Process:
        """Returns the process with an id, which has to be there. A child may have ended already."""
        found = _status_of(id)
        if found is None:
            raise ProcessLookupError(f"no process {id}")
        return Process(id, found[1])

    @property
    def lives(self) -> bool:
        """Whether it runs."""
        found = _status_of(self.id)
        return found is not None and found[0] not in (b"Z", b"X") and found[1] == self.started


def _status_of(id: int) -> Optional[Tuple[bytes, int]]:
    """Returns a process's state and when it started, in ticks since the machine did; None if it
    is gone."""
    try:
        with open(f"/proc/{id}/stat", "rb") as file:
            # The name of the program comes before, in parentheses, and may hold anything.
            fields = file.read().rpartition(b")")[2].split()
    except (FileNotFoundError, ProcessLookupError):
        return None
    return fields[0], int(fields[19])


class Mount(NamedTuple):
    """A mount of a directory: one feed and one edend. This is what `mount.json` holds."""

    root: bytes
    port: int
    """The port that it is served at, or 0 if it is served at a socket."""
    generation: int
    edend: Process
    feed: Process
    names: bool
    control: str
    whole_renames: bool = True
    front: str = ""
    """Which program has this mount for itself, beside the one that `railburnet up` begins; nothing for that one."""
    socket: str = ""
    """The path of the socket that it is served at, if it is at one."""
    skip: Tuple[str, ...] = ()
    """The names that it leaves out, in their order."""

    @property
    def place(self) -> Place:
        """Where it is served."""
        return self.socket or self.port

    @property
    def folder(self) -> str:
        """The folder of the mount in the state folder."""
        return folder_of(self.root, self.front)

    @property
    def lives(self) -> bool:
        """Whether both of its processes run."""
        return self.feed.lives and self.edend.lives

    def as_json(self) -> Dict[str, Any]:
        """Returns the fields as JSON has them; a byte of the root that is no text is a
        surrogate."""
        return {
            **self._asdict(),
            "root": os.fsdecode(self.root),
            "edend": self.edend._asdict(),
            "feed": self.feed._asdict(),
        }

    @staticmethod
    def of_json(fields: Dict[str, Any]) -> Mount:
        """Returns the mount of such fields."""
        processes: Dict[str, Any] = {name: Process(**fields[name]) for name in ("edend", "feed")}
        named: Dict[str, Any] = {
            **fields,
            "root": os.fsencode(fields["root"]),
            "skip": tuple(fields.get("skip", ())),
            **processes,
        }
        return Mount(**named)


def state_folder() -> str:
    """Returns the state folder, whether or not it is there."""
    named = os.environ.get("RAILBURNET_STATE")
    if named:
        return os.path.abspath(named)
    return os.path.join(
        os.environ.get("XDG_STATE_HOME") or os.path.expanduser("~/.local/state"), "railburnet"
    )


def folder_of(root: bytes, front: str = "") -> str:
    """Returns the folder of a directory in the state folder, whether or not it is there.

    A program that needs a mount of its own has another folder, whose name ends in its own.
    """
    name = hashlib.sha1(os.path.realpath(root)).hexdigest()[:16]
    return os.path.join(state_folder(), f"{name}-{front}" if front else name)


def make_folder(folder: str) -> None:
    """Makes the folder of a directory, and the state folder above it, for this user alone."""
    above = os.path.dirname(folder)
    os.makedirs(os.path.dirname(above), exist_ok=True)
    for each in (above, folder):
        with contextlib.suppress(FileExistsError):
            os.mkdir(each, 0o700)
        _check_own(each)


def _check_own(folder: str) -> None:
    """Raises StateFault for a folder that others own or may enter."""
    status = os.lstat(folder)
    if not stat.S_ISDIR(status.st_mode):
        raise StateFault(f"{folder} is not a directory")
    if status.st_uid != os.geteuid():
        raise StateFault(
            f"{folder} belongs to another user; RAILBURNET_STATE names another state folder"
        )
    if status.st_mode & 0o077:
        raise StateFault(
            f"others may enter {folder}; `chmod 700` it, or name another with RAILBURNET_STATE"
        )


def noted(folder: str, name: str = "mount.json") -> Optional[Mount]:
    """Returns the mount that a file of a folder notes, alive or not; None if there is no such
    file."""
    try:
        _check_own(os.path.dirname(folder))
        _check_own(folder)
        with open(os.path.join(folder, name), encoding="ascii") as file:
            return Mount.of_json(json.load(file))
    except (FileNotFoundError, NotADirectoryError):
        return None
    except (ValueError, KeyError, TypeError):
        raise StateFault(
            f"{folder}/{name} can't be read; remove it, and end the mount's processes by hand"
        ) from None


def find(root: bytes, front: str = "") -> Optional[Mount]:
    """Returns the mount of a directory; None if there is none whose processes run."""
    mount = noted(folder_of(root, front))
    return mount if mount is not None and mount.lives else None


def find_above(path: bytes) -> Optional[Mount]:
    """Returns the mount of a directory, or else of the nearest directory above that has one."""
    return next((mount for mount in noted_above(path) if mount.lives), None)


def begun(folder: str) -> Optional[Mount]:
    """Returns the mount that begins in a folder, or else the one noted there, alive or not."""
    mount = noted(folder, BEGINNING)
    return noted(folder) if mount is None else mount


def noted_above(path: bytes, find: Callable[[str], Optional[Mount]] = noted) -> Iterator[Mount]:
    """Yields the mounts that are noted of a directory and of those above it, alive or not, from
    the nearest on."""
    at = os.path.realpath(path)
    while True:
        mount = find(folder_of(at))
        if mount is not None:
            yield mount
        above = os.path.dirname(at)
        if above == at:
            return
        at = above


def all_noted(find: Callable[[str], Optional[Mount]] = noted) -> Iterator[Mount]:
    """Yields each mount that the state folder notes, alive or not."""
    state = state_folder()
    try:
        names = sorted(os.listdir(state))
    except FileNotFoundError:
        return
    for name in names:
        mount = find(os.path.join(state, name))
        if mount is not None:
            yield mount


def note(folder: str, mount: Mount, name: str = "mount.json") -> None:
    """Notes a mount in a file of a folder."""
    replace(folder, name, json.dumps(mount.as_json(), indent=1))


def next_generation(folder: str, wanted: Optional[int] = None) -> int:
    """Returns a generation that the directory of a folder never had, and keeps it before it
    returns.

    It is the wanted one, or the nanoseconds of the clock, if that is above the one kept; else
    the one after that.
    """
    make_folder(folder)
    with locked(folder, None):
        try:
            with open(os.path.join(folder, "generation"), encoding="ascii") as file:
                kept = int(file.read())
        except FileNotFoundError:
            kept = 0
        except ValueError:
            raise StateFault(f"{folder}/generation is not a number") from None
        generation = max(time.time_ns() if wanted is None else wanted, kept + 1)
        if generation > MOST_GENERATION:
            raise StateFault(f"no generation is left after {kept}")
        replace(folder, "generation", f"{generation}\n")
    return generation


@contextlib.contextmanager
def locked(folder: str, name: Optional[str] = "lock") -> Iterator[None]:
    """Holds the lock of a folder: of the file `lock` in it while a mount begins or ends, or of
    the folder itself."""
    if name is None:
        lock = os.open(folder, _FOLDER)
    else:
        lock = os.open(os.path.join(folder, name), os.O_RDWR | os.O_CREAT | os.O_CLOEXEC, 0o600)
    try:
        fcntl.flock(lock, fcntl.LOCK_EX)
        yield
    finally:
        os.close(lock)


def replace(folder: str, name: str, text: str) -> None:
    """Replaces a file of a folder as a whole, so that a crash leaves the old one or the new one."""
    new = os.path.join(folder, name + ".new")
    with open(
        os.open(new, os.O_WRONLY | os.O_CREAT | os.O_TRUNC | os.O_CLOEXEC, 0o600),
        "w",
        encoding="ascii",
    ) as file:
        file.write(text)
        file.flush()
        os.fsync(file.fileno())
    os.rename(new, os.path.join(folder, name))
    at = os.open(folder, _FOLDER)
    try:
        os.fsync(at)
    finally:
        os.close(at)
