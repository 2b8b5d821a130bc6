"""Begins and ends mounts: a feed and an edend in the background for a directory."""
from __future__ import annotations

import contextlib
import os
import shutil
import signal
import socket
import subprocess
import sys
import time
from functools import partial
from typing import IO, Callable, List, NamedTuple, Optional, Sequence, Tuple

from . import control, state
from .place import MOST_SOCKET, Place
from .state import Mount, Process

CONNECTIONS = 256
"""How many connections a mount has at a time, beside that of its feed. A place that is free costs
edend 8 KB."""
NOTES = ("mount.json", state.BEGINNING)
SOCKET = "socket"
EARLY = "early"
"""The socket's name until the mount has all that the directory holds. It isn't longer than SOCKET."""
PACKAGES = os.path.dirname(os.path.dirname(os.path.realpath(__file__)))


class MountFault(Exception):
    """Why a mount can't begin or end, as a message."""

    status = 1
    """The exit status of a command that it ends."""


class Commit(NamedTuple):
    """A commit that is mounted: its id, and the id under which the mount has it."""

    id: str
    mounted: str


def edend_program() -> str:
    """Returns the path of edend: of the variable EDEND, of this repository's build, or on the
    PATH."""
    named = os.environ.get("EDEND")
    if named:
        return named
    built = os.path.join(os.path.dirname(os.path.dirname(PACKAGES)), "bin", "edend")
    found = built if os.access(built, os.X_OK) else shutil.which("edend")
    if found is None:
        raise MountFault(
            f"no program edend at {built} nor on the PATH: `./build` in Railburnet's "
            "repository makes it, or set EDEND"
        )
    return found


def ensure(
    root: bytes,
    *,
    names: bool = False,
    whole_renames: bool = True,
    empty: bool = False,
    port: Optional[int] = None,
    say: Callable[[str], None] = lambda text: None,
    timeout: float = 600.0,
    front: str = "",
    feed: Sequence[str] = (),
    skip: Sequence[str] = (),
) -> Mount:
    """Returns the mount of a directory, and begins it unless there is one, once however many ask.

    A front, which is a program with a name, has a mount for itself beside the one that there may
    be. `feed` is given to the feed. What has a name of `skip` is left out.
    """
    return begin(root, names, whole_renames, empty, port, say, timeout, front, feed, skip)[0]


def names_of(skip: Sequence[str]) -> Tuple[str, ...]:
    """Returns the names that are left out, each once and in their order, as a mount notes them."""
    return tuple(sorted(set(skip)))


def begin(
    root: bytes,
    names: bool,
    whole_renames: bool,
    empty: bool,
    port: Optional[int],
    say: Callable[[str], None],
    timeout: float,
    front: str = "",
    feed: Sequence[str] = (),
    skip: Sequence[str] = (),
) -> Tuple[Mount, bool]:
    """Returns the mount of a directory, and whether this call has begun it.

    It mounts HEAD, or the empty commit: with `empty` or `names`, and if the directory is not the
    top of a checkout with a commit. Unless a port is given, the mount is served at a socket that
    only this user can open. It returns when edend answers and the mount has all that the directory
    holds. Nobody can connect to the socket before that.
    """
    root = os.path.realpath(root)
    if not os.path.isdir(root):
        raise MountFault(f"{os.fsdecode(root)} is not a directory")
    for name in skip:
        if not name or "/" in name or name in (".", ".."):
            raise MountFault(f"{name!r} is no name of a file that can be left out")
    folder = state.folder_of(root, front)
    state.make_folder(folder)
    with state.locked(folder):
        mount = state.find(root, front)
        if mount is not None:
            return mount, False
        begins = _Beginning(root, front, feed, names_of(skip), say, timeout)
        return begins.mount(names, whole_renames, empty, port), True


def stop(mount: Mount, timeout: float = 20.0) -> None:
    """Ends the feed of a mount, after which edend ends, and waits for both; kills what has not
    ended in time. The mount may be one that was left while it began."""
    folder = mount.folder
    with state.locked(folder):
        noted = [it for it in map(partial(state.noted, folder), NOTES) if it is not None]
        # Another may have ended it, and begun the next one, meanwhile.
        if any(it.feed == mount.feed for it in noted):
            for it in noted:
                _end(it, timeout)
            # What edend listened at is there if it was killed.
            made = ("control", "objects", "printed", SOCKET, EARLY, f"{EARLY}.lock")
            for name in (*NOTES, *made):
                with contextlib.suppress(FileNotFoundError):
                    os.unlink(os.path.join(folder, name))


def _end(mount: Mount, timeout: float) -> None:
    """Ends what still runs of a mount."""
    end = time.monotonic() + timeout
    _signal(mount.feed, signal.SIGTERM)
    for process, last in ((mount.feed, end), (mount.edend, end)):
        while process.lives and time.monotonic() < last:
            time.sleep(0.01)
    for process in (mount.feed, mount.edend):
        _signal(process, signal.SIGKILL)
    while mount.feed.lives or mount.edend.lives:
        time.sleep(0.01)


def _signal(process: Process, number: int) -> None:
    """Signals a process that still runs."""
    with contextlib.suppress(ProcessLookupError):
        if process.lives:
            os.kill(process.id, number)


def head_of(root: bytes) -> Optional[str]:
    """Returns the commit that is checked out at a directory; None if it is not the top of a
    checkout with a commit."""
    try:
        done = subprocess.run(
            [b"git", b"-C", root, b"rev-parse", b"--show-toplevel", b"--verify", b"HEAD^{commit}"],
            stdin=subprocess.DEVNULL,
            stdout=subprocess.PIPE,
            stderr=subprocess.DEVNULL,
            check=False,
        )
    except FileNotFoundError:
        return None
    top, _, id = done.stdout.rstrip(b"\n").rpartition(b"\n")
    return id.decode() if done.returncode == 0 and os.path.realpath(top) == root else None


class _Beginning:
    """A mount that begins, under the lock of its folder."""

    def __init__(
        self,
        root: bytes,
        front: str,
        feed: Sequence[str],
        skip: Tuple[str, ...],
        say: Callable[[str], None],
        timeout: float,
    ) -> None:
        self._root, self._front, self._feed, self._say = root, front, feed, say
        self._skip = skip
        self._folder = state.folder_of(root, front)
        self._end = time.monotonic() + timeout
        self._edend = edend_program()
        self._control = os.path.join(self._folder, "control")
        self._early = os.path.join(self._folder, EARLY)

    def mount(self, names: bool, whole_renames: bool, empty: bool, port: Optional[int]) -> Mount:
        """Begins the mount, and returns it when it is followed."""
        for before in map(partial(state.noted, self._folder), NOTES):
            if before is not None:
                _end(before, 20.0)
        place = port or self._default_place()
        writable = isinstance(place, str) and self._edend_knows("--writable")
        commit = None if empty or names else self._write_objects()
        words = ["--control", self._control, *self._feed]
        words += [f"--skip={name}" for name in self._skip]
        words += ["--names"] if names else []
        words += [] if whole_renames else ["--each-file"]
        words += ["--socket", self._early] if writable else []
        words += ["--empty"] if commit is None else ["--commit", f"{commit.id}={commit.mounted}"]
        self._remove("control")
        feed, edend = self._started(words, self._serve(place, writable, commit is not None))
        try:
            mount = Mount(
                self._root,
                place if isinstance(place, int) else 0,
                0,
                Process.of(edend.pid),
                Process.of(feed.pid),
                names,
                self._control,
                whole_renames,
                self._front,
                "" if isinstance(place, int) else place,
                self._skip,
            )
            state.note(self._folder, mount, state.BEGINNING)
            self._wait(feed, edend, place)
            if isinstance(place, str):
                os.rename(self._early, place)
            mount = mount._replace(generation=int(control.status(self._control)["generation"]))
            state.note(self._folder, mount)
        except BaseException:
            for process in (feed, edend):
                process.kill()
                process.wait()
            raise
        finally:
            self._remove("objects", "printed", state.BEGINNING)
        return mount

    def _default_place(self) -> Place:
        """Returns the socket of the folder, or a free port if no socket can have such a path."""
        path = os.path.join(self._folder, SOCKET)
        if len(os.fsencode(path)) <= MOST_SOCKET and "\n" not in path:
            return path
        self._say(
            f"the path {path} is too long for a socket, so the mount is at a port, which other "
            "users can connect to; RAILBURNET_STATE names another state folder"
        )
        return _free_port()

    def _remove(self, *names: str) -> None:
        for name in names:
            with contextlib.suppress(FileNotFoundError):
                os.unlink(os.path.join(self._folder, name))

    def _write_objects(self) -> Optional[Commit]:
        """Writes the objects of HEAD to the folder; None if there is no commit."""
        head = head_of(self._root)
        if head is None:
            return None
        # Only a mount of a commit needs them.
        from . import objects

        with open(
            os.open(
                os.path.join(self._folder, "objects"),
                os.O_WRONLY | os.O_CREAT | os.O_TRUNC | os.O_CLOEXEC,
                0o600,
            ),
            "wb",
        ) as out:
            try:
                written = objects.write(os.fsdecode(self._root), [head], out, leave_out=True)
            except objects.Failure as failure:
                raise MountFault(str(failure)) from None
        if written.faults:
            self._say(_told_faults(written.faults))
        return Commit(head, written.ids[head])

    def _started(
        self, words: List[str], serve: List[str]
    ) -> Tuple[subprocess.Popen[bytes], subprocess.Popen[bytes]]:
        """Starts the feed and edend, in sessions of their own, with their messages in the log."""
        # In the folder, which is this user's own, `-m` takes no module of anybody else.
        environment = {**os.environ, "PYTHONPATH": PACKAGES}
        feed = [sys.executable, "-m", __package__, "feed", *words, "--", os.fsdecode(self._root)]
        with self._file("log", os.O_APPEND) as log, self._file("printed", os.O_TRUNC) as printed:
            self._logged = log.seek(0, os.SEEK_END)
            feeding = subprocess.Popen(
                feed,
                cwd=self._folder,
                env=environment,
                start_new_session=True,
                stdin=subprocess.DEVNULL,
                stdout=subprocess.PIPE,
                stderr=log,
            )
            assert feeding.stdout is not None
            with feeding.stdout:
                try:
                    serving = subprocess.Popen(
                        serve,
                        cwd=self._folder,
                        start_new_session=True,
                        stdin=feeding.stdout,
                        stdout=printed,
                        stderr=log,
                    )
                except OSError as error:
                    feeding.kill()
                    feeding.wait()
                    raise MountFault(f"{self._edend}: {error.strerror}") from None
        return feeding, serving

    def _serve(self, place: Place, writable: bool, objects: bool) -> List[str]:
        """Returns the command line of edend."""
        count = CONNECTIONS + 1 if writable else CONNECTIONS
        words = [self._edend, "serve", "--connections", str(count), "--stay", "--verbose"]
        words += ["--port", str(place)] if isinstance(place, int) else ["--socket", self._early]
        words += ["--writable"] if writable else []
        return words + (["--objects", os.path.join(self._folder, "objects")] if objects else [])

    def _edend_knows(self, option: str) -> bool:
        """Whether edend has an option: an older one is fed by lines alone."""
        try:
            done = subprocess.run(
                [self._edend, "serve", "--help"],
                stdin=subprocess.DEVNULL,
                stdout=subprocess.PIPE,
                stderr=subprocess.STDOUT,
                timeout=60.0,
                check=False,
            )
        except OSError:
            return False
        except subprocess.TimeoutExpired:
            raise MountFault(f"{self._edend} does not end `serve --help`") from None
        return option.encode() in done.stdout

    def _file(self, name: str, how: int) -> IO[bytes]:
        return open(
            os.open(
                os.path.join(self._folder, name),
                os.O_WRONLY | os.O_CREAT | os.O_CLOEXEC | how,
                0o600,
            ),
            "wb",
        )

    def _wait(
        self, feed: subprocess.Popen[bytes], edend: subprocess.Popen[bytes], place: Place
    ) -> None:
        """Waits until edend listens and the feed has told all that there is."""
        where = str(place) if isinstance(place, int) else f"unix {self._early}"
        listens = b"listening %s\n" % os.fsencode(where)
        while True:
            for name, process in (("edend", edend), ("feed", feed)):
                if process.poll() is not None:
                    raise MountFault(
                        f"{name} ended with status {process.returncode}: {self._last_words()}"
                    )
            if self._printed_last(len(listens)) == listens and self._is_followed():
                return
            if time.monotonic() > self._end:
                raise MountFault(f"the mount did not begin in time; see {self._folder}/log")
            time.sleep(0.01)

    def _printed_last(self, count: int) -> bytes:
        """The last bytes that edend printed. It prints a line for each that it reads, up to
        `listening`."""
        with open(os.path.join(self._folder, "printed"), "rb") as printed:
            printed.seek(max(0, printed.seek(0, os.SEEK_END) - count))
            return printed.read()

    def _is_followed(self) -> bool:
        try:
            return bool(control.status(self._control)["following"])
        except control.ControlFault:
            return False

    def _last_words(self) -> str:
        """Returns what the processes told before they ended."""
        with open(os.path.join(self._folder, "log"), "rb") as log:
            log.seek(self._logged)
            lines = log.read().decode("utf-8", "replace").strip().splitlines()
        return "; ".join(lines[-2:]) or f"see {self._folder}/log"


def _told_faults(faults: List[Tuple[str, str]]) -> str:
    """One line on what of a commit a mount can't hold."""
    path, why = faults[0]
    more = f", and {len(faults) - 1:,} more" if len(faults) > 1 else ""
    return f"left out of the mounted commit: {path} ({why}){more}"


def _free_port() -> int:
    """Returns a port that nobody listens on."""
    try:
        with socket.create_server(("127.0.0.1", 0)) as server:
            port: int = server.getsockname()[1]
            return port
    except OSError:
        raise MountFault("no port is free on 127.0.0.1") from None
