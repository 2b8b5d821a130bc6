"""A mirror's files in a real directory."""
from __future__ import annotations

import contextlib
import errno
import fcntl
import os
import stat
import time
from typing import Callable, Dict, Iterator, List, NamedTuple, Optional, Sequence, Set, Tuple

from .frames import File, Kind
from .mirror import left_out


class Seen(NamedTuple):
    """By what a file is known again that nobody has written or replaced."""

    inode: int
    size: int
    modified: int
    type: int

    @staticmethod
    def of(status: os.stat_result) -> Seen:
        """What a status says."""
        return Seen(status.st_ino, status.st_size, status.st_mtime_ns, stat.S_IFMT(status.st_mode))


NOTHING = Seen(0, 0, 0, 0)
NO_ROOM = (errno.ENOSPC, errno.EDQUOT)
TRIED_AGAIN = (*NO_ROOM, errno.EIO)
"""What may be over later, so that a file is asked for again."""


class Trouble(Exception):
    """Why a path can't be made equal."""


OWN = b".railburnet"
_FOLDER = os.O_RDONLY | os.O_DIRECTORY | os.O_NOFOLLOW | os.O_CLOEXEC


class Folder:
    """The files of a mirror in a real directory.

    What comes is kept in the folder `.railburnet` of the directory until `place` puts it in its
    place: files that went, then each new one, as a whole, by a rename. Only files that it made are
    replaced or taken away, and only while they are as it made them: which these are it keeps in
    `.railburnet/made`, for a later run too. What else stands in the way is left alone and told, and
    tried again. Directories are entered one by one without following a link, so nothing outside the
    directory is touched.

    A file that the directory has as it is to be is not kept twice. What finds no room is
    `lacking`: its content is not kept, and `retry` asks for it again, after what went has freed
    some.
    """

    def __init__(self, root: bytes, tell: Callable[[bytes, str], None]) -> None:
        self._tell = tell
        self._made: Dict[bytes, Seen] = {}
        self._folders: Set[bytes] = set()
        self._staged: Dict[bytes, Optional[bytes]] = {}
        self._same: Dict[bytes, Seen] = {}
        self.lacking: Dict[bytes, int] = {}
        """The paths whose files found no room or met a fault of the disk, with the fault's
        number."""
        self._clear = self._fresh = False
        self._count = 0
        self._told: Dict[bytes, str] = {}
        self._again = self._retried = 0.0
        self._pause = 1.0
        self.token = b"this-" + os.urandom(8).hex().encode()
        """The name of a file of its own folder: a mount that has it is one of this directory."""
        try:
            os.makedirs(root, exist_ok=True)
            self._root = os.open(root, os.O_RDONLY | os.O_DIRECTORY | os.O_CLOEXEC)
            self._own = self._own_folder()
            self._read_log()
        except OSError as error:
            raise OSError(error.errno, error.strerror, root) from None

    def clear(self) -> None:
        """Of all files only those that are put from now on are wanted."""
        for name in self._staged.values():
            self._drop(name)
        self._staged, self._same, self.lacking, self._clear = {}, {}, {}, True

    def keep_below(self, prefix: bytes, paths: Sequence[bytes]) -> None:
        """Of the files below a directory only those at these paths are to stand, from the next
        `place` on."""
        for path in left_out(
            {*self._made, *self._staged, *self._same, *self.lacking}, prefix, paths
        ):
            self.put(path, None)

    def put(self, path: bytes, file: Optional[File]) -> None:
        """What is to stand at a path, from the next `place` on."""
        self._drop(self._staged.pop(path, None))
        self._same.pop(path, None)
        self.lacking.pop(path, None)
        self._fresh = True
        if file is None:
            self._staged[path] = None
            return
        same = self._holds(path, file)
        if same is not None:
            self._same[path] = same
            return
        self._count += 1
        name = b"%d" % self._count
        try:
            self._write(name, file)
        except (OSError, ValueError) as error:
            with contextlib.suppress(OSError):
                self._drop(name)
            if isinstance(error, OSError) and error.errno in TRIED_AGAIN:
                self.lacking[path] = error.errno
                return
            self._staged[path] = None
            self._trouble(path, f"this system can't hold such a file: {error}")
            return
        self._staged[path] = name

    def place(self) -> int:
        """Makes the directory equal, as far as nothing stands in the way; says of how many paths
        it isn't."""
        if not (self._fresh or self._clear or (self._staged and time.monotonic() >= self._again)):
            return len(self._staged) + len(self.lacking)
        gone = [path for path, name in self._staged.items() if name is None]
        if self._clear:
            gone += [
                path
                for path in self._made
                if path not in self._staged and path not in self._same and path not in self.lacking
            ]
        for path in gone:
            self._attempt(path, self._remove)
            self._staged.pop(path, None)
        if gone:
            self._retried = 0.0
        for path, seen in self._same.items():
            if self._seen(path) != seen:
                self.lacking[path] = errno.EAGAIN
        self._same = {}
        # What takes the place of another file frees room by that, so it comes first.
        for path in sorted(self._staged, key=lambda path: path not in self._made):
            self._settle(path)
        self._clear = self._fresh = False
        self._again = time.monotonic() + 1.0
        self._end_log()
        return len(self._staged) + len(self.lacking)

    def retry(self, fetch: Callable[[bytes], Optional[File]]) -> int:
        """Asks again for the files that found no room, one by one, as long as some find it; says of
        how many paths the directory isn't equal.

        It does so at once after files went, and then after a second, two, four, up to half a
        minute.
        """
        if self.lacking and (not self._retried or time.monotonic() >= self._retried + self._pause):
            self._pause = min(2 * self._pause, 30.0) if self._retried else 1.0
            before = len(self.lacking) + 1
            while self.lacking and len(self.lacking) < before:
                before = len(self.lacking)
                for path in list(self.lacking):
                    self.put(path, fetch(path))
                    self._same.pop(path, None)
                    self._settle(path)
            self._fresh = False
            self._retried = time.monotonic()
            self._end_log()
            for path, fault in self.lacking.items():
                self._trouble(path, f"{os.strerror(fault)}; it is tried again")
        return len(self._staged) + len(self.lacking)

    def _settle(self, path: bytes) -> None:
        """Puts what is staged for a path in its place, or takes away what is there."""
        if path not in self._staged:
            return
        if self._staged[path] is None:
            self._attempt(path, self._remove)
            del self._staged[path]
        elif self._attempt(path, self._install):
            del self._staged[path]
        elif path in self.lacking:
            self._drop(self._staged.pop(path))

    def close(self) -> None:
        """Ends the mirror. What it made stays, and what it noted of it; what it had not put in
        its place goes."""
        with contextlib.suppress(OSError):
            self._log.close()
        for name in (*self._staged.values(), self.token):
            with contextlib.suppress(OSError):
                self._drop(name)
        for file in (self._lock, self._own, self._root):
            os.close(file)

    # The folder's own files.

    def _own_folder(self) -> int:
        try:
            os.mkdir(OWN, 0o700, dir_fd=self._root)
        except FileExistsError:
            pass
        own = os.open(OWN, _FOLDER, dir_fd=self._root)
        self._lock = os.open(
            b"lock", os.O_RDWR | os.O_CREAT | os.O_NOFOLLOW | os.O_CLOEXEC, 0o600, dir_fd=own
        )
        try:
            fcntl.flock(self._lock, fcntl.LOCK_EX | fcntl.LOCK_NB)
        except BlockingIOError:
            raise OSError(errno.EBUSY, "another mirror keeps this directory") from None
        for name in map(os.fsencode, os.listdir(own)):
            if name.isdigit() or name.startswith(b"this-") or name == b"made.new":
                os.unlink(name, dir_fd=own)
        with contextlib.suppress(OSError):
            os.close(
                os.open(
                    self.token,
                    os.O_WRONLY | os.O_CREAT | os.O_EXCL | os.O_CLOEXEC,
                    0o600,
                    dir_fd=own,
                )
            )
        return own

    def _read_log(self) -> None:
        """Reads what an earlier run made, and begins the log anew with what is still as it made
        it."""
        made: Dict[bytes, Set[Seen]] = {}
        for record in self._records():
            head, _, path = record.partition(b" ")
            if head == b"folder":
                self._folders.add(path)
            else:
                made.setdefault(path, set()).add(Seen(*map(int, head.split(b","))))
        for path, known in made.items():
            seen = self._seen(path)
            if seen in known:
                self._made[path] = seen
        self._folders = {path for path in self._folders if stat.S_ISDIR(self._seen(path).type)}
        self._begin_log()

    def _records(self) -> List[bytes]:
        """The records of the log; one that a crash cut short has no NUL behind it, and is none."""
        try:
            return _read(b"made", self._own).split(b"\0")[:-1]
        except FileNotFoundError:
            return []

    def _begin_log(self) -> None:
        """Writes the log again with what holds now, or, if there is no room, goes on with the
        one that is there."""
        how = os.O_WRONLY | os.O_CREAT | os.O_NOFOLLOW | os.O_CLOEXEC
        new = os.fdopen(os.open(b"made.new", how | os.O_TRUNC, 0o600, dir_fd=self._own), "wb")
        records = [b"folder " + path for path in self._folders] + [
            b"%d,%d,%d,%d " % seen + path for path, seen in self._made.items()
        ]
        try:
            new.write(b"".join(record + b"\0" for record in records))
            new.flush()
            os.rename(b"made.new", b"made", src_dir_fd=self._own, dst_dir_fd=self._own)
        except OSError as error:
            with contextlib.suppress(OSError):
                new.close()
            os.unlink(b"made.new", dir_fd=self._own)
            if error.errno not in NO_ROOM:
                raise
            new = os.fdopen(os.open(b"made", how | os.O_APPEND, 0o600, dir_fd=self._own), "ab")
        self._log, self._noted, self._enough = new, 0, 2 * len(records) + 1000

    def _end_log(self) -> None:
        """Writes what was noted, and begins the log again if much of it is of former times."""
        try:
            self._log.flush()
            if self._noted > self._enough:
                self._log.close()
                self._begin_log()
        except OSError as error:
            # What isn't written yet is written with the next note.
            if error.errno not in NO_ROOM:
                raise

    def _note(self, head: bytes, path: bytes) -> None:
        self._log.write(head + b" " + path + b"\0")
        self._noted += 1

    def _write(self, name: bytes, file: File) -> None:
        if file.kind is Kind.LINK:
            os.symlink(file.content, name, dir_fd=self._own)
            return
        mode = 0o777 if file.kind is Kind.EXEC else 0o666
        with os.fdopen(
            os.open(
                name, os.O_WRONLY | os.O_CREAT | os.O_EXCL | os.O_CLOEXEC, mode, dir_fd=self._own
            ),
            "wb",
        ) as out:
            out.write(file.content)

    def _drop(self, name: Optional[bytes]) -> None:
        if name is not None:
            os.unlink(name, dir_fd=self._own)

    def _holds(self, path: bytes, file: File) -> Optional[Seen]:
        """What is seen of the file at a path, if it is what is wanted, in its kind, exec bit and
        bytes."""
        try:
            with self._parent(path) as (at, name):
                there = os.stat(name, dir_fd=at, follow_symlinks=False)
                if there.st_size != len(file.content) or path.split(b"/", 1)[0] == OWN:
                    return None
                if stat.S_ISLNK(there.st_mode):
                    equal = file.kind is Kind.LINK and os.readlink(name, dir_fd=at) == file.content
                else:
                    kind = Kind.EXEC if there.st_mode & 0o100 else Kind.PLAIN
                    equal = (
                        stat.S_ISREG(there.st_mode)
                        and file.kind is kind
                        and _read(name, at) == file.content
                    )
                return Seen.of(there) if equal else None
        except OSError:
            return None

    # The mirror's files.

    @contextlib.contextmanager
    def _parent(self, path: bytes, make: bool = False) -> Iterator[Tuple[int, bytes]]:
        """The directory of a path, entered from the root without following a link, and the last
        name."""
        *folders, name = path.split(b"/")
        at = os.dup(self._root)
        try:
            for place, folder in enumerate(folders):
                if make:
                    self._make_folder(at, folder, b"/".join(folders[: place + 1]))
                below = os.open(folder, _FOLDER, dir_fd=at)
                os.close(at)
                at = below
            yield at, name
        finally:
            os.close(at)

    def _make_folder(self, at: int, name: bytes, path: bytes) -> None:
        try:
            os.mkdir(name, dir_fd=at)
        except FileExistsError:
            return
        self._folders.add(path)
        self._note(b"folder", path)

    def _seen(self, path: bytes) -> Seen:
        """What stands at a path; NOTHING where nothing does that can be reached without
        following a link."""
        try:
            with self._parent(path) as (at, name):
                return Seen.of(os.stat(name, dir_fd=at, follow_symlinks=False))
        except OSError:
            return NOTHING

    def _attempt(self, path: bytes, act: Callable[[bytes], None]) -> bool:
        try:
            if path.split(b"/", 1)[0] == OWN:
                raise Trouble("the name .railburnet is kept for the mirror's own files")
            act(path)
        except Trouble as trouble:
            self._trouble(path, str(trouble))
            return False
        except OSError as error:
            if error.errno in TRIED_AGAIN and self._staged.get(path) is not None:
                self.lacking[path] = error.errno
                return False
            in_way = error.errno in (errno.ENOTDIR, errno.ELOOP)
            self._trouble(
                path,
                "a file or a link stands where a directory is wanted; it is left alone"
                if in_way
                else str(error.strerror),
            )
            return False
        self._told.pop(path, None)
        return True

    def _trouble(self, path: bytes, why: str) -> None:
        """Tells it, unless just that was told of the path already."""
        if self._told.get(path) != why:
            self._told[path] = why
            self._tell(path, why)

    def _remove(self, path: bytes) -> None:
        made, seen = self._made.pop(path, None), self._seen(path)
        if made is None:
            return
        if seen is not NOTHING:
            if seen != made:
                raise Trouble("gone from the mount, but somebody changed it here; it is left alone")
            with self._parent(path) as (at, name):
                os.unlink(name, dir_fd=at)
        self._remove_folders(path)

    def _remove_folders(self, path: bytes) -> None:
        """Takes away the directories above a path that this made and that are empty now."""
        above = path.rpartition(b"/")[0]
        while above in self._folders:
            try:
                with self._parent(above) as (at, name):
                    os.rmdir(name, dir_fd=at)
            except OSError:
                return
            self._folders.discard(above)
            above = above.rpartition(b"/")[0]

    def _install(self, path: bytes) -> None:
        staged = self._staged[path]
        assert staged is not None
        new = os.stat(staged, dir_fd=self._own, follow_symlinks=False)
        with self._parent(path, make=True) as (at, name):
            try:
                there = os.stat(name, dir_fd=at, follow_symlinks=False)
            except FileNotFoundError:
                pass
            else:
                if self._equal(there, at, name, new, staged):
                    self._drop(staged)
                    return
                if self._made.get(path) != Seen.of(there):
                    what = "a directory" if stat.S_ISDIR(there.st_mode) else "a file"
                    raise Trouble(
                        f"{what} that this mirror didn't make stands there; it is left alone"
                    )
            # Noted first: a crash in between leaves a note of a file that isn't there, and none
            # without its note.
            self._note(b"%d,%d,%d,%d" % Seen.of(new), path)
            self._log.flush()
            os.rename(staged, name, src_dir_fd=self._own, dst_dir_fd=at)
            self._made[path] = Seen.of(new)

    def _equal(
        self, there: os.stat_result, at: int, name: bytes, new: os.stat_result, staged: bytes
    ) -> bool:
        """Whether a file that is there is what is wanted, in its kind, exec bit and bytes."""
        if (there.st_mode ^ new.st_mode) & 0o170100 or there.st_size != new.st_size:
            return False
        if stat.S_ISLNK(there.st_mode):
            return os.readlink(name, dir_fd=at) == os.readlink(staged, dir_fd=self._own)
        return _read(name, at) == _read(staged, self._own)


def _read(name: bytes, at: int) -> bytes:
    with os.fdopen(
        os.open(name, os.O_RDONLY | os.O_NOFOLLOW | os.O_NONBLOCK | os.O_CLOEXEC, dir_fd=at), "rb"
    ) as file:
        return file.read()
