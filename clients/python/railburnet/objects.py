"""Writes the objects of commits as `git cat-file --batch` does, each once and after those that
it names, for `edend serve --objects FILE`."""
from __future__ import annotations

import hashlib
import subprocess
import sys
import tempfile
import time
from contextlib import contextmanager
from typing import IO, Dict, Iterator, List, NamedTuple, Optional, Sequence, Set, Tuple

MOST_BYTES = 8_388_608
TREE, SUBMODULE, SHARED = b"40000", b"160000", b"100664"
FILES = (b"100644", b"100755", b"120000")


class Failure(Exception):
    """What ends the program with status 1, as a message."""


class Entry(NamedTuple):
    """An entry of a tree."""

    mode: bytes
    name: bytes
    id: str


class Fault(NamedTuple):
    """What a mount has no kind for."""

    path: bytes
    why: str
    can_go: bool = True


class Repository:
    """A repository's objects, as processes of git tell them."""

    def __init__(self, folder: str) -> None:
        self._git = ["git", "--no-replace-objects", "-C", folder]
        form = self._said("rev-parse", "--show-object-format")
        if form != "sha1":
            raise Failure(f"{folder} names its objects by {form}, and a mount by sha1")
        reader = subprocess.Popen(
            [*self._git, "cat-file", "--batch"], stdin=subprocess.PIPE, stdout=subprocess.PIPE
        )
        assert reader.stdin is not None and reader.stdout is not None
        self._reader, self._asked, self._answered = reader, reader.stdin, reader.stdout

    def __enter__(self) -> Repository:
        return self

    def __exit__(self, *_: object) -> None:
        self._asked.close()
        self._answered.close()
        self._reader.wait()

    def _said(self, *words: str) -> str:
        try:
            done = subprocess.run(
                [*self._git, *words], stdout=subprocess.PIPE, stderr=subprocess.PIPE, check=False
            )
        except FileNotFoundError:
            raise Failure("needs the command git, which is not here") from None
        if done.returncode:
            raise Failure(
                done.stderr.decode("utf-8", "replace").strip() or f"git {' '.join(words)} failed"
            )
        return done.stdout.decode().strip()

    def commit(self, name: str) -> str:
        """The id of the commit that a name stands for."""
        try:
            return self._said("rev-parse", "--verify", "--end-of-options", f"{name}^{{commit}}")
        except Failure:
            raise Failure(f"{name} is no commit") from None

    def payload(self, id: str) -> bytes:
        """What an object holds."""
        self._asked.write(id.encode() + b"\n")
        self._asked.flush()
        return _object(self._answered)[1]

    def sizes(self, ids: Sequence[str]) -> Iterator[int]:
        """The number of bytes of each object."""
        with self._batch(ids, "--batch-check=%(objectsize)") as lines:
            for line in lines:
                if not line.rstrip().isdigit():
                    raise Failure(f"an object isn't there: {line.decode().strip()}")
                yield int(line)

    def objects(self, ids: Sequence[str]) -> Iterator[Tuple[bytes, bytes]]:
        """The header line and the payload of each object."""
        with self._batch(ids, "--batch") as text:
            for _ in ids:
                yield _object(text)

    @contextmanager
    def _batch(self, ids: Sequence[str], how: str) -> Iterator[IO[bytes]]:
        """What git prints of objects. Their ids stand in a file, so that no two pipes wait for
        each other."""
        with tempfile.TemporaryFile() as listed:
            listed.writelines(id.encode() + b"\n" for id in ids)
            listed.seek(0)
            with subprocess.Popen(
                [*self._git, "cat-file", how, "--buffer"], stdin=listed, stdout=subprocess.PIPE
            ) as process:
                assert process.stdout is not None
                yield process.stdout


def _object(text: IO[bytes]) -> Tuple[bytes, bytes]:
    head = text.readline()
    parts = head.split()
    if len(parts) != 3:
        raise Failure(f"an object isn't there: {head.decode().strip()}")
    payload = text.read(int(parts[2]))
    text.read(1)
    return head, payload


def entries_of(payload: bytes) -> List[Entry]:
    """The entries of a tree."""
    entries, at = [], 0
    while at < len(payload):
        end = payload.index(b"\0", at)
        mode, _, name = payload[at:end].partition(b" ")
        entries.append(Entry(mode.lstrip(b"0"), name, payload[end + 1 : end + 21].hex()))
        at = end + 21
    return entries


class Walk:
    """What commits name: blobs and trees, each once."""

    def __init__(self, repository: Repository, tell: Progress) -> None:
        self._repository, self._tell = repository, tell
        self.blobs: Dict[str, bytes] = {}
        """Of each blob a path at which it stands."""
        self.trees: Dict[str, List[Entry]] = {}
        """Each tree, behind those that it names."""
        self.payloads: Dict[str, bytes] = {}
        self.faults: List[Fault] = []
        self._reach: Dict[str, Tuple[int, int]] = {}
        self.large: Set[str] = set()

    def add(self, id: str, path: bytes = b"", level: int = 0) -> None:
        """Adds a tree with all below it. `path` is where it stands, with a slash behind it."""
        if id in self.trees:
            return
        if level > 64:
            raise Failure(f"deeper than 64 directories: {shown(path)}")
        payload = self._repository.payload(id)
        entries = entries_of(payload)
        if len(payload) > MOST_BYTES:
            self.faults.append(
                Fault(path, f"a directory whose tree has {len(payload):,} bytes", False)
            )
        for entry in entries:
            self._entry(entry, path + entry.name, level)
        self.trees[id], self.payloads[id] = entries, payload
        self._limits(id, path)
        self._tell.turn(f"{len(self.trees):,} directories, {len(self.blobs):,} contents")

    def _entry(self, entry: Entry, path: bytes, level: int) -> None:
        if len(entry.name) > 255:
            self.faults.append(Fault(path, "a name above 255 bytes"))
        elif entry.mode == TREE:
            self.add(entry.id, path + b"/", level + 1)
        elif entry.mode == SUBMODULE:
            self.faults.append(Fault(path, "a submodule, mode 160000"))
        else:
            if entry.mode not in FILES:
                self.faults.append(
                    Fault(path, f"a file of mode {entry.mode.decode()}", entry.mode == SHARED)
                )
            self.blobs.setdefault(entry.id, path)

    def _limits(self, id: str, path: bytes) -> None:
        """How deep a tree is and how long its longest path; and whether it is the lowest that is
        too deep or too long."""
        below = [
            (self._reach.get(e.id, (0, 0)) if e.mode == TREE else (0, -1), e.name)
            for e in self.trees[id]
        ]
        depth = 1 + max((reach[0] for reach, _ in below), default=0)
        length = max((reach[1] + 1 + len(name) for reach, name in below), default=0)
        self._reach[id] = depth, length
        if (depth > 64 or length > 1024) and not any(
            reach[0] > 64 or reach[1] > 1024 for reach, _ in below
        ):
            self.faults.append(
                Fault(
                    path,
                    f"a directory with a path of {length:,} bytes or {depth} names below it",
                    False,
                )
            )

    def check_sizes(self) -> None:
        """Finds the contents above the limit."""
        for (id, path), size in zip(self.blobs.items(), self._repository.sizes(list(self.blobs))):
            if size > MOST_BYTES:
                self.faults.append(Fault(path, f"a file of {size:,} bytes"))
                self.large.add(id)


class Anew:
    """Trees without what a mount has no kind for."""

    def __init__(self, walk: Walk) -> None:
        self.ids: Dict[str, Optional[str]] = {}
        """Of each tree the one that stands for it, or None where nothing of it is left."""
        self.trees: Dict[str, bytes] = {}
        self._large = walk.large
        for id, entries in walk.trees.items():
            self._add(id, entries, walk.payloads[id])

    def _add(self, id: str, entries: List[Entry], payload: bytes) -> None:
        kept = [new for new in map(self._kept, entries) if new is not None]
        if kept != entries:
            payload = b"".join(
                b"%s %s\0%s" % (mode, name, bytes.fromhex(below)) for mode, name, below in kept
            )
        new = hashlib.sha1(b"tree %d\0" % len(payload) + payload).hexdigest()
        empty = bool(entries) and not kept
        self.ids[id] = None if empty else new
        if not empty:
            self.trees.setdefault(new, payload)

    def _kept(self, entry: Entry) -> Optional[Entry]:
        if entry.mode == SUBMODULE or len(entry.name) > 255 or entry.id in self._large:
            return None
        if entry.mode == TREE:
            below = self.ids[entry.id]
            return None if below is None else entry._replace(id=below)
        return entry._replace(mode=b"100644") if entry.mode == SHARED else entry

    def commit(self, payload: bytes, tree: str) -> Tuple[str, bytes]:
        """A commit over the tree that stands for its own; the empty tree where nothing is left."""
        new = self.ids[tree]
        if new is None:
            new = hashlib.sha1(b"tree 0\0").hexdigest()
            self.trees.setdefault(new, b"")
        payload = payload.replace(tree.encode(), new.encode(), 1)
        return hashlib.sha1(b"commit %d\0" % len(payload) + payload).hexdigest(), payload


class Progress:
    """How far it is: on a terminal a line that is written over, ten times a second at most; and
    messages."""

    def __init__(self, live: bool) -> None:
        self._live = live
        self._next = 0.0

    def turn(self, text: str) -> None:
        """A step of work is done."""
        if self._live and time.monotonic() >= self._next:
            print(f"\r\033[Kobjects: {text}", end="", file=sys.stderr, flush=True)
            self._next = time.monotonic() + 0.1

    def say(self, text: str) -> None:
        """Something that stays to be read."""
        print(
            f"{chr(13)}{chr(27)}[K" if self._live else "",
            f"objects: {text}",
            sep="",
            file=sys.stderr,
            flush=True,
        )


def shown(path: bytes) -> str:
    """A path for people."""
    return (
        "".join(
            c if c.isprintable() else ascii(c)[1:-1]
            for c in path.decode("utf-8", "backslashreplace")
        )
        or "the top directory"
    )


class Written(NamedTuple):
    """What became of commits: of each the id under which it was written, and what was left out,
    with paths and reasons."""

    ids: Dict[str, str]
    faults: List[Tuple[str, str]]
    number: int
    size: int


class Stuck(Failure):
    """Commits hold what a mount can't, and nothing was written."""

    def __init__(self, faults: List[Tuple[str, str]], leave_out: bool) -> None:
        super().__init__(
            "a mount has no kind for that"
            + ("" if leave_out else "; --leave-out writes the commits anew without it")
        )
        self.faults = faults


def write(
    folder: str,
    names: Sequence[str],
    out: IO[bytes],
    leave_out: bool,
    progress: Optional[Progress] = None,
) -> Written:
    """Writes the objects of commits of a repository: blobs, then trees, then commits."""
    progress = progress or Progress(live=False)
    with Repository(folder) as repository:
        ids = list(dict.fromkeys(repository.commit(name) for name in names))
        payloads = {id: repository.payload(id) for id in ids}
        walk = Walk(repository, progress)
        for payload in payloads.values():
            walk.add(payload[5:45].decode())
        walk.check_sizes()
        stuck = [fault for fault in walk.faults if not (fault.can_go and leave_out)]
        if stuck:
            raise Stuck(_shown_faults(stuck), leave_out)
        anew = Anew(walk)
        commits = {
            id: anew.commit(payload, payload[5:45].decode()) for id, payload in payloads.items()
        }
        count, size = _write_all(walk, anew, repository, dict(commits.values()), out, progress)
    return Written(
        {id: new for id, (new, _) in commits.items()}, _shown_faults(walk.faults), count, size
    )


def _shown_faults(faults: List[Fault]) -> List[Tuple[str, str]]:
    return [(shown(fault.path), fault.why) for fault in faults]


def _write_all(
    walk: Walk,
    anew: Anew,
    repository: Repository,
    commits: Dict[str, bytes],
    out: IO[bytes],
    progress: Progress,
) -> Tuple[int, int]:
    """Writes all objects, and returns their number and that of the bytes."""
    written = done = 0
    blobs = [id for id in walk.blobs if id not in walk.large]
    count = len(blobs) + len(anew.trees) + len(commits)
    made = (
        (b"%s tree %d\n" % (id.encode(), len(payload)), payload)
        for id, payload in anew.trees.items()
    )
    last = (
        (b"%s commit %d\n" % (id.encode(), len(payload)), payload)
        for id, payload in commits.items()
    )
    for objects in (repository.objects(blobs), made, last):
        for head, payload in objects:
            out.write(head)
            out.write(payload)
            out.write(b"\n")
            written += len(head) + len(payload) + 1
            done += 1
            progress.turn(f"{done:,} of {count:,} objects, {written / 1e6:,.1f} MB")
    out.flush()
    return count, written
