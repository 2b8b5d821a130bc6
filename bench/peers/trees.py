"""Lists, differences, checkouts and loads of commits, beside Git."""
from __future__ import annotations

import os
import re
import shutil
import subprocess
from functools import partial
from pathlib import Path
from typing import Dict, Iterable, Iterator, List, Sequence

from beside import (
    LIMIT,
    QUERY,
    ROOT,
    Room,
    Timed,
    Wrong,
    ask,
    changed_since,
    frames,
    length_of,
    must_equal,
    served,
    table,
)

EMPTY_TREE = "4b825dc642cb6eb9a060e54bf8d69288fbee4904"
LAST = "end\n"
"""A line that `git diff-tree --stdin` prints again, after what it was asked before."""
HEADER = re.compile(rb"([0-9a-f]{40}) (?:blob|tree|commit) ([0-9]+)\n")
PLAIN = ["-c", "pack.compression=0", "-c", "core.compression=0"]
"""Has Git compress nothing."""


def path_of(number: int) -> str:
    """Returns a file's path: a hundred files below each directory, and a hundred of these."""
    return f"d{number // 10_000:02}/e{number // 100 % 100:02}/f{number % 100:02}"


def stream_of(name: str, count: int, contents: int, is_changed: bool) -> Iterator[str]:
    """Yields what `git fast-import` reads of a commit, of which a file in a thousand differs."""
    yield f"commit refs/heads/{name}\ncommitter a <a> 0 +0000\ndata 0\ndeleteall\n"
    for number in range(count):
        text = f"{'other' if is_changed and number % 1_000 == 50 else 'text'} {number % contents}"
        yield f"M 100644 inline {path_of(number)}\ndata {len(text)}\n{text}\n"


def ids_of(batch: str) -> List[bytes]:
    """Returns the ids of the objects that `git cat-file --batch` printed."""
    ids, at = [], 0
    content = Path(batch).read_bytes()
    while at < len(content):
        header = HEADER.match(content, at)
        assert header, content[at : at + 80]
        ids.append(header[1])
        at = header.end() + int(header[2]) + 1
    return ids


class Repository:
    """A repository of Git's, and what of it edend reads."""

    def __init__(self, room: Room, folder: Path) -> None:
        self.room, self.words = room, ["git", "--git-dir", str(folder)]

    def git(self, *words: str, given: bytes = b"") -> bytes:
        """Returns what Git prints."""
        return subprocess.run(
            [*self.words, *words], input=given, stdout=subprocess.PIPE, check=True
        ).stdout

    def id_of(self, name: str) -> str:
        """Returns the id of an object."""
        return self.git("rev-parse", "--verify", name).decode().strip()

    def label(self, name: str) -> str:
        """Returns the label that edend binds to a commit."""
        return self.id_of(f"{name}^{{commit}}")[:32]

    def mount(self, name: str) -> bytes:
        """Returns the line that mounts a commit."""
        return b"mount %s 1 %d\n" % (self.label(name).encode(), LIMIT)

    def names(self, name: str) -> bytes:
        """Returns the paths of a commit, each a line."""
        return self.git("ls-tree", "-r", "--name-only", name)

    def batch(self, *names: str) -> str:
        """Writes the objects of commits as edend reads them, and returns the file's path."""
        script = str(ROOT / "tests-with-git" / "batch-of.sh")
        printed = subprocess.run(
            [script, self.words[-1], *names], stdout=subprocess.PIPE, check=True
        ).stdout
        return self.room.put("-".join(["batch", *names]), printed)


def made(room: Room, name: str, *commits: Iterable[str]) -> Repository:
    """Makes a repository of commits, in one pack as Git packs it."""
    folder = room.folder / name
    subprocess.run(["git", "init", "-q", "--bare", str(folder)], check=True)
    repository = Repository(room, folder)
    repository.git("fast-import", "--quiet", given="".join(map("".join, commits)).encode())
    repository.git("repack", "-a", "-d", "-q")
    return repository


def lines(paths: bytes) -> List[bytes]:
    """Returns the paths of lines, ascending."""
    return sorted(paths.splitlines())


def differing(room: Room, repository: Repository, one: str, two: str, times: int) -> Timed:
    """Returns how one process of Git that stays compares two trees."""
    pair = f"{repository.id_of(one)} {repository.id_of(two)}\n"
    file = room.put(f"pair-{one[:8]}", (pair + LAST).encode())
    words = ["diff-tree", "--stdin", "-r", "--name-only"]
    paths = len(repository.git("diff-tree", "-r", "--name-only", one, two))
    wanted = [len(pair) + paths + len(LAST)]
    return partial(
        room.timed, wanted, "talk", LAST, times, file, file, file, *repository.words, *words
    )


def measure_list(room: Room, count: int) -> None:
    """Measures a list of all paths of a commit."""
    repository = made(room, f"list-{count}", stream_of("one", count, 1_000, False))
    names = repository.names("one")
    with served(room, [repository.mount("one")], repository.batch("one")) as daemon:
        basis = frames.Basis(QUERY)
        (reply,) = ask(daemon.port, basis)
        must_equal("the list", reply.paths, lines(names))
        asked = room.put("basis", frames.encode_request(basis))
        times = max(3, 300_000 // count // (10 if room.is_quick else 1))
        words = [*repository.words, "ls-tree", "-r", "--name-only", "one"]
        wanted = [length_of(reply.paths, 0, 0)]
        room.row(
            f"list of {count:,} paths",
            lambda: room.timed(wanted, "ask", daemon.port, times, asked),
            {
                "`git ls-tree -r`, a process": lambda: room.timed([len(names)], "run", *words),
                "`git diff-tree --stdin`, which stays": differing(
                    room, repository, EMPTY_TREE, "one^{tree}", times
                ),
            },
        )
    shutil.rmtree(repository.words[-1])


def measure_lists(room: Room) -> None:
    """Measures lists."""
    with table("Lists"):
        for count in (1_000, 10_000) if room.is_quick else (1_000, 100_000, 1_000_000):
            measure_list(room, count)


def measure_difference(
    room: Room, repository: Repository, commits: Sequence[str], work: str
) -> None:
    """Measures a poll over a checkout from a commit, or from the empty one, to another."""
    *before, after = commits
    mount = repository.mount(before[0]) if before else b"mount empty 1 %d\n" % LIMIT
    one, two = (EMPTY_TREE, *(repository.id_of(f"{it}^{{tree}}") for it in commits))[-2:]
    words = ["diff-tree", "-r", "--name-only", one, two]
    names = repository.git(*words)
    with served(room, [mount], repository.batch(*commits)) as daemon:
        daemon.say([b"checkout %s normal\n" % repository.label(after).encode()])
        daemon.wait_for(2)
        poll = frames.Poll(QUERY, frames.Position(1, 1))
        paths = changed_since(daemon.port, poll)
        must_equal("the difference", paths, lines(names))
        asked = room.put("poll", frames.encode_request(poll))
        times = max(3, 50_000 // len(paths) // (10 if room.is_quick else 1))
        wanted, whole = [length_of(paths, 1, 4)], [*repository.words, *words]
        room.row(
            work.format(len(paths)),
            lambda: room.timed(wanted, "ask", daemon.port, times, asked),
            {
                "`git diff-tree -r`, a process": lambda: room.timed([len(names)], "run", *whole),
                "`git diff-tree --stdin`, which stays": differing(
                    room, repository, one, two, times
                ),
            },
        )


def read_tree(room: Room, repository: Repository) -> float:
    """Measures `git read-tree` from one commit to the other, into an index that has the first."""
    os.environ["GIT_INDEX_FILE"] = str(room.folder / "index")
    repository.git("read-tree", "one")
    command = [*repository.words, "read-tree", "-i", "-m", "one", "two"]
    took = room.timed([0], "run", *command)
    written = repository.git("write-tree").decode().strip()
    must_equal("the index", written, repository.id_of("two^{tree}"))
    del os.environ["GIT_INDEX_FILE"]
    return took


def measure_checkout(room: Room, repository: Repository, work: str) -> None:
    """Measures checkouts from one commit to the other and back, in a process that stays."""
    one, two = repository.label("one"), repository.label("two")
    times = 10 if room.is_quick else 100
    last = "conflicts 0\n"
    checkouts = [f"checkout {it} normal\n".encode() for it in (one, two)]
    files = [room.put("first", repository.mount("one") + checkouts[0])]
    files += [room.put(f"checkout-{it}", checkouts[it]) for it in (1, 0)]
    wanted = [len(f"at 1 {2 + times} {one}\n{last}")]
    words = [room.edend, "run", "--objects", repository.batch("one", "two")]
    room.row(
        work,
        lambda: room.timed(wanted, "talk", last, times, *files, *words),
        {"`git read-tree -i -m`, a process": lambda: read_tree(room, repository)},
    )


def measure_commits(room: Room) -> None:
    """Measures differences and a checkout."""
    count = 10_000 if room.is_quick else 100_000
    repository = made(
        room, "commits", stream_of("one", count, count, False), stream_of("two", count, count, True)
    )
    with table("Two commits"):
        of_all = f"of {count:,} files"
        measure_difference(room, repository, ["one", "two"], f"difference of {{:,}} {of_all}")
        measure_difference(room, repository, ["one"], "difference of no file to {:,}")
        measure_checkout(room, repository, f"checkout of {count // 1_000} {of_all}")
    shutil.rmtree(repository.words[-1])


def fresh(room: Room) -> List[str]:
    """Makes an empty repository, and returns the words that begin a command in it."""
    folder = room.folder / "fresh"
    shutil.rmtree(folder, ignore_errors=True)
    subprocess.run(["git", "init", "-q", "--bare", str(folder)], check=True)
    return ["git", "--git-dir", str(folder)]


def index_pack(room: Room, pack: str, count: int, *words: str) -> float:
    """Measures `git index-pack` of a pack, in a repository that has nothing."""
    index = room.folder / "pack.idx"
    index.unlink(missing_ok=True)
    command = [*fresh(room), "index-pack", *words, "-o", str(index), pack]
    took = room.timed(None, "run", *command)
    with open(index, "rb") as source:
        listed = subprocess.check_output(["git", "show-index"], stdin=source)
    must_equal("objects of the index", len(listed.splitlines()), count)
    return took


def fast_import(room: Room, stream: str, name: str, commit: str) -> float:
    """Measures `git fast-import` without compression, in a repository that has nothing."""
    repository = fresh(room)
    command = [*repository, *PLAIN, "fast-import", "--quiet", "--depth=0"]
    took = room.timed([0], "run", *command, stdin=stream)
    # A commit's id says which objects are below it.
    made_id = subprocess.check_output([*repository, "rev-parse", f"refs/heads/{name}"])
    must_equal("the commit imported", made_id.decode().strip(), commit)
    return took


def load_peers(
    room: Room, repository: Repository, ids: List[bytes], names: List[str]
) -> Dict[str, Timed]:
    """Returns what is measured beside a load."""
    given = b"".join(it + b"\n" for it in ids)
    packed = room.put("packed.pack", repository.git("pack-objects", "-q", "--stdout", given=given))
    how = ["pack-objects", "-q", "--stdout", "--window=0", "--no-reuse-delta", "--no-reuse-object"]
    plain = room.put("plain.pack", repository.git(*PLAIN, *how, given=given))
    stream = room.put("stream", repository.git("fast-export", "--full-tree", *names))
    one, count, last = "--threads=1", len(ids), names[-1]
    commit = repository.id_of(last)
    return {
        "`git index-pack`, one thread": lambda: index_pack(room, packed, count, one),
        "`git index-pack`, its own threads": lambda: index_pack(room, packed, count),
        "`git index-pack`, one thread, uncompressed": lambda: index_pack(room, plain, count, one),
        "`git fast-import`, uncompressed": lambda: fast_import(room, stream, last, commit),
    }


def measure_load(room: Room, repository: Repository, names: List[str], what: str) -> None:
    """Measures the load of the objects of commits, up to the mount of the last one."""
    batch = repository.batch(*names)
    mount = repository.mount(names[-1])
    script = room.put("mount", mount)
    ids = ids_of(batch)
    words = [room.edend, "run", "--objects", batch]
    listed = subprocess.run(words, input=mount + b"list\n", stdout=subprocess.PIPE, check=True)
    files = len(repository.git("ls-tree", "-r", "-z", "--name-only", names[-1]).split(b"\0")) - 1
    if b"\nfiles %d\n" % files not in listed.stdout:
        raise Wrong(f"edend does not list {files} files")
    wanted = [len(f"at 1 1 {repository.label(names[-1])}\n")]
    room.row(
        f"{what}, {len(ids):,} objects, {os.path.getsize(batch) / 1e6:.0f} MB",
        lambda: room.timed(wanted, "run", *words, stdin=script),
        load_peers(room, repository, ids, names),
    )


def found(room: Room) -> Repository:
    """Makes a repository of files of this machine, with two commits."""
    script = """
        set -euo pipefail
        fail() { echo "$*" >&2; exit 1; }
        REPOSITORY='' FROM='' TO='' work=$2
        . "$1"
        make_repository
        git -C "$repository" branch -f one "$from"
        git -C "$repository" branch -f two "$to"
    """
    source = str(ROOT / "tests-with-git" / "made-repository.sh")
    subprocess.run(["bash", "-c", script, "bash", source, str(room.folder)], check=True)
    return Repository(room, room.folder / "repository" / ".git")


def measure_loads(room: Room) -> None:
    """Measures loads."""
    count = 10_000 if room.is_quick else 100_000
    with table("Loads of objects"):
        repository = made(room, "loads", stream_of("one", count, count, False))
        measure_load(room, repository, ["one"], f"{count:,} small files")
        if not room.is_quick:
            measure_load(room, found(room), ["one", "two"], "files of this machine")
