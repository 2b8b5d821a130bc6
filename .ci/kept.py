"""What passed on this machine, for a kit whose own `rt ci` keeps nothing.

A proof, the tests of a crate and a refused edit are kept under a sum of all that they were made
from: the crate's files, those of every library below, its line of crates.txt, HANDLES, and the
kit. A result that failed is never kept. Programs and tests are run in every run.
"""

from __future__ import annotations

import contextvars
import functools
import hashlib
import os
import shutil
import sys
import tempfile
from concurrent.futures import ThreadPoolExecutor
from pathlib import Path
from types import ModuleType
from typing import Any, Callable, Optional

# How many edits of a crate are tried at a time.
EDITS_AT_ONCE = int(os.environ.get("GATE_EDITS", "1"))


def sum_of(*parts: Any) -> str:
    return hashlib.sha256(repr(parts).encode()).hexdigest()


def digest(file: str) -> str:
    """Returns the sum of a file, and reads it again only after it was changed."""
    it = os.stat(file)
    return digest_of(file, it.st_ino, it.st_size, it.st_mtime_ns)


@functools.lru_cache(maxsize=None)
def digest_of(file: str, *state: int) -> str:
    return hashlib.sha256(Path(file).read_bytes()).hexdigest()


class Keys:
    """The sums that results are kept under. They name no folder: each clone has the same."""

    def __init__(self, rt: ModuleType, root: Path) -> None:
        command, kit = Path(rt.__file__ or ""), Path(rt.KIT)
        files = [command, command.with_name("rtlib.py"), kit / "KIT-ID", kit / "WHAT"]
        files += [root / "HANDLES"]
        self.kit = [(it.name, it.read_bytes()) for it in files if it.is_file()]
        self.files_of = rt.rtlib.files_of

    @functools.lru_cache(maxsize=None)
    def sources(self, crate: Any) -> str:
        files = [
            (it.replace(crate.folder, ""), Path(it).read_bytes())
            for it in self.files_of(crate.folder)
        ]
        said = crate.name, crate.said, crate.has_c, crate.of_kit
        return sum_of(self.kit, said, files, [self.sources(it) for it in crate.deps])

    def built(self, folder: str) -> str:
        """Sums a library as it was built: a proof fits only the libraries that it was made over."""
        files = sorted(f"{at}/{it}" for at, _, names in os.walk(folder) for it in names)
        return sum_of([(it.replace(folder, ""), digest(it)) for it in files])

    def of(self, crate: Any, what: Any) -> str:
        return sum_of(what, self.sources(crate), [self.built(it.rlib) for it in crate.below()])

    def of_edit(self, crate: Any, edit: str) -> str:
        return self.of(crate, ("edit", os.path.basename(edit), Path(edit).read_bytes()))


class Kept:
    """A folder of results, each whole or absent."""

    def __init__(self, room: Path, rt: ModuleType, root: Path) -> None:
        room.mkdir(parents=True, exist_ok=True)
        self.room, self.rt, self.root, self.keys = room, rt, root, Keys(rt, root)
        self.prove = rt.Crate.ci

    def entry(self, key: str) -> Path:
        return self.room / key[:2] / key

    def put(self, key: str, make: Callable[[Path], Any]) -> None:
        self.entry(key).parent.mkdir(exist_ok=True)
        with tempfile.TemporaryDirectory(dir=self.room) as room:
            make(Path(room) / "it")
            try:
                os.rename(f"{room}/it", self.entry(key))
            except OSError:
                pass  # another run kept the same

    def take(self, key: str, out: Path) -> str:
        """Copies what is kept of a proof into the crate's out/, and returns what was printed."""
        for it in (self.entry(key) / "out").iterdir():
            copy(it, out / it.name)
        return (self.entry(key) / "said").read_text(errors="replace")

    def ci(self, crate: Any, flags: list[str], tests: bool) -> int:
        what, out = "tests" if tests else "proof", Path(crate.folder) / "out"
        key = self.keys.of(crate, what)
        if self.entry(key).is_dir():
            print(self.take(key, out), end="", file=crate.out)
            self.rt.say(f"{crate.name}: kept from an earlier run", crate.out)
            return 0
        begin = crate.out.tell()
        status: int = self.prove(crate, flags, tests)
        if status or key != Keys(self.rt, self.root).of(crate, what):
            return status  # what failed, and what was changed meanwhile, is not kept
        crate.out.flush()
        crate.out.seek(begin)
        said = crate.out.read()

        def make(to: Path) -> None:
            (to / "out").mkdir(parents=True)
            (to / "said").write_text(said)
            programs = [crate.name, f"{crate.name}.by-rattle"]
            for name in [f"{crate.name}_tests"] if tests else ["rlib", *programs]:
                copy(out / name, to / "out" / name)

        self.put(key, make)
        self.take(key, out)  # so that the crates above are proved over the same copy in each run
        return 0

    def must_fail_all(
        self, crate: Any, edits: list[str], flags: list[str]
    ) -> list[tuple[bool, str]]:
        """Tries edits, each over a copy of one check of the crate, and keeps each refusal."""
        entries = {it: self.entry(self.keys.of_edit(crate, it)) for it in edits}
        left = [it for it in edits if not entries[it].is_file()]
        tried: dict[str, tuple[bool, str]] = {}
        with tempfile.TemporaryDirectory(prefix="rt-edits-") as seed:
            is_seeded = len(left) > 1 and not self.rt.checked(crate, {}, flags, seed).returncode

            def attempt(edit: str) -> None:
                with tempfile.TemporaryDirectory(prefix="rt-edits-") as room:
                    if is_seeded:
                        shutil.copytree(seed, room, dirs_exist_ok=True)
                        tried[edit] = self.rt.must_fail(crate, edit, flags, room)
                if edit not in tried or not tried[edit][0]:
                    tried[edit] = self.rt.must_fail(crate, edit, flags)
                is_refused, text = tried[edit]
                if is_refused:
                    self.put(entries[edit].name, lambda to: to.write_text(text))

            with ThreadPoolExecutor(EDITS_AT_ONCE) as pool:
                carried = [contextvars.copy_context() for _ in left]
                list(pool.map(lambda context, it: context.run(attempt, it), carried, left))
        return [tried.get(it) or (True, entries[it].read_text()) for it in edits]


def copy(it: Path, to: Path) -> None:
    if it.is_dir():
        shutil.rmtree(to, ignore_errors=True)  # a check that was killed may have left some of it
        shutil.copytree(it, to)
    elif it.is_file():
        shutil.copy2(it, to)


def weigh(rt: ModuleType) -> None:
    """Has `rt ci` begin sooner what takes longer than its lines say.

    That is edits, which are tried one after another, and what many libraries lie below.
    """
    run_all = rt.in_lanes

    def in_lanes(tasks: dict[Any, Any]) -> Any:
        weighed = {}
        for key, (waits, lines, needs, call) in tasks.items():
            if key[1] == "edits":
                edits = len([*Path("crates", key[0], "must-fail").glob("*.edit")])
                lines += lines * (edits + 2 * len(waits)) // 8
            elif key[1] == "tests":
                lines += lines * len(waits) // 2
            weighed[key] = waits, lines, needs, call
        return run_all(weighed)

    setattr(rt, "in_lanes", in_lanes)


def run_named(rt: ModuleType, names: list[str]) -> Callable[[dict[Any, Any]], None]:
    """Returns a run of the named crates' tasks and the proofs below, which ends the program."""
    run_all = rt.in_lanes

    def in_lanes(tasks: dict[Any, Any]) -> None:
        wanted = {key for key in tasks if key[0] in names}
        for key in reversed([*tasks]):
            wanted |= {*tasks[key][0]} if key in wanted else set()
        given = run_all({key: tasks[key] for key in tasks if key in wanted})
        tried = [it for key, gave in given.items() if key[1] == "edits" for it in gave[2]]
        for _, text in tried:
            rt.say(text)
        proofs = [gave for key, gave in given.items() if key[1] != "edits"]
        failed = sum(not it[0] for it in tried) + sum(not it for it in proofs)
        print(f"{len(proofs) + len(tried) - failed} passed, {failed} failed")
        sys.exit(1 if failed else 0)

    return in_lanes


def keep(rt: ModuleType, room: Optional[str], names: list[str]) -> list[str]:
    """Has `rt ci` keep what passes, and do named crates alone. Returns the words to call it."""
    if "rattle-kept" in Path(rt.__file__ or "").read_text():
        return ["ci", *names]
    weigh(rt)
    if room:
        kept = Kept(Path(room), rt, Path.cwd())
        rt.Crate.ci = lambda crate, flags, tests: kept.ci(crate, flags, tests)
        rt.must_fail_all = kept.must_fail_all
    if names:
        setattr(rt, "in_lanes", run_named(rt, names))
    return ["ci"]
