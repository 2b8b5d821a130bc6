#!/usr/bin/env python3
"""Runs `rt ci`, or `rt ci CRATE..` if crates are named, and ends with its status.

What passed on this machine is kept: by rt itself, or by kept.py in GATE_KEPT if the kit's rt keeps
nothing. An empty GATE_KEPT proves everything again.

At the end it prints on standard error how many minutes of a processor went to proofs, to seeds and
edits, to tests and to programs, and which ten crates took most.
"""

from __future__ import annotations

import contextvars
import importlib.machinery
import importlib.util
import os
import resource
import shutil
import subprocess
import sys
import threading
import time
from collections import Counter
from concurrent.futures import Future, ThreadPoolExecutor
from types import ModuleType
from typing import Any, Callable

from kept import keep

PROOFS, EDITS, TESTS, PROGRAMS, OTHER = "proofs", "seeds and edits", "tests", "programs", "other"
DEAREST = 10


class Spent:
    """The processor time of the commands that a run starts, by what they are for and by crate."""

    def __init__(self) -> None:
        self.seconds: Counter[tuple[str, str]] = Counter()
        self.purpose = contextvars.ContextVar("purpose", default=(OTHER, ""))
        self.lock = threading.Lock()
        self.began = time.monotonic()

    def measure_commands(self) -> None:
        """Adds each command's time once it has ended, with that of the commands that it awaited."""

        def try_wait(command: subprocess.Popen[Any], flags: int) -> tuple[int, int]:
            try:
                pid, status, used = os.wait4(command.pid, flags)
            except ChildProcessError:
                return command.pid, 0  # as in subprocess: somebody else has awaited it
            if pid == command.pid:
                with self.lock:
                    self.seconds[self.purpose.get()] += used.ru_utime + used.ru_stime
            return pid, status

        setattr(subprocess.Popen, "_try_wait", try_wait)

    def note(self, call: Callable[..., Any], kind: Callable[..., str]) -> Callable[..., Any]:
        """Wraps a call whose first argument is a crate. `kind` says what its commands are for."""

        def noted(crate: Any, *given: Any, **named: Any) -> Any:
            was = self.purpose.set((kind(*given, **named), crate.name))
            try:
                return call(crate, *given, **named)
            finally:
                self.purpose.reset(was)

        return noted

    def note_all(self, rt: ModuleType) -> None:
        """Wraps the calls in which this kit's `rt ci` starts its commands."""

        def wrap(owner: Any, name: str, kind: Callable[..., str]) -> None:
            # Another kit may have no such call. Its time is then told as other.
            if hasattr(owner, name):
                setattr(owner, name, self.note(getattr(owner, name), kind))

        wrap(rt.Crate, "ci", lambda flags, tests: TESTS if tests else PROOFS)
        wrap(rt, "checked", lambda *given: EDITS)
        wrap(rt, "run", lambda tests, ending="": TESTS if tests else PROGRAMS)
        rt.rtlib.ThreadPoolExecutor = CarryingPool

    def report(self) -> str:
        """Returns the totals, a line each."""
        kinds: Counter[str] = Counter()
        crates: Counter[str] = Counter()
        for (kind, crate), seconds in self.seconds.items():
            kinds[kind] += seconds
            crates[crate] += seconds
        own = resource.getrusage(resource.RUSAGE_SELF)
        kinds[OTHER] += own.ru_utime + own.ru_stime
        del crates[""]
        clock = (time.monotonic() - self.began) / 60
        total = sum(kinds.values()) / 60
        lines = [f"gate: {total:.1f} minutes of a processor, {clock:.1f} of the clock"]
        lines += [f"{kinds[it] / 60:9.1f}  {it}" for it in (PROOFS, EDITS, TESTS, PROGRAMS, OTHER)]
        lines += ["gate: the crates that took most"] if crates else []
        lines += [f"{it / 60:9.1f}  {crate}" for crate, it in crates.most_common(DEAREST)]
        return "\n".join(lines)


class CarryingPool(ThreadPoolExecutor):
    """A pool whose threads work for the purpose of the caller."""

    def submit(self, call: Callable[..., Any], /, *given: Any, **named: Any) -> Future[Any]:
        return super().submit(contextvars.copy_context().run, call, *given, **named)


def load(file: str) -> ModuleType:
    """Returns the program in a file as a module."""
    loader = importlib.machinery.SourceFileLoader("rt", file)
    spec = importlib.util.spec_from_loader("rt", loader)
    assert spec is not None
    module = importlib.util.module_from_spec(spec)
    loader.exec_module(module)
    return module


def main(names: list[str]) -> int:
    command = shutil.which("rt")
    if command is None:
        why = "no command rt: install the Rattle kit and put its bin/ on the PATH"
        print(f"gate: {why}", file=sys.stderr)
        return 2
    sys.dont_write_bytecode = True  # the kit's folder is not ours
    rt = load(os.path.realpath(command))
    spent = Spent()
    spent.measure_commands()
    spent.note_all(rt)
    words = keep(rt, os.environ.get("GATE_KEPT", "/var/cache/railburnet-gate"), names)
    try:
        return rt.main(words)
    finally:
        sys.stdout.flush()
        print(spent.report(), file=sys.stderr)


if __name__ == "__main__":
    sys.exit(main(sys.argv[1:]))
