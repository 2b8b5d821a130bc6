"""railburnet git-setup."""
from __future__ import annotations

import argparse
import os
import re
import shlex
import subprocess
import sys
from typing import List, Optional, Tuple

from .. import git_fsmonitor, mount
from ..options import add_directory, directory_of
from ..output import print_words

DESCRIPTION = """Has Git ask Railburnet what changed in a checkout, instead of looking at each file.

It sets core.fsmonitor and core.untrackedCache in the configuration of the repository, and prints
what it has set. The first command of Git after that begins the mount. --undo takes both back."""
EPILOG = """status: 0 done; 1 DIR is not the top of a checkout, Git is too old, another program is set as
core.fsmonitor, or there is no edend; 2 the command line"""

OLDEST_GIT = (2, 26)
"""The first version of Git that gives a hook its token back."""
MONITOR, CACHE = "core.fsmonitor", "core.untrackedCache"
BEFORE = "railburnet.untrackedCacheBefore"
"""Holds what core.untrackedCache was, while the value is that of git-setup."""
UNSET = "unset"


class SetupFault(Exception):
    """Why Git can't be set up, as a message."""

    status = 1
    """The exit status of a command that it ends."""


class Repository:
    """A checkout, and the configuration of its repository."""

    def __init__(self, directory: bytes) -> None:
        self.root = os.path.realpath(directory)
        done = self._git("rev-parse", "--show-toplevel")
        shown = os.fsdecode(self.root)
        if done.returncode != 0:
            raise SetupFault(f"{shown} is not the top of a checkout of Git")
        top = os.path.realpath(done.stdout[:-1])
        if top != self.root:
            raise SetupFault(f"{shown} is not the top of the checkout, which is {os.fsdecode(top)}")

    def get(self, name: str) -> Optional[str]:
        """Returns what the repository's own configuration has, if it has it once."""
        done = self._git("config", "--local", "--get", name)
        return os.fsdecode(done.stdout[:-1]) if done.returncode == 0 else None

    def set(self, name: str, value: Optional[str]) -> None:
        """Sets a value, or takes it away."""
        if value is not None:
            done = self._git("config", "--local", name, value)
        elif self.get(name) is not None:
            done = self._git("config", "--local", "--unset", name)
        else:
            return
        if done.returncode != 0:
            raise SetupFault(f"{name} can't be set: {done.stderr.decode('utf-8', 'replace').strip()}")

    def _git(self, *words: str) -> subprocess.CompletedProcess[bytes]:
        return subprocess.run(["git", "-C", os.fsdecode(self.root), *words], check=False,
                              stdin=subprocess.DEVNULL, stdout=subprocess.PIPE, stderr=subprocess.PIPE)


def add_options(parser: argparse.ArgumentParser) -> None:
    """Adds the options of the subcommand."""
    parser.add_argument("--undo", action="store_true", help="take back what git-setup has set")
    add_directory(parser, "the top of a checkout; the directory that one is in by default")


def run(options: argparse.Namespace) -> int:
    """Sets Git up, or takes that back."""
    _check_version()
    repository = Repository(os.fsencode(directory_of(options) or "."))
    said = _undone(repository) if options.undo else _done(repository)
    for line in said:
        print_words(os.fsencode(line))
    return 0


def hook() -> str:
    """Returns the command that Git has a shell run. Nothing of the environment changes its imports."""
    path = os.path.abspath(git_fsmonitor.__file__)
    return shlex.join([sys.executable, "-IS", path])


def version_of(text: str) -> Tuple[int, ...]:
    """Reads `git version 2.39.5`."""
    found = re.match(r"git version (\d+)\.(\d+)", text)
    return tuple(map(int, found.groups())) if found else ()


def _check_version() -> None:
    """Raises SetupFault if there is no Git, or none that can be set up."""
    try:
        done = subprocess.run(["git", "--version"], stdout=subprocess.PIPE, check=False)
    except FileNotFoundError:
        raise SetupFault("no program git on the PATH") from None
    said = done.stdout.decode("utf-8", "replace").strip()
    if version_of(said) < OLDEST_GIT:
        wanted = ".".join(map(str, OLDEST_GIT))
        raise SetupFault(f"Git has to be of version {wanted} or later; there is: {said}")


def _is_ours(value: str) -> bool:
    """Whether a value of core.fsmonitor is a hook of Railburnet's, of this installation or another."""
    try:
        words = shlex.split(value)
    except ValueError:
        return False
    return bool(words) and os.path.basename(words[-1]) == os.path.basename(git_fsmonitor.__file__)


def _done(repository: Repository) -> List[str]:
    """Sets Git up, and returns what to say."""
    mount.edend_program()
    before, value = repository.get(MONITOR), hook()
    if before is not None and not _is_ours(before):
        raise SetupFault(f"{MONITOR} is {before!r} already; `git config --unset {MONITOR}` makes room")
    repository.set(MONITOR, value)
    cache = repository.get(CACHE)
    if cache != "true":
        repository.set(BEFORE, UNSET if cache is None else cache)
        repository.set(CACHE, "true")
    return [f"set: {MONITOR} = {value}", f"set: {CACHE} = true",
            f"in {_shown(repository)}; `railburnet git-setup --undo` there takes it back"]


def _undone(repository: Repository) -> List[str]:
    """Takes back what was set, and returns what to say."""
    value, said = repository.get(MONITOR), []
    if value is not None and not _is_ours(value):
        raise SetupFault(f"{MONITOR} is {value!r}, which git-setup has not set")
    if value is not None:
        repository.set(MONITOR, None)
        said.append(f"unset: {MONITOR}")
    before = repository.get(BEFORE)
    if before is not None:
        now = None if before == UNSET else before
        repository.set(CACHE, now)
        repository.set(BEFORE, None)
        said.append(f"unset: {CACHE}" if now is None else f"set: {CACHE} = {now}")
    if not said:
        return [f"nothing is set in {_shown(repository)}"]
    return [*said, f"in {_shown(repository)}; `railburnet down` there ends the mount"]


def _shown(repository: Repository) -> str:
    return os.fsdecode(repository.root)
