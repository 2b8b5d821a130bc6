"""Commits of a repository, by git."""
from __future__ import annotations

import re
import subprocess
from typing import Dict

from .model import GIT_KINDS, MOST_BYTES, SURE_TO_FIT, Failure, File

_ID = re.compile("[0-9a-f]{40}")


class Commits:
    """The commits that the mount's store has, by git."""

    def __init__(self, folder: str) -> None:
        self._git = ["git", "--no-replace-objects", "-C", folder]
        self._known_as: Dict[str, str] = {}

    def run(self, *words: str) -> bytes:
        try:
            words_of_git = [*self._git, *words]
            done = subprocess.run(words_of_git, stdout=subprocess.PIPE, stderr=subprocess.PIPE,
                                  check=False)
        except FileNotFoundError:
            raise Failure("needs the command git, which is not here; --empty needs none") from None
        if done.returncode:
            said = done.stderr.decode("utf-8", "replace").strip()
            raise Failure(said or f"git {' '.join(words)} failed")
        return done.stdout

    def add(self, word: str) -> str:
        """A commit of the command line, COMMIT or COMMIT=ID: its id."""
        name, _, known_as = word.partition("=")
        if known_as and not _ID.fullmatch(known_as):
            raise Failure(f"{known_as!r} is not an id of 40 digits")
        try:
            found = self.run("rev-parse", "--verify", "--end-of-options", f"{name}^{{commit}}")
        except Failure:
            fault = f"{name} is no commit of the repository; --empty mounts the empty one"
            raise Failure(fault) from None
        id = found.decode().strip()
        self._known_as[id] = known_as or id
        return id

    def known_as(self, id: str) -> str:
        """Returns the id under which the mount has a commit of the command line."""
        return self._known_as[id]

    def head(self, before: str) -> str:
        """The commit that is checked out, where it is one of the command line; else the one
        before."""
        try:
            now = self.run("rev-parse", "HEAD").decode().strip()
        except Failure:
            return before
        return now if now in self._known_as else before

    def files(self, id: str) -> Dict[bytes, File]:
        """The files of a commit that a mount can hold."""
        files = {}
        for line in self.run("ls-tree", "-r", "-z", "-l", "--full-tree", id).split(b"\0")[:-1]:
            head, _, path = line.partition(b"\t")
            mode, _, name, size = head.split()
            if mode in GIT_KINDS and int(size) <= MOST_BYTES:
                large = int(size) > SURE_TO_FIT
                files[path] = File(GIT_KINDS[mode], bytes.fromhex(name.decode()), large=large)
        return files
