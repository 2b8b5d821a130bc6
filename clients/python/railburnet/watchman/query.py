"""Queries: what of the files of a root is asked for, and the answer."""
from __future__ import annotations

import re
from typing import Any, Callable, Dict, List, NamedTuple, Optional, Tuple

from ..frames import Mark, literal
from . import clocks, wildmatch
from .clocks import Cursor, Place, Spec, Time
from .expression import Compiler, Keep, by_suffixes, everything
from .faults import QueryFault, raw
from .fields import ALONE, OF_NAMES, Files, parse_fields
from .mounted import SYNC, Changes, Mounted
from .table import Letters, Since, Table

MOST_PATTERNS, MOST_PATTERN = 32, 256
"""How many patterns a question may have, and how many bytes each of them."""


class Answer(NamedTuple):
    """The files of an answer, and the place up to which it tells."""

    is_fresh: bool
    files: Files
    place: Place


class Query:
    """A query as it was read."""

    def __init__(self, top: bytes, query: Dict[str, Any], ignored: Tuple[bytes, ...] = ()) -> None:
        if not isinstance(query, dict):
            raise QueryFault("case_sensitive must be a boolean")
        self._top, self._query, self._ignored = top, query, ignored
        self._sensitive = self._flag("case_sensitive", True)
        self.relative = self._relative()
        self.sync_timeout = self._number("sync_timeout", SYNC)
        self._number("lock_timeout", SYNC)
        self.empty_if_fresh = self._flag("empty_on_fresh_instance", False)
        self.fields = parse_fields(query.get("fields", ALONE))
        self.since: Optional[Spec] = clocks.parse(top, query["since"]) if "since" in query else None
        compiler = Compiler(top, self._sensitive)
        term = compiler.term(query["expression"]) if "expression" in query else None
        self._keep: Keep = term.keep if term is not None else everything
        self._terms_since = compiler.since
        self._generators = self._read_generators()
        self._patterns = self._narrowed(None if term is None else term.paths)

    # Reading.

    def _flag(self, name: str, otherwise: bool) -> bool:
        value = self._query.get(name, otherwise)
        if not isinstance(value, bool):
            raise QueryFault(f"{name} must be a boolean")
        return value

    def _number(self, name: str, otherwise: int) -> int:
        value = self._query.get(name, otherwise)
        if isinstance(value, bool) or not isinstance(value, int) or value < 0:
            raise QueryFault(f"{name} must be an integer value >= 0")
        return value

    def _relative(self) -> bytes:
        """The directory below the root to which the query is limited."""
        value = self._query.get("relative_root", "")
        if not isinstance(value, str):
            raise QueryFault("'relative_root' must be a string")
        return raw(value).rstrip(b"/")

    def _read_generators(self) -> List[Keep]:
        """What chooses files besides `since`: each adds those it keeps."""
        generators: List[Keep] = []
        suffixes = self._query.get("suffix", [])
        suffixes = [suffixes] if isinstance(suffixes, str) else suffixes
        if not isinstance(suffixes, list) or not all(isinstance(one, str) for one in suffixes):
            raise QueryFault("'suffix' must be a string or an array of strings")
        if suffixes:
            generators.append(by_suffixes(suffixes))
        paths = self._query.get("path", [])
        if not isinstance(paths, list):
            raise QueryFault("'path' must be an array")
        if paths:
            generators.append(_below([_path_and_depth(path) for path in paths]))
        if "glob" in self._query:
            generators.append(self._globs(self._query["glob"]))
        return generators

    def _globs(self, globs: Any) -> Keep:
        if not isinstance(globs, list):
            raise QueryFault("'glob' must be an array")
        if not all(isinstance(glob, str) for glob in globs):
            raise QueryFault("expected json string object")
        dots, noescape = self._flag("glob_includedotfiles", False), self._flag(
            "glob_noescape", False
        )
        sources = [wildmatch.expression_of(raw(glob), dots, noescape) for glob in globs]
        found = re.compile(
            b"|".join(sources) or rb"(?!)", re.DOTALL | (0 if self._sensitive else re.IGNORECASE)
        ).fullmatch
        return lambda table, rows: [row for row in rows if found(table.names[row])]

    def _narrowed(self, paths: Optional[Tuple[bytes, ...]]) -> Tuple[bytes, ...]:
        """Patterns of the mount that admit at least what the query can; none if all has to be
        looked through."""
        top = self.relative + b"/" if self.relative else b""
        if paths is None or not paths or not self._sensitive:
            paths = (b"",) if top else ()
        patterns = []
        for path in paths:
            whole = (top + path).strip(b"/")
            if not whole:
                return ()
            pattern = literal(whole)
            patterns += [pattern, pattern + b"/**"]
        fits = len(patterns) <= MOST_PATTERNS and all(
            len(pattern) <= MOST_PATTERN and not re.search(rb"//|\0", pattern)
            for pattern in patterns
        )
        return tuple(patterns) if fits else ()

    # Answering.

    def run(self, mounted: Mounted, since: Optional[Place], empty: bool = False) -> Answer:
        """Returns what changed since a place, or all files; no files at all if all would be told
        and `empty` is set."""
        changes = mounted.changes(since, self._patterns)
        if changes.marks is None and empty:
            return self._answer(mounted, [], None, changes.place, {})
        terms = {spec: self._changed(mounted, spec) for spec in self._terms_since}
        if changes.marks is not None:
            return self._answer(mounted, list(changes.marks), changes, changes.place, terms)
        letters, place = mounted.everything(self._patterns)
        return self._answer(mounted, list(letters), None, place, terms, letters)

    def since_time(self, mounted: Mounted, since: Time) -> Answer:
        """Returns what changed since a time; all files, if the mount began after it."""
        place = mounted.place_at(since.seconds)
        answer = self.run(mounted, place if place[1] else None)
        return answer._replace(is_fresh=False)

    def _changed(self, mounted: Mounted, spec: Spec) -> Since:
        """What a term since a clock is true of."""
        place = place_of(mounted, spec, {})
        marks = mounted.changes(place, self._patterns).marks
        if marks is None:
            return None
        return set(marks), {path for path, mark in marks.items() if mark is Mark.CREATED}

    def _answer(
        self,
        mounted: Mounted,
        paths: List[bytes],
        changes: Optional[Changes],
        place: Place,
        terms: Dict[Spec, Since],
        letters: Optional[Letters] = None,
    ) -> Answer:
        assert mounted.disk is not None
        marks = None if changes is None else changes.marks
        changed = len(paths)
        if marks is not None and self._generators:
            # The generators choose among all files, and not only among those that changed.
            others, _ = mounted.everything(self._patterns)
            paths = paths + [path for path in others if path not in marks]
        start = self.relative + b"/" if self.relative else b""
        table = Table(
            mounted.disk,
            paths,
            marks,
            len(start),
            terms,
            clocks.clock_of(self._top, place),
            letters if OF_NAMES.issuperset(self.fields) else None,
        )
        rows = list(range(len(paths)))
        if start:
            rows = [row for row in rows if paths[row].startswith(start)]
        rows = self._ignore(table, self._generated(table, rows, changed))
        rows = self._keep(table, rows)
        if marks is None:
            rows = table.existing(rows)
        elif changed < len(paths):
            there = set(table.existing([row for row in rows if row >= changed]))
            rows = [row for row in rows if row < changed or row in there]
        files = Files(self.fields, table, rows)
        if marks is None and not files.is_current(table, rows):
            # A look at the disk for a field has found that some are gone.
            rows = table.existing(rows)
            files = Files(self.fields, table, rows)
        return Answer(marks is None, files, place)

    def _generated(self, table: Table, rows: List[int], changed: int) -> List[int]:
        """The rows that changed, and those that a generator chooses; all rows, if there is
        neither."""
        if not self._generators:
            return rows
        chosen = set() if table.marks is None else {row for row in rows if row < changed}
        for keep in self._generators:
            chosen.update(keep(table, rows))
        return [row for row in rows if row in chosen]

    def _ignore(self, table: Table, rows: List[int]) -> List[int]:
        """Leaves out what is below the directories that .watchmanconfig has the server ignore."""
        if not self._ignored:
            return rows
        return [row for row in rows if not table.paths[row].startswith(self._ignored)]


def place_of(mounted: Mounted, spec: Optional[Spec], cursors: Dict[str, Place]) -> Optional[Place]:
    """Returns the place that a clock names; None if there is none, or it isn't of this root."""
    if spec is None:
        return None
    if isinstance(spec, Cursor):
        return cursors.get(spec.name)
    if isinstance(spec, Time):
        place = mounted.place_at(spec.seconds)
        return place if place[1] else None
    return spec.place


def ignored_of(config: Dict[str, Any]) -> Tuple[bytes, ...]:
    """Returns how the paths begin that .watchmanconfig has the server ignore."""
    folders = config.get("ignore_dirs")
    return (
        tuple(raw(folder).strip(b"/") + b"/" for folder in folders if isinstance(folder, str))
        if isinstance(folders, list)
        else ()
    )


def _path_and_depth(path: Any) -> Tuple[bytes, int]:
    if isinstance(path, str):
        return raw(path).strip(b"/"), -1
    depth = path.get("depth") if isinstance(path, dict) else None
    if (
        not isinstance(depth, int)
        or isinstance(depth, bool)
        or not isinstance(path.get("path"), str)
    ):
        raise QueryFault("expected object with 'path' and 'depth' properties")
    return raw(path["path"]).strip(b"/"), depth


def _below(tops: List[Tuple[bytes, int]]) -> Callable[[Table, List[int]], List[int]]:
    """Keeps files, and what is below directories, as deep as is said."""

    def admits(name: bytes) -> bool:
        for top, depth in tops:
            start = top + b"/" if top else b""
            if (
                name == top
                or name.startswith(start)
                and (depth < 0 or name.count(b"/", len(start)) <= depth)
            ):
                return True
        return False

    return lambda table, rows: [row for row in rows if admits(table.names[row])]
