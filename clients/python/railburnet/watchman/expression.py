"""The expressions of queries: which rows of a table one admits."""
from __future__ import annotations

import re
import stat
from typing import Any, Callable, Dict, FrozenSet, List, NamedTuple, Optional, Sequence, Set, Tuple

from . import clocks, wildmatch
from .clocks import Spec, Time
from .faults import QueryFault, raw
from .table import Rows, Table

Keep = Callable[[Table, Rows], Rows]
MOST_DEPTH = 200
_COMPARISONS: Dict[str, Callable[[int, int], bool]] = {
    "eq": lambda have, value: have == value,
    "ne": lambda have, value: have != value,
    "gt": lambda have, value: have > value,
    "ge": lambda have, value: have >= value,
    "lt": lambda have, value: have < value,
    "le": lambda have, value: have <= value,
}


class Term(NamedTuple):
    """A term: which of some rows it keeps, in their order."""

    keep: Keep
    looks: bool = False
    """Whether it may have to look at the disk, which is dearer than names."""
    paths: Optional[Tuple[bytes, ...]] = None
    """Files and directories at or below which all is that it admits; None if it may be anywhere."""


def everything(table: Table, rows: Rows) -> Rows:
    """Keeps all rows."""
    return rows


class Compiler:
    """Reads expressions. It notes which clocks they name, since what changed has to be asked
    for."""

    def __init__(self, top: bytes, sensitive: bool = True) -> None:
        self._top, self._sensitive, self._depth = top, sensitive, 0
        self.since: Set[Spec] = set()

    def term(self, words: object) -> Term:
        """Reads a term and those in it."""
        if isinstance(words, str):
            words = [words]
        if not isinstance(words, list) or not words or not isinstance(words[0], str):
            raise QueryFault("expected array or string for an expression")
        read = _TERMS.get(words[0])
        if read is None:
            raise QueryFault(f"unknown expression term '{words[0]}'")
        if self._depth == MOST_DEPTH:
            raise QueryFault("an expression that is nested too deep")
        self._depth += 1
        try:
            return read(self, words[0], words[1:])
        finally:
            self._depth -= 1

    # Terms of terms.

    def constant(self, name: str, words: List[object]) -> Term:
        if name == "true":
            return Term(everything)
        return Term(lambda table, rows: [], paths=())

    def negation(self, name: str, words: List[object]) -> Term:
        if len(words) != 1:
            raise QueryFault('must use ["not", expr]')
        keep, looks, _ = self.term(words[0])

        def rest(table: Table, rows: Rows) -> Rows:
            kept = set(keep(table, rows))
            return [row for row in rows if row not in kept] if kept else rows

        return Term(rest, looks)

    def _terms(self, name: str, words: List[object]) -> List[Term]:
        if not words:
            raise QueryFault(f'must use ["{name}", expr...]')
        # Those that look at names alone come first.
        return sorted(map(self.term, words), key=lambda term: term.looks)

    def conjunction(self, name: str, words: List[object]) -> Term:
        terms = self._terms(name, words)

        def all_of(table: Table, rows: Rows) -> Rows:
            for term in terms:
                rows = term.keep(table, rows)
            return rows

        paths = next((term.paths for term in terms if term.paths is not None), None)
        return Term(all_of, any(term.looks for term in terms), paths)

    def disjunction(self, name: str, words: List[object]) -> Term:
        terms = self._terms(name, words)

        def any_of(table: Table, rows: Rows) -> Rows:
            kept: List[int] = []
            for term in terms:
                more = term.keep(table, rows)
                if more:
                    kept += more
                    found = set(more)
                    rows = [row for row in rows if row not in found]
            return sorted(kept)

        paths: Optional[Tuple[bytes, ...]] = ()
        for term in terms:
            paths = None if paths is None or term.paths is None else paths + term.paths
        return Term(any_of, any(term.looks for term in terms), paths)

    # Terms of names.

    def _of(self, name: str, words: Sequence[object], at: int) -> Callable[[Table], List[bytes]]:
        """What of a name is compared, as the word at a place says."""
        scope = words[at] if len(words) > at else "basename"
        if scope not in ("basename", "wholename"):
            raise QueryFault(f"Invalid scope '{scope}' for {name} expression")
        return (lambda table: table.names) if scope == "wholename" else (lambda table: table.bases)

    def suffix(self, name: str, words: List[Any]) -> Term:
        ends = words[:1] if words and isinstance(words[0], str) else words[0] if words else None
        if (
            len(words) != 1
            or not isinstance(ends, list)
            or not all(isinstance(end, str) for end in ends)
        ):
            raise QueryFault('must use ["suffix", "suffixstring"]')
        return Term(by_suffixes(ends))

    def name(self, name: str, words: List[Any]) -> Term:
        names = words[0] if words and isinstance(words[0], list) else words[:1]
        if not words or not all(isinstance(one, str) for one in names):
            raise QueryFault(
                f"Argument 2 to '{name}' must be either a string or an array of string"
            )
        of, folds = self._of(name, words, 1), name == "iname" or not self._sensitive
        wanted: FrozenSet[bytes] = frozenset(
            raw(one).lower() if folds else raw(one) for one in names
        )

        def keep(table: Table, rows: Rows) -> Rows:
            texts = of(table)
            if folds:
                return [row for row in rows if texts[row].lower() in wanted]
            return [row for row in rows if texts[row] in wanted]

        whole = len(words) > 1 and words[1] == "wholename" and not folds
        return Term(keep, paths=tuple(wanted) if whole else None)

    def match(self, name: str, words: List[Any]) -> Term:
        if not 1 <= len(words) <= 3 or not isinstance(words[0], str):
            raise QueryFault(f'Expected ["{name}", "pattern", "scope"?]')
        options = words[2] if len(words) == 3 else {}
        if not isinstance(options, dict):
            raise QueryFault(f'Expected ["{name}", "pattern", "scope"?]')
        source = wildmatch.expression_of(
            raw(words[0]), bool(options.get("includedotfiles")), bool(options.get("noescape"))
        )
        found = _compiled(source, name == "imatch" or not self._sensitive).fullmatch
        return Term(_searched(found, self._of(name, words, 1)))

    def pcre(self, name: str, words: List[Any]) -> Term:
        if not 1 <= len(words) <= 2 or not isinstance(words[0], str):
            raise QueryFault(f'Expected ["{name}", "pattern", "scope"?]')
        found = _compiled(raw(words[0]), name == "ipcre" or not self._sensitive).search
        return Term(_searched(found, self._of(name, words, 1)))

    def dirname(self, name: str, words: List[Any]) -> Term:
        depth = words[1] if len(words) > 1 else ["depth", "ge", 0]
        if not 1 <= len(words) <= 2 or not isinstance(words[0], str) or not isinstance(depth, list):
            raise QueryFault(f"Invalid number of arguments for '{name}' term")
        compare, folds = _comparison(depth), name == "idirname" or not self._sensitive
        top = raw(words[0]).strip(b"/")
        start = (top.lower() if folds else top) + b"/" if top else b""
        plain = len(words) == 1
        slashes = start.count(b"/")

        def keep(table: Table, rows: Rows) -> Rows:
            names = table.names
            if folds:
                rows = [row for row in rows if names[row].lower().startswith(start)]
            elif start:
                rows = [row for row in rows if names[row].startswith(start)]
            return (
                rows
                if plain
                else [row for row in rows if compare(names[row].count(b"/") - slashes)]
            )

        return Term(keep, paths=(top,) if top and not folds else None)

    # Terms of files.

    def exists(self, name: str, words: List[object]) -> Term:
        return Term(lambda table, rows: table.existing(rows), looks=True)

    def empty(self, name: str, words: List[object]) -> Term:
        return _by_status(lambda status: status.st_size == 0 and stat.S_ISREG(status.st_mode))

    def size(self, name: str, words: List[object]) -> Term:
        compare = _comparison([name, *words])
        return _by_status(lambda status: compare(status.st_size))

    def type(self, name: str, words: List[Any]) -> Term:
        if len(words) != 1 or not isinstance(words[0], str):
            raise QueryFault('must use ["type", "typestr"]')
        if words[0] not in ("b", "c", "p", "s", "f", "d", "l", "D"):
            raise QueryFault(f"invalid type string '{words[0]}'")
        wanted = raw(words[0])

        def keep(table: Table, rows: Rows) -> Rows:
            if wanted == b"d":
                return []
            gone = None if table.is_fresh else b"f"
            return [
                row for row, letter in zip(rows, table.letters(rows)) if (letter or gone) == wanted
            ]

        return Term(keep, looks=True)

    def changed_since(self, name: str, words: List[Any]) -> Term:
        if not 1 <= len(words) <= 2:
            raise QueryFault('"since" term has invalid number of parameters')
        field = words[1] if len(words) == 2 else "oclock"
        spec = clocks.parse(self._top, words[0])
        if field in ("mtime", "ctime"):
            if not isinstance(spec, Time):
                raise QueryFault(
                    f'field "{field}" requires a timestamp value for comparison in "since" term'
                )
            attribute, seconds = f"st_{field}_ns", spec.seconds
            return _by_status(lambda status: int(getattr(status, attribute)) // 10**9 > seconds)
        if field not in ("oclock", "cclock"):
            raise QueryFault(f'invalid field name "{field}" for "since" term')
        self.since.add(spec)
        which = 0 if field == "oclock" else 1

        def keep(table: Table, rows: Rows) -> Rows:
            changed = table.since[spec]
            return (
                rows
                if changed is None
                else [row for row in rows if table.paths[row] in changed[which]]
            )

        return Term(keep)


_TERMS: Dict[str, Callable[[Compiler, str, List[Any]], Term]] = {
    "true": Compiler.constant,
    "false": Compiler.constant,
    "not": Compiler.negation,
    "allof": Compiler.conjunction,
    "anyof": Compiler.disjunction,
    "suffix": Compiler.suffix,
    "name": Compiler.name,
    "iname": Compiler.name,
    "match": Compiler.match,
    "imatch": Compiler.match,
    "pcre": Compiler.pcre,
    "ipcre": Compiler.pcre,
    "dirname": Compiler.dirname,
    "idirname": Compiler.dirname,
    "exists": Compiler.exists,
    "empty": Compiler.empty,
    "size": Compiler.size,
    "type": Compiler.type,
    "since": Compiler.changed_since,
}
TERMS = tuple(_TERMS)


def by_suffixes(suffixes: Sequence[str]) -> Keep:
    """Keeps the rows whose names end in a dot and one of these, in either case."""
    ends = tuple(b"." + raw(suffix).lower() for suffix in suffixes)
    return lambda table, rows: [row for row in rows if table.names[row].lower().endswith(ends)]


def _searched(found: Callable[[bytes], object], of: Callable[[Table], List[bytes]]) -> Keep:
    def keep(table: Table, rows: Rows) -> Rows:
        texts = of(table)
        return [row for row in rows if found(texts[row])]

    return keep


def _by_status(holds: Callable[[Any], bool]) -> Term:
    """A term of what the disk has; what is gone isn't kept."""

    def keep(table: Table, rows: Rows) -> Rows:
        return [
            row
            for row, status in zip(rows, table.statuses(rows))
            if status is not None and holds(status)
        ]

    return Term(keep, looks=True)


def _compiled(source: bytes, folds: bool) -> "re.Pattern[bytes]":
    try:
        return re.compile(source, re.DOTALL | (re.IGNORECASE if folds else 0))
    except (re.error, OverflowError, RecursionError) as error:
        raise QueryFault(f"invalid pcre: {error} in {source.decode('utf-8', 'replace')}") from None


def _comparison(words: Sequence[Any]) -> Callable[[int], bool]:
    """Reads a name, an operator and a number."""
    if len(words) != 3 or isinstance(words[2], bool) or not isinstance(words[2], int):
        raise QueryFault("integer comparator must have 3 elements")
    compare = _COMPARISONS.get(words[1]) if isinstance(words[1], str) else None
    if compare is None:
        raise QueryFault(f"integer comparator opname `{words[1]}' is invalid")
    value, holds = int(words[2]), compare
    return lambda have: holds(have, value)
