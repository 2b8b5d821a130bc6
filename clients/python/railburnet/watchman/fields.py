"""The fields of files, a column at a time."""
from __future__ import annotations

import json.encoder
import stat
from operator import attrgetter
from typing import Any, Callable, Dict, List, NamedTuple, Optional, Sequence

from . import bser
from ..frames import Mark
from .faults import QueryFault, raw, text
from .table import Rows, Table

_UNITS = {"": 10**9, "_ms": 10**6, "_us": 10**3, "_ns": 1}
_quoted: Callable[[str], str] = getattr(json.encoder, "encode_basestring")
"""A text as JSON has it."""
_SPECIAL = bytes([*range(32), *b'"\\'])
"""The bytes that a text in JSON has no other way than escaped."""
_TRUTH = {True: b"true", False: b"false"}


class Form(NamedTuple):
    """How a column of values of one kind is written."""

    place: bytes
    """Where a row in JSON has a value, as a format of `json`'s values."""
    json: Callable[[Sequence[Any]], Sequence[Any]]
    bser: Callable[[Sequence[Any]], List[bytes]]


def _escaped(values: Sequence[bytes]) -> Sequence[bytes]:
    """Returns byte strings as JSON has them between quotation marks."""
    whole = b"".join(values)
    if len(whole.translate(None, _SPECIAL)) == len(whole):
        return values
    return [raw(_quoted(text(value)))[1:-1] for value in values]


def _json_flags(values: Sequence[bool]) -> List[bytes]:
    return list(map(_TRUTH.__getitem__, values))


def _json_reals(values: Sequence[float]) -> List[bytes]:
    return [repr(value).encode() for value in values]


def _json_maybe(values: Sequence[Optional[bytes]]) -> List[bytes]:
    return [b"null" if value is None else raw(_quoted(text(value))) for value in values]


def _bser_maybe(values: Sequence[Optional[bytes]]) -> List[bytes]:
    return [bser.NULL if value is None else bser.of_bytes([value])[0] for value in values]


_TEXT = b'"%b"'
NUMBERS = Form(b"%d", lambda values: values, bser.of_integers)
REALS = Form(b"%b", _json_reals, bser.of_reals)
FLAGS = Form(b"%b", _json_flags, bser.of_flags)
BYTES = Form(_TEXT, _escaped, bser.of_bytes)
MAYBE = Form(b"%b", _json_maybe, _bser_maybe)

Values = Callable[[Table, Rows], Sequence[Any]]


class Field(NamedTuple):
    """A field: how it is written, and its values for some rows."""

    form: Form
    values: Values


def _exists(table: Table, rows: Rows) -> List[bool]:
    if len(table.existing(rows)) == len(rows):
        return [True] * len(rows)
    return [status is not None for status in table.statuses(rows)]


def _new(table: Table, rows: Rows) -> List[bool]:
    marks = table.marks
    if marks is None:
        return [True] * len(rows)
    # What changed and is not there was not there at the clock either.
    return [
        mark is Mark.CREATED or mark is not Mark.REMOVED and mark is not None and status is None
        for mark, status in zip(
            [marks.get(table.paths[row]) for row in rows], table.statuses(rows)
        )
    ]


def _types(table: Table, rows: Rows) -> List[bytes]:
    # What is gone is taken for a file.
    return [letter or b"f" for letter in table.letters(rows)]


def _targets(table: Table, rows: Rows) -> List[Optional[bytes]]:
    return [
        table.disk.target(table.paths[row])
        if status is not None and stat.S_ISLNK(status.st_mode)
        else None
        for row, status in zip(rows, table.statuses(rows))
    ]


def _attribute(name: str) -> Values:
    get = attrgetter(name)
    return lambda table, rows: [
        0 if status is None else get(status) for status in table.statuses(rows)
    ]


def _time(name: str, unit: int) -> Values:
    get = attrgetter(name)
    return lambda table, rows: [
        0 if status is None else get(status) // unit for status in table.statuses(rows)
    ]


def _real_time(name: str) -> Values:
    get = attrgetter(name)
    return lambda table, rows: [
        0.0 if status is None else get(status) / 1e9 for status in table.statuses(rows)
    ]


def _fields() -> Dict[str, Field]:
    fields = {
        "name": Field(BYTES, lambda table, rows: table.names_of(rows)),
        "exists": Field(FLAGS, _exists),
        "new": Field(FLAGS, _new),
        "type": Field(BYTES, _types),
        "symlink_target": Field(MAYBE, _targets),
        "oclock": Field(BYTES, lambda table, rows: [table.clock.encode()] * len(rows)),
        "cclock": Field(BYTES, lambda table, rows: [table.clock.encode()] * len(rows)),
    }
    for name in ("size", "mode", "ino", "dev", "nlink", "uid", "gid"):
        fields[name] = Field(NUMBERS, _attribute(f"st_{name}"))
    for part in ("mtime", "ctime", "atime"):
        for suffix, unit in _UNITS.items():
            fields[part + suffix] = Field(NUMBERS, _time(f"st_{part}_ns", unit))
        fields[f"{part}_f"] = Field(REALS, _real_time(f"st_{part}_ns"))
    return fields


FIELDS = _fields()
OF_NAMES = {"name", "new", "exists", "type", "oclock", "cclock"}
"""The fields for which no status is needed, if all files are asked for."""
ALONE = ["name", "exists", "new", "size", "mode"]
"""The fields of a query that names none."""
OF_FIND = [
    "name",
    "exists",
    "size",
    "mode",
    "uid",
    "gid",
    "mtime",
    "ctime",
    "ino",
    "dev",
    "nlink",
    "new",
    "cclock",
    "oclock",
]
"""The fields of the commands find and since."""


def parse_fields(names: object) -> List[str]:
    """Reads the list of fields of a query."""
    if not isinstance(names, list) or not all(isinstance(name, str) for name in names):
        raise QueryFault("field list must be an array of strings")
    for name in names:
        if name not in FIELDS:
            raise QueryFault(f"unknown field name '{name}'")
    return list(dict.fromkeys(names))


class Files:
    """The files of an answer, as columns."""

    def __init__(self, fields: Sequence[str], table: Table, rows: Rows) -> None:
        self.fields, self.count = fields, len(rows)
        self.names = table.names_of(rows)
        self.columns = [FIELDS[name].values(table, rows) for name in fields]

    def is_current(self, table: Table, rows: Rows) -> bool:
        """Whether all files of a fresh answer are there, as far as the disk was looked at."""
        return len(table.existing(rows)) == self.count

    def as_json(self) -> bytes:
        """Returns an array: of values if there is one field, else of objects."""
        forms = [FIELDS[name].form for name in self.fields]
        columns = [form.json(values) for form, values in zip(forms, self.columns)]
        if not columns:
            return b"[" + b",".join([b"{}"] * self.count) + b"]"
        if len(columns) > 1:
            pairs = zip(self.fields, forms)
            places = [b'"%b":%b' % (name.encode(), form.place) for name, form in pairs]
            template = b"{" + b",".join(places) + b"}"
            return b"[" + b",".join(map(template.__mod__, zip(*columns))) + b"]"
        if forms[0].place == _TEXT and self.count:
            return b'["' + b'","'.join(columns[0]) + b'"]'
        return b"[" + b",".join(map(forms[0].place.__mod__, columns[0])) + b"]"

    def as_bser(self, writer: bser.Writer) -> bytes:
        """Returns an array as `as_json` does; the keys of objects are given once."""
        columns = [
            FIELDS[name].form.bser(values) for name, values in zip(self.fields, self.columns)
        ]
        if len(columns) == 1:
            return writer.array(columns[0])
        if not columns:
            return writer.value([{}] * self.count, _unknown)
        return writer.template(self.fields, columns, self.count)


def _unknown(value: object) -> bytes:
    raise TypeError(f"a {type(value).__name__} has no BSER")
