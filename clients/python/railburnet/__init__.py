"""A client of a Railburnet mount: what changed since a position, which files there are, and a
mirror.

It speaks frames of version 2 (docs/formats.md) over TCP or a Unix socket, and needs Python 3.9 and
nothing else. Paths, patterns and contents are bytes. A pattern that begins with `!` takes away
what the rest of it matches, wherever it is in the list.

    client = Client(7777)
    basis = client.basis([b"src/**"])  # the files, and the position of that answer
    changes = client.since(basis.position, [b"src/**"])  # or PositionRefused: begin again
    client.below(b"src", [b"src/**"])                     # the files below one of changes.prefixes
    files = FileMap()
    mirror = Mirror([b"src/**"], files=files)
    while client.round(mirror) is not Outcome.PLACED:     # rounds until the mirror has a position
        pass
    files[b"src/main.c"].content
    client.do(Write(b"notes", File(Kind.PLAIN, b"text")))  # where the mount may be changed

The same is a program: `railburnet --help`, or `python3 -m railburnet --help`.
"""
from __future__ import annotations

import importlib
from typing import TYPE_CHECKING, Any

if TYPE_CHECKING:
    from .client import Changes, Client, Connection
    from .doing import (
        Answer,
        Change,
        ChangeFault,
        ChangeRefused,
        Checkout,
        Do,
        Done,
        Flush,
        Import,
        Mode,
        NotDone,
        NotWritable,
        Object,
        ObjectFault,
        ObjectType,
        ReadOnly,
        Remount,
        Remove,
        Rename,
        RenameDir,
        Reset,
        Write,
        decode_done,
        encode_do,
    )
    from .folder import Folder
    from .frames import (
        Attributes,
        AttributesAre,
        Basis,
        BasisIs,
        Below,
        Cause,
        ChangesAre,
        ConnectionLost,
        ContentIs,
        Fetch,
        File,
        FileStat,
        FrameFault,
        FrameReader,
        Kind,
        ListIs,
        Mark,
        Poll,
        Position,
        PositionRefused,
        Query,
        Refused,
        Reply,
        Request,
        Stat,
        StatIs,
        Status,
        StatusIs,
        TooLarge,
        as_word,
        decode_reply,
        encode_request,
        lies_below,
        literal,
        path_fault,
        patterns_fault,
        shown,
    )
    from .mirror import FileMap, Files, Mirror, Outcome

__version__ = "0.1.0"

_HOMES = {
    "client": ("Changes", "Client", "Connection"),
    "doing": (
        "Answer",
        "Change",
        "ChangeFault",
        "ChangeRefused",
        "Checkout",
        "Do",
        "Done",
        "Flush",
        "Import",
        "Mode",
        "NotDone",
        "NotWritable",
        "Object",
        "ObjectFault",
        "ObjectType",
        "ReadOnly",
        "Remount",
        "Remove",
        "Rename",
        "RenameDir",
        "Reset",
        "Write",
        "decode_done",
        "encode_do",
    ),
    "folder": ("Folder",),
    "frames": (
        "Attributes",
        "AttributesAre",
        "Basis",
        "BasisIs",
        "Below",
        "Cause",
        "ChangesAre",
        "ConnectionLost",
        "ContentIs",
        "Fetch",
        "File",
        "FileStat",
        "FrameFault",
        "FrameReader",
        "Kind",
        "ListIs",
        "Mark",
        "Poll",
        "Position",
        "PositionRefused",
        "Query",
        "Refused",
        "Reply",
        "Request",
        "Stat",
        "StatIs",
        "Status",
        "StatusIs",
        "TooLarge",
        "as_word",
        "decode_reply",
        "encode_request",
        "lies_below",
        "literal",
        "path_fault",
        "patterns_fault",
        "shown",
    ),
    "mirror": ("FileMap", "Files", "Mirror", "Outcome"),
}
"""Of each module what is had from here; it is loaded when it is asked for first, so that the
command begins fast."""

__all__ = [
    "Answer",
    "Attributes",
    "AttributesAre",
    "Basis",
    "BasisIs",
    "Below",
    "Cause",
    "Change",
    "ChangeFault",
    "ChangeRefused",
    "Changes",
    "ChangesAre",
    "Checkout",
    "Client",
    "Connection",
    "ConnectionLost",
    "ContentIs",
    "Do",
    "Done",
    "Fetch",
    "File",
    "FileMap",
    "FileStat",
    "Files",
    "Flush",
    "Folder",
    "FrameFault",
    "FrameReader",
    "Import",
    "Kind",
    "ListIs",
    "Mark",
    "Mirror",
    "Mode",
    "NotDone",
    "NotWritable",
    "Object",
    "ObjectFault",
    "ObjectType",
    "Outcome",
    "Poll",
    "Position",
    "PositionRefused",
    "Query",
    "ReadOnly",
    "Refused",
    "Remount",
    "Remove",
    "Rename",
    "RenameDir",
    "Reply",
    "Request",
    "Reset",
    "Stat",
    "StatIs",
    "Status",
    "StatusIs",
    "TooLarge",
    "Write",
    "as_word",
    "decode_done",
    "decode_reply",
    "encode_do",
    "encode_request",
    "lies_below",
    "literal",
    "path_fault",
    "patterns_fault",
    "shown",
]


def __getattr__(name: str) -> Any:
    for module, names in _HOMES.items():
        if name in names:
            globals()[name] = getattr(importlib.import_module(f".{module}", __name__), name)
            return globals()[name]
    raise AttributeError(f"module {__name__!r} has no attribute {name!r}")
