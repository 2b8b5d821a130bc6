"""Triggers: a command that runs on the files of a query, each time that some changed."""
from __future__ import annotations

import asyncio
import contextlib
import json
import os
from typing import Any, Dict, List, NamedTuple, Optional, Tuple

from . import clocks
from .clocks import Place
from .faults import Fault, raw, text
from .fields import Files
from .mounted import Mounted
from .query import Query

MOST_ARGUMENTS = 100_000
"""How many bytes of names follow a command's words; those that don't fit are left to its standard
input."""


class Run(NamedTuple):
    """What a command is run on."""

    files: Files
    since: Optional[Place]
    at: Place


class Trigger:
    """A command, and the place up to which it was run."""

    def __init__(
        self, mounted: Mounted, spec: Dict[str, Any], ignored: Tuple[bytes, ...], socket: str
    ) -> None:
        self.spec, self._mounted, self._socket = spec, mounted, socket
        self._at: Optional[Place] = None
        self.runs: Optional["asyncio.Task[None]"] = None
        name, command = spec.get("name"), spec.get("command")
        if not isinstance(name, str):
            raise Fault("invalid or missing name")
        if (
            not isinstance(command, list)
            or not command
            or not all(isinstance(word, str) for word in command)
        ):
            raise Fault("invalid command array")
        self.name: str = name
        self._command: List[str] = command
        self._stdin = _stdin_of(spec.get("stdin", "/dev/null"))
        self._output = {name: _output_of(name, spec.get(name)) for name in ("stdout", "stderr")}
        self._most = spec.get("max_files_stdin", 0)
        if isinstance(self._most, bool) or not isinstance(self._most, int) or self._most < 0:
            raise Fault("max_files_stdin must be >= 0")
        query = {
            key: spec[key]
            for key in ("expression", "relative_root", "case_sensitive")
            if key in spec
        }
        fields = self._stdin if isinstance(self._stdin, list) else ["name"]
        self._query = Query(mounted.top, {**query, "fields": fields}, ignored)
        self._appends = bool(spec.get("append_files"))
        folder = spec.get("chdir", "")
        self._folder = os.path.join(
            mounted.top, self._query.relative, raw(folder if isinstance(folder, str) else "")
        )

    def next(self, now: Place) -> Optional[Run]:
        """Returns what the command has to run on now; None if nothing changed, or it still runs."""
        if self._at == now or self.runs is not None and not self.runs.done():
            return None
        since = self._at
        answer = self._query.run(self._mounted, since)
        self._at = answer.place
        return Run(answer.files, since, answer.place) if answer.files.count else None

    async def run(self, run: Run) -> None:
        """Runs the command, and waits for it."""
        words = [os.fsencode(word) for word in self._command] + (
            _fitting(run.files.names) if self._appends else []
        )
        streams: Dict[str, Any] = {
            name: open(os.path.join(self._folder, raw(path)), how)
            for name, (how, path) in self._output.items()
            if path
        }
        try:
            process = await asyncio.create_subprocess_exec(
                *words,
                cwd=self._folder,
                env=self._environment(run),
                start_new_session=True,
                stdout=streams.get("stdout"),
                stderr=streams.get("stderr"),
                stdin=asyncio.subprocess.DEVNULL
                if self._stdin == "/dev/null"
                else asyncio.subprocess.PIPE,
            )
            with contextlib.suppress(BrokenPipeError, ConnectionResetError):
                await process.communicate(
                    None if self._stdin == "/dev/null" else self._input(run.files)
                )
        finally:
            for stream in streams.values():
                stream.close()

    def _environment(self, run: Run) -> Dict[bytes, bytes]:
        top = self._mounted.top
        told = {
            b"WATCHMAN_ROOT": top,
            b"WATCHMAN_SOCK": os.fsencode(self._socket),
            b"WATCHMAN_TRIGGER": raw(self.name),
            b"WATCHMAN_CLOCK": clocks.clock_of(top, run.at).encode(),
        }
        if run.since is not None:
            told[b"WATCHMAN_SINCE"] = clocks.clock_of(top, run.since).encode()
        if self._query.relative:
            told[b"WATCHMAN_RELATIVE_ROOT"] = self._query.relative
        if (
            self._most
            and len(run.files.names) > self._most
            or self._appends
            and len(run.files.names) > len(_fitting(run.files.names))
        ):
            told[b"WATCHMAN_FILES_OVERFLOW"] = b"true"
        return {
            **{key: value for key, value in os.environb.items() if key != b"WATCHMAN_SINCE"},
            **told,
        }

    def _input(self, files: Files) -> bytes:
        """What the command reads on its standard input."""
        most = self._most or files.count
        if self._stdin == "NAME_PER_LINE":
            return b"".join(name + b"\n" for name in files.names[:most])
        if files.count <= most:
            return files.as_json() + b"\n"
        rows = json.loads(text(files.as_json()))[:most]
        return raw(json.dumps(rows, ensure_ascii=False)) + b"\n"


def _fitting(names: List[bytes]) -> List[bytes]:
    """As many names as a command line holds."""
    size, fitting = 0, []
    for name in names:
        size += len(name) + 1
        if size > MOST_ARGUMENTS:
            break
        fitting.append(name)
    return fitting


def _stdin_of(value: Any) -> Any:
    """Reads what a command has on its standard input: nothing, names, or the fields of files."""
    if value in ("/dev/null", "NAME_PER_LINE"):
        return value
    if isinstance(value, str):
        raise Fault(f"invalid stdin value {value}")
    if not isinstance(value, list):
        raise Fault("invalid value for stdin")
    return value


def _output_of(name: str, value: Any) -> Tuple[str, str]:
    """Reads where what a command prints goes to."""
    if value is None:
        return "wb", ""
    if not isinstance(value, str) or not value.startswith(">"):
        raise Fault(f"{name}: must be prefixed with either > or >>, got {value}")
    return ("ab", value[2:]) if value.startswith(">>") else ("wb", value[1:])


def of_words(name: str, words: List[str]) -> Dict[str, Any]:
    """Returns the trigger of a command line: patterns, `--` and a command."""
    if "--" not in words:
        raise Fault("no command was specified")
    at = words.index("--")
    return {
        "name": name,
        "command": words[at + 1 :],
        "append_files": True,
        **of_patterns(words[:at]),
        "stdin": ["name", "exists", "new", "size", "mode"],
    }


def of_patterns(words: List[Any]) -> Dict[str, Any]:
    """Returns the query of a command line: patterns, of which -X takes away, -p and -P are
    expressions."""
    terms: List[Any] = []
    negates, rest = False, iter(words)
    for word in rest:
        if not isinstance(word, str):
            raise Fault("rule @ position is not a string value")
        if word in ("-X", "-I"):
            negates = word == "-X"
            continue
        kind = {"-p": "pcre", "-P": "ipcre"}.get(word)
        pattern: Any = word if kind is None else next(rest, "")
        if not pattern:
            raise Fault(f"missing pattern after {word}")
        term = [kind or "match", pattern, "wholename"]
        terms.append(["not", term] if negates else term)
    return {"expression": ["anyof", *terms]} if terms else {}
