"""The command line: finds the subcommand, and turns what goes wrong into a message and a status."""
from __future__ import annotations

import argparse
import difflib
import importlib
import os
import sys
from typing import Any, List, NamedTuple, NoReturn, Optional, Sequence, Tuple


class Command(NamedTuple):
    """A subcommand: what it does, its module, whether it asks a mount, and whether it takes the
    options that may come before it."""

    text: str
    module: str
    asks: bool = True
    takes: bool = True


COMMANDS = {
    "up": Command("mounts a directory, in the background", ".commands.up", False),
    "down": Command("ends the mount of a directory", ".commands.down", False),
    "status": Command(
        "reports which mounts there are, and how they are", ".commands.status", False
    ),
    "sync": Command("waits until the mount has all that is on disk now", ".commands.sync"),
    "list": Command("prints which files there are", ".commands.list"),
    "since": Command("prints what changed since a position", ".commands.since"),
    "dirty": Command("prints which files differ from the commit", ".commands.dirty"),
    "stat": Command("prints the kind, the length and the id of files", ".commands.stat"),
    "cat": Command("prints what a file holds", ".commands.cat"),
    "follow": Command(
        "prints what changes, or keeps a copy in another directory", ".commands.follow"
    ),
    "watch": Command("runs a command on what changed", ".commands.watch"),
    "watchman": Command(
        "serves Watchman's protocol, for tools that speak it",
        ".commands.watchman",
        False,
        False,
    ),
    "objects": Command(
        "prints the objects of commits, for edend", ".commands.objects", False, False
    ),
    "feed": Command("follows a directory and prints lines for edend", ".feed", False, False),
    "git-setup": Command(
        "has Git ask Railburnet what changed", ".commands.git_setup", False, False
    ),
    "git-fsmonitor": Command(
        "answers Git as its hook core.fsmonitor", ".commands.git_fsmonitor", False, False
    ),
}
VALUED = ("--port", "--socket", "--host", "-C", "--root")
STATUSES = """status: 0 done; 1 refused, no such file, a copy that isn't equal, or a mount that
can't begin; 2 the command line; 3 no connection, a reply that can't be read, or a file that
can't be written; 130 interrupted"""


_Formatter = argparse.RawDescriptionHelpFormatter


class Parser(argparse.ArgumentParser):
    """A parser that takes no part of an option's name for it."""

    def __init__(self, **more: Any) -> None:
        more = {"allow_abbrev": False, "formatter_class": _Formatter, **more}
        super().__init__(**more)


def top_parser() -> Parser:
    """Returns the parser of what comes before the subcommand."""
    from . import __version__
    from .options import add_mount

    commands = "\n".join(f"  {name:13}  {command.text}" for name, command in COMMANDS.items())
    parser = Parser(
        prog="railburnet",
        usage="railburnet COMMAND [OPTION..] [WORD..]",
        epilog=f"{STATUSES}\n\n`railburnet COMMAND --help` has more.",
        description="Follows the files of a directory: what there is, what changed, a command that "
        f"runs on it, a copy.\n\ncommands:\n{commands}",
    )
    parser.add_argument("--version", action="version", version=f"railburnet {__version__}")
    add_mount(parser)
    return parser


def parser_of(name: str) -> Tuple[argparse.ArgumentParser, Any]:
    """Returns the parser of a subcommand, and its module."""
    from .options import add_mount

    command = COMMANDS[name]
    module = importlib.import_module(command.module, __package__)
    if name == "feed":
        # It makes its parser itself.
        return module.parser(), module
    epilog = getattr(module, "EPILOG", STATUSES)
    parser = Parser(
        prog=f"railburnet {name}",
        usage=getattr(module, "USAGE", None),
        description=module.DESCRIPTION,
        epilog=epilog,
    )
    if command.asks:
        add_mount(parser)
    module.add_options(parser)
    return parser, module


def _split(words: Sequence[str]) -> Tuple[List[str], List[str]]:
    """The words before the subcommand, and those from it on."""
    at = 0
    while at < len(words) and words[at].startswith("-"):
        at += 2 if words[at] in VALUED else 1
    return list(words[:at]), list(words[at:])


def _unknown(parser: Parser, words: List[str]) -> NoReturn:
    """Says which subcommand is missing, or which may be meant."""
    if not words:
        parser.error(f"a command is missing: {', '.join(COMMANDS)}")
    near = difflib.get_close_matches(words[0], COMMANDS, 1)
    parser.error(
        f"no command {words[0]!r}"
        + (f"; is {near[0]!r} meant?" if near else f": there are {', '.join(COMMANDS)}")
    )


def run(words: Sequence[str]) -> int:
    """Carries out a command line, and returns the exit status. Faults are exceptions."""
    before, rest = _split(words)
    options = argparse.Namespace()
    if before or not rest or rest[0] not in COMMANDS:
        top = top_parser()
        options = top.parse_args(before)
        if not rest or rest[0] not in COMMANDS:
            _unknown(top, rest)
    name, *rest = rest
    if before and not COMMANDS[name].takes:
        top_parser().error(f"{name} takes no {before[0]}")
    if name == "feed":
        # It parses its words itself.
        from . import feed

        return int(feed.main(rest))
    parser, module = parser_of(name)
    from .options import UsageFault

    # What follows `--` is the command that watch runs, whatever it looks like.
    rest, options.command = getattr(module, "split", lambda words: (words, []))(rest)
    try:
        options = parser.parse_args(rest, options)
        return int(module.run(options))
    except UsageFault as fault:
        parser.error(str(fault))


def main(words: Optional[Sequence[str]] = None) -> int:
    """Runs the command line, and returns the exit status."""
    from . import output

    try:
        status = run(sys.argv[1:] if words is None else words)
        output.flush()
        return status
    except KeyboardInterrupt:
        return 130
    except BrokenPipeError:
        output.drop()
        return 3
    except output.OutputFault as fault:
        output.drop()
        output.say(fault)
        return 3
    except Exception as fault:  # Those of a kind that isn't known here are raised again.
        from .faults import status_of

        return status_of(fault)
