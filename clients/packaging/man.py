#!/usr/bin/env python3
"""Makes the man pages of railburnet and its subcommands from what `--help` prints: `man.py
FOLDER` writes them there."""
from __future__ import annotations

import argparse
import os
import sys
from typing import Dict, List

sys.path.insert(
    0, os.path.join(os.path.dirname(os.path.dirname(os.path.realpath(__file__))), "python")
)

from railburnet import __version__, cli  # noqa: E402


def _escaped(text: str) -> str:
    """Text as roff takes it literally."""
    lines = text.replace("\\", "\\e").replace("-", "\\-").splitlines()
    return "\n".join("\\&" + line if line[:1] in (".", "'") else line for line in lines)


def _paragraphs(text: str) -> str:
    """Paragraphs; one that is indented is printed as it is."""
    made = []
    for part in text.strip("\n").split("\n\n"):
        verbatim = part.startswith(" ") or "\n  " in part
        made.append(f".PP\n.nf\n{_escaped(part)}\n.fi" if verbatim else f".PP\n{_escaped(part)}")
    return "\n".join(made)


def _options(parser: argparse.ArgumentParser) -> str:
    """The options and words of a parser."""
    formatter = argparse.HelpFormatter(parser.prog)
    made: List[str] = []
    for action in parser._actions:
        name = formatter._format_action_invocation(action)
        help_text = (action.help or "") % {"prog": parser.prog, "default": action.default}
        made.append(f".TP\n.B {_escaped(name)}\n{_escaped(help_text) or name}")
    return "\n".join(made)


def page(name: str, text: str, parser: argparse.ArgumentParser) -> str:
    """A man page."""
    usage = " ".join(parser.format_usage().partition("usage: ")[2].split())
    parts = [
        f'.TH {name.upper()} 1 "" "Railburnet {__version__}" "Railburnet"',
        f".SH NAME\n{_escaped(name)} \\- {_escaped(text)}",
        f".SH SYNOPSIS\n{_escaped(usage)}",
        ".SH DESCRIPTION\n" + _paragraphs(parser.description or ""),
        ".SH OPTIONS\n" + _options(parser),
    ]
    if parser.epilog:
        parts.append(
            ".SH EXIT STATUS\n"
            + _paragraphs(parser.epilog.partition("tatus: ")[2] or parser.epilog)
        )
    return "\n".join(parts) + "\n"


def pages() -> Dict[str, str]:
    """Returns all man pages, by the names of their files."""
    made = {
        "railburnet.1": page("railburnet", "follows the files of a directory", cli.top_parser())
    }
    for name, command in cli.COMMANDS.items():
        made[f"railburnet-{name}.1"] = page(
            f"railburnet-{name}", command.text, cli.parser_of(name)[0]
        )
    return made


if __name__ == "__main__":
    if len(sys.argv) != 2 or sys.argv[1].startswith("-"):
        print(__doc__)
        sys.exit(2)
    os.makedirs(sys.argv[1], exist_ok=True)
    for file_name, made_page in pages().items():
        with open(os.path.join(sys.argv[1], file_name), "w", encoding="utf-8") as made_file:
            made_file.write(made_page)
