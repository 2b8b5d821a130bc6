"""railburnet status."""
from __future__ import annotations

import argparse
import json
import os
from typing import Any, Dict, List, Optional

from .. import control, state
from ..client import Client
from ..control import ControlFault
from ..frames import ConnectionLost, FrameFault, TooLarge
from ..options import UsageFault, add_directory, directory_of
from ..output import print_words, say
from ..place import text_of
from ..state import Mount, Process

DESCRIPTION = """Reports the mount of a directory, or of the nearest directory above it, and
without DIR all mounts of this user: where it is, how many files it has, what its processes take,
which files it can't hold and why, and whether it waits for git."""
EPILOG = """status: 0 all of them are well; 1 there is none, or one has ended; 2 the command line; 3
the state folder can't be used"""
MOST_LEFT_OUT = 10


def add_options(parser: argparse.ArgumentParser) -> None:
    """Adds the options of the subcommand."""
    parser.add_argument("--json", action="store_true", help="print a line of JSON for each mount")
    add_directory(parser, "a directory; all mounts by default")


def run(options: argparse.Namespace) -> int:
    """Reports the mounts."""
    mounts = list(state.all_noted())
    named = directory_of(options)
    if named is not None:
        path = os.fsencode(named)
        if not os.path.isdir(path):
            raise UsageFault(f"{named} is not a directory")
        mounts = list(state.noted_above(path))[:1]
    reports = [report_of(mount) for mount in mounts]
    for report in reports:
        if options.json:
            print_words(json.dumps(report))
        else:
            for line in lines_of(report):
                print_words(line.encode("utf-8", "surrogateescape"))
    if not reports:
        say(
            "no mount"
            + (f" of {named} or of a directory above it" if named is not None else "")
            + "; `railburnet up` begins one"
        )
    return (
        0
        if reports
        and all(report["ended"] is None and report["fault"] is None for report in reports)
        else 1
    )


def report_of(mount: Mount) -> Dict[str, Any]:
    """Returns what is known of a mount, as JSON has it."""
    processes = {"feed": mount.feed, "edend": mount.edend}
    ended = [name for name, process in processes.items() if not process.lives]
    report: Dict[str, Any] = {
        "root": os.fsdecode(mount.root),
        "port": mount.port or None,
        "socket": mount.socket or None,
        "generation": mount.generation,
        "names": mount.names,
        "front": mount.front,
        "folder": mount.folder,
        "whole_renames": mount.whole_renames,
        "ended": " and ".join(ended) or None,
        "fault": None,
        "number": None,
        "files": None,
        "memory": {name: _memory_of(process) for name, process in processes.items()},
        "processes": {name: process.id for name, process in processes.items()},
        "following": None,
        "left_out": {},
        "parked": [],
        "waits_for_lock": None,
    }
    if not ended:
        try:
            with Client(mount.place, timeout=10.0, connections=1) as client:
                report["number"] = client.position().sequence
                report["files"] = _files(client)
            told = control.status(mount.control, 10.0)
            report.update(
                (name, told[name])
                for name in ("following", "left_out", "parked", "waits_for_lock")
                if name in told
            )
        except (ConnectionLost, FrameFault, ControlFault) as fault:
            report["fault"] = fault.strerror if isinstance(fault, OSError) else str(fault)
    return report


def _files(client: Client) -> Optional[int]:
    try:
        return len(client.basis().paths)
    except TooLarge:
        return None


def _memory_of(process: Process) -> int:
    """The bytes of memory that a process takes."""
    try:
        with open(f"/proc/{process.id}/status", "rb") as file:
            return (
                next(
                    (int(line.split()[1]) * 1024 for line in file if line.startswith(b"VmRSS:")), 0
                )
                if process.lives
                else 0
            )
    except OSError:
        return 0


def lines_of(report: Dict[str, Any]) -> List[str]:
    """Returns a report as lines for people."""
    lines = [
        f"{report['root']} at {text_of(report['socket'] or report['port'])}"
        + (", names alone" if report["names"] else "")
        + (f", for {report['front']}" if report["front"] else "")
    ]
    if report["ended"]:
        return [
            *lines,
            f"  {report['ended']} ended; `railburnet up` begins it again, and the log is in "
            + report["folder"],
        ]
    if report["fault"]:
        lines.append(f"  {report['fault']}")
    if report["number"] is not None:
        files = (
            "more files than a list holds"
            if report["files"] is None
            else f"{report['files']:,} files"
        )
        lines.append(
            f"  at {report['generation']} {report['number']}, {files}"
            + ("" if report["following"] else ", not followed yet")
        )
    lines.append(
        "  memory: "
        + ", ".join(f"{name} {size / 1e6:,.0f} MB" for name, size in report["memory"].items())
    )
    if report["waits_for_lock"] is not None:
        lines.append(f"  waits for git's index.lock since {report['waits_for_lock']:.0f} s")
    left_out = report["left_out"]
    lines += [
        f"  not in the mount: {path}: {why}" for path, why in list(left_out.items())[:MOST_LEFT_OUT]
    ]
    if len(left_out) > MOST_LEFT_OUT:
        lines.append(f"  and {len(left_out) - MOST_LEFT_OUT:,} more; --json lists them")
    return lines
