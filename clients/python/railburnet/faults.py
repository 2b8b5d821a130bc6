"""The message and the exit status of each fault."""
from __future__ import annotations

import os

from .frames import ConnectionLost, FrameFault, PositionRefused, TooLarge
from .output import say


def message_of(fault: Exception) -> str:
    """Returns a fault in words."""
    if isinstance(fault, PositionRefused):
        return f"refused: {fault}"
    if isinstance(fault, TooLarge):
        return "refused: TOO_LARGE, the reply doesn't fit into a frame; narrower patterns may help"
    if isinstance(fault, FrameFault):
        return f"the reply can't be read: {fault}"
    if isinstance(fault, ConnectionLost):
        return str(fault.strerror)
    if isinstance(fault, OSError) and fault.filename is not None:
        return f"{os.fsdecode(fault.filename)}: {fault.strerror}"
    return str(fault)


def status_of(fault: Exception) -> int:
    """Says what went wrong, and returns the exit status of it; a fault of the program itself is
    raised again."""
    if isinstance(fault, (PositionRefused, TooLarge)):
        status = 1
    elif isinstance(fault, (FrameFault, OSError)):
        status = 3
    elif hasattr(fault, "status"):
        # A fault of the state folder, a control socket or a mount.
        status = fault.status
    else:
        raise fault
    say(message_of(fault))
    return status
