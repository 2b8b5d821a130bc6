"""Watchman's commands."""
from __future__ import annotations

import os
from typing import TYPE_CHECKING, Any, Awaitable, Callable, Dict, List, NamedTuple, Optional, Tuple

from . import expression, fields, triggers
from .clocks import Cursor, Place, Time
from .faults import Fault, raw
from .mounted import SYNC, config_of
from .query import Answer, Query, place_of
from .roots import Root
from .subscriptions import Message, Subscription, state_of
from .triggers import Trigger

if TYPE_CHECKING:
    from .server import Server
    from .session import Session


class Call(NamedTuple):
    """A command that a client has sent."""

    server: Server
    session: Session
    words: List[Any]

    def root(self) -> Root:
        """Returns the watched directory that the command names."""
        return self.server.root(self.words[1])


Act = Callable[[Call], Awaitable[Message]]


class Command(NamedTuple):
    """What carries out a command, how many words it may have, and what is said if it has more or
    fewer."""

    act: Act
    least: int
    most: int
    fault: str


COMMANDS: Dict[str, Command] = {}


def command(name: str, least: int, most: int, fault: str = "") -> Callable[[Act], Act]:
    """Names what carries out a command."""

    def named(act: Act) -> Act:
        COMMANDS[name] = Command(
            act, least, most, fault or f"wrong number of arguments to '{name}'"
        )
        return act

    return named


ANY = 1 << 30
LEVELS = ("debug", "error", "off")


async def carry_out(server: Server, session: Session, words: Any) -> Message:
    """Carries out a command, and returns its answer."""
    if not isinstance(words, list) or not words:
        raise Fault("invalid command (expected an array with some elements!)")
    if not isinstance(words[0], str):
        raise Fault("invalid command: expected element 0 to be the command name")
    found = COMMANDS.get(words[0])
    if found is None:
        raise Fault(f"unknown command {words[0]}")
    if not found.least <= len(words) <= found.most:
        raise Fault(found.fault)
    return await found.act(Call(server, session, words))


# The server.


@command("version", 1, 2)
async def version(call: Call) -> Message:
    """Which capabilities there are of those that a client needs or likes."""
    if len(call.words) == 1:
        return {}
    wanted = call.words[1] if isinstance(call.words[1], dict) else {}
    required, optional = (list(map(str, wanted.get(key, []))) for key in ("required", "optional"))
    answer: Message = {
        "capabilities": {name: name in CAPABILITIES for name in [*required, *optional]}
    }
    missing = [name for name in required if name not in CAPABILITIES]
    if missing:
        answer["error"] = raw(
            f"client required capability `{missing[0]}` is not supported by this server"
        )
    return answer


@command("list-capabilities", 1, 1)
async def list_capabilities(call: Call) -> Message:
    """All capabilities."""
    return {"capabilities": sorted(CAPABILITIES)}


@command("get-sockname", 1, 1)
async def get_sockname(call: Call) -> Message:
    """Where the server listens."""
    return {"sockname": os.fsencode(call.server.socket)}


@command("get-pid", 1, 1)
async def get_pid(call: Call) -> Message:
    """The process of the server."""
    return {"pid": os.getpid()}


@command("log-level", 2, 2)
async def log_level(call: Call) -> Message:
    """Takes a level of the log; nothing is sent of it."""
    if call.words[1] not in LEVELS:
        raise Fault("invalid log level for 'log-level'")
    return {"log_level": raw(call.words[1])}


@command("log", 3, 3)
async def log(call: Call) -> Message:
    """Writes a line to the log."""
    if call.words[1] not in LEVELS[:2]:
        raise Fault("invalid log level for 'log'")
    call.server.say(str(call.words[2]))
    return {"logged": True}


@command("shutdown-server", 1, 1)
async def shutdown_server(call: Call) -> Message:
    """Ends the server."""
    call.session.after(call.server.stop)
    return {"shutdown-server": True}


# Roots.


@command("watch", 2, 2)
async def watch(call: Call) -> Message:
    """Watches a directory."""
    root = await call.server.watch(call.words[1])
    return {"watch": root.top, "watcher": b"inotify"}


@command("watch-project", 2, 2)
async def watch_project(call: Call) -> Message:
    """Watches the project that a directory is in."""
    root, rest = await call.server.watch_project(call.words[1])
    answer = {"watch": root.top, "watcher": b"inotify"}
    return {**answer, "relative_path": rest} if rest else answer


@command("watch-list", 1, 1)
async def watch_list(call: Call) -> Message:
    """Which directories are watched."""
    return {"roots": list(call.server.roots)}


@command("watch-del", 2, 2)
async def watch_del(call: Call) -> Message:
    """Ends the watch of a directory, and its mount."""
    root = call.root()
    await call.server.unwatch(root)
    return {"watch-del": True, "root": root.top}


@command("watch-del-all", 1, 1)
async def watch_del_all(call: Call) -> Message:
    """Ends all watches."""
    roots = list(call.server.roots.values())
    for root in roots:
        await call.server.unwatch(root)
    return {"roots": [root.top for root in roots]}


@command("get-config", 2, 2)
async def get_config(call: Call) -> Message:
    """What .watchmanconfig says."""
    return {"config": config_of(call.root().top)}


@command("clock", 2, 3)
async def clock(call: Call) -> Message:
    """Where a root is."""
    root, wait = call.root(), _wait_of(call.words, 2, 0)

    def now() -> Place:
        root.mounted.sync(wait)
        return root.mounted.now()

    return {"clock": root.clock(await root.ask(now))}


def _wait_of(words: List[Any], at: int, otherwise: int) -> int:
    """Reads how many milliseconds a command may wait for the mount."""
    options = words[at] if len(words) > at else {}
    wait = options.get("sync_timeout", otherwise) if isinstance(options, dict) else otherwise
    if isinstance(wait, bool) or not isinstance(wait, int) or wait < 0:
        raise Fault("sync_timeout must be an integer value >= 0")
    return wait


# Queries.


@command("query", 3, 3, "wrong number of arguments for 'query'")
async def query(call: Call) -> Message:
    """Answers a query."""
    root = call.root()
    answer = await _run(root, Query(root.top, call.words[2], root.ignored))
    return {
        "clock": root.clock(answer.place),
        "is_fresh_instance": answer.is_fresh,
        "files": answer.files,
    }


async def _run(root: Root, query: Query) -> Answer:
    """Runs a query on all that is on disk now."""

    def answered() -> Answer:
        mounted, since = root.mounted, query.since
        mounted.sync(query.sync_timeout)
        if isinstance(since, Time):
            return query.since_time(mounted, since)
        answer = query.run(mounted, place_of(mounted, since, root.cursors), query.empty_if_fresh)
        if isinstance(since, Cursor):
            root.cursors[since.name] = answer.place
        return answer

    return await root.ask(answered)


@command("find", 2, ANY, "not enough arguments for 'find'")
async def find(call: Call) -> Message:
    """Lists the files that patterns match."""
    root = call.root()
    words = {**triggers.of_patterns(call.words[2:]), "fields": fields.OF_FIND}
    answer = await _run(root, Query(root.top, words, root.ignored))
    return {"clock": root.clock(answer.place), "files": answer.files}


@command("since", 3, ANY, "not enough arguments for 'since'")
async def since(call: Call) -> Message:
    """Lists the files that changed since a clock."""
    root = call.root()
    words = {
        **triggers.of_patterns(call.words[3:]),
        "fields": fields.OF_FIND,
        "since": call.words[2],
    }
    answer = await _run(root, Query(root.top, words, root.ignored))
    return {
        "clock": root.clock(answer.place),
        "is_fresh_instance": answer.is_fresh,
        "files": answer.files,
    }


# Subscriptions.


@command("subscribe", 4, 4, "wrong number of arguments for subscribe")
async def subscribe(call: Call) -> Message:
    """Has what changed be pushed from now on."""
    root, session, name = call.root(), call.session, call.words[2]
    if not isinstance(name, str):
        raise Fault("expected 2nd parameter to be subscription name")
    read = Query(root.top, call.words[3], root.ignored)
    made = Subscription(session, session.send, name, read, call.words[3])

    def now() -> Place:
        root.mounted.sync(read.sync_timeout)
        return root.mounted.now()

    place = await root.ask(now)
    root.subscriptions = [
        one for one in root.subscriptions if one.owner is not session or one.name != name
    ]
    root.subscriptions.append(made)
    session.after(lambda: root.begin(made))
    return {"subscribe": name, "clock": root.clock(place)}


@command("unsubscribe", 3, 3, "expected 2nd parameter to be subscription name")
async def unsubscribe(call: Call) -> Message:
    """Ends a subscription of this client."""
    root, name, before = call.root(), call.words[2], len(call.root().subscriptions)
    if not isinstance(name, str):
        raise Fault("expected 2nd parameter to be subscription name")
    root.subscriptions = [
        one for one in root.subscriptions if one.owner is not call.session or one.name != name
    ]
    return {"unsubscribe": name, "deleted": len(root.subscriptions) < before}


@command("flush-subscriptions", 3, 3)
async def flush_subscriptions(call: Call) -> Message:
    """Pushes all that changed up to now before it answers."""
    root, options = call.root(), call.words[2]
    if not isinstance(options, dict) or "sync_timeout" not in options:
        raise Fault("key 'sync_timeout' is not present in this json object")
    wait = _wait_of(call.words, 2, SYNC)
    mine = [one for one in root.subscriptions if one.owner is call.session]
    names = options.get("subscriptions", [one.name for one in mine])
    for name in names if isinstance(names, list) else []:
        if name not in [one.name for one in mine]:
            raise Fault(f"this client does not have a subscription named '{name}'")
    await root.ask(lambda: root.mounted.sync(wait))
    wanted = [one for one in mine if one.name in names]
    asserted = root.asserted
    dropped = [one for one in wanted if one.drops(asserted)]
    no_sync = [one for one in wanted if one.is_held(asserted) and one not in dropped]
    await root.push(of=lambda one: one in wanted)
    return {
        "synced": [one.name for one in wanted if one not in dropped and one not in no_sync],
        "no_sync_needed": [one.name for one in no_sync],
        "dropped": [one.name for one in dropped],
    }


@command("state-enter", 3, 3, "invalid number of arguments, expected 3")
async def state_enter(call: Call) -> Message:
    """Asserts a state, of which subscribers are told."""
    root, (name, wait, metadata) = call.root(), state_of(call.words[2])
    place = await root.enter(name, call.session, metadata, SYNC if wait is None else wait)
    return {"root": root.top, "state-enter": name, "clock": root.clock(place)}


@command("state-leave", 3, 3, "invalid number of arguments, expected 3")
async def state_leave(call: Call) -> Message:
    """Ends a state."""
    root, (name, wait, metadata) = call.root(), state_of(call.words[2])
    place = await root.leave(name, call.session, metadata, SYNC if wait is None else wait)
    return {"root": root.top, "state-leave": name, "clock": root.clock(place)}


# Triggers.


@command("trigger", 3, ANY, "not enough arguments")
async def trigger(call: Call) -> Message:
    """Has a command run on what changed; at first on all files."""
    root, spec = call.root(), call.words[2]
    if isinstance(spec, str):
        spec = triggers.of_words(spec, call.words[3:])
    if not isinstance(spec, dict):
        raise Fault("invalid trigger")
    made = Trigger(root.mounted, spec, root.ignored, call.server.socket)
    before: Optional[Trigger] = root.triggers.get(made.name)
    if before is not None and before.spec == spec:
        return {"triggerid": made.name, "disposition": "already_defined"}
    root.triggers[made.name] = made
    call.session.after(root.follow)
    return {"triggerid": made.name, "disposition": "created" if before is None else "replaced"}


@command("trigger-list", 2, 2)
async def trigger_list(call: Call) -> Message:
    """Which triggers a root has."""
    return {"triggers": [one.spec for one in call.root().triggers.values()]}


@command("trigger-del", 3, 3, "wrong number of arguments")
async def trigger_del(call: Call) -> Message:
    """Ends a trigger."""
    return {
        "deleted": call.root().triggers.pop(call.words[2], None) is not None,
        "trigger": call.words[2],
    }


_MORE: Tuple[str, ...] = (
    "bser-v2",
    "clock-sync-timeout",
    "dedup_results",
    "glob_generator",
    "relative_root",
    "suffix-set",
    "wildmatch",
    "wildmatch-multislash",
)
CAPABILITIES = frozenset(
    [
        *_MORE,
        *(f"cmd-{name}" for name in COMMANDS),
        *(f"field-{name}" for name in fields.FIELDS),
        *(f"term-{name}" for name in expression.TERMS),
    ]
)
