#!/usr/bin/env python3
"""The same queries to Watchman and to Railburnet, over pywatchman: queries.py [STEPS] [SEED]

Not compared: directories, which Railburnet doesn't report; the fields of files that are gone, and
whether a query for a type has them; files that came and went, or went and came, between two looks;
`new` since a time, which Watchman has the wrong way round.
"""
import os
import random
import sys

from peer import PYTHON, folder, need, number, railburnet, step, watchman

need("command -v watchman", "watchman")
need(f"{PYTHON} -c 'import pywatchman'", "python3-pywatchman")
try:
    import pywatchman
except ImportError:
    os.execv(PYTHON, [PYTHON, *sys.argv])

FIELDS = [
    "name",
    "exists",
    "type",
    "size",
    "mode",
    "mtime_ms",
    "ctime",
    "ino",
    "nlink",
    "uid",
    "new",
]
EXPRESSIONS = [
    "true",
    "false",
    "exists",
    "empty",
    ["suffix", "c"],
    ["suffix", "PY"],
    ["allof"],
    ["anyof"],
    ["nonsense"],
    ["not"],
    ["anyof", ["suffix", "py"], ["suffix", "h"]],
    ["match", "*.c"],
    ["match", "*.c", "wholename"],
    ["match", "**/*.c", "wholename"],
    ["match", "**/*.c", "wholename", {"includedotfiles": True}],
    ["match", "src/**", "wholename"],
    ["match", "src/**", "wholename", {"includedotfiles": True}],
    ["match", "src/*", "wholename"],
    ["match", "*"],
    ["match", "*", "basename", {"includedotfiles": True}],
    ["match", "[ab].?"],
    ["match", "[!a].c"],
    ["match", "[[:alpha:]].c"],
    ["match", "\\[x].c"],
    ["match", "\\[x].c", "basename", {"noescape": True}],
    ["match", "s**c", "wholename"],
    ["imatch", "*.py"],
    ["match", "src/**/*.py", "wholename"],
    ["match", "**", "wholename"],
    ["match", ".*"],
    ["match", "src/deep/**/*", "wholename"],
    ["name", "a.c"],
    ["name", ["a.c", "t"]],
    ["name", "src/a.c", "wholename"],
    ["name", ["src/a.c", "T/t"], "wholename"],
    ["iname", "y.py"],
    ["name", "a.c", "nowhere"],
    ["dirname", "src"],
    ["dirname", "src", ["depth", "ge", 1]],
    ["dirname", "src", ["depth", "eq", 0]],
    ["dirname", ""],
    ["dirname", "", ["depth", "eq", 0]],
    ["idirname", "SRC"],
    ["dirname", "src/deep"],
    ["type", "l"],
    ["type", "f"],
    ["type", "x"],
    ["allof", ["type", "f"], ["not", ["suffix", "c"]]],
    ["size", "gt", 5],
    ["size", "eq", 0],
    ["size", "xx", 1],
    ["pcre", "^src/.*c$", "wholename"],
    ["ipcre", "^Y"],
    ["pcre", "("],
    ["since", "c:0:0"],
    ["since", 1, "mtime"],
    ["since", "c:0:0", "mtime"],
    ["not", ["anyof", ["dirname", ".git"], ["name", ".git", "wholename"]]],
]
QUERIES = [
    {"suffix": "c"},
    {"suffix": ["c", "py"]},
    {"suffix": 3},
    {"path": ["src"]},
    {"path": [{"path": "src", "depth": 0}]},
    {"path": [{"path": "", "depth": 1}, "src"]},
    {"path": 3},
    {"glob": ["src/**/*.py", "*.c"]},
    {"glob": []},
    {"glob": ["**/*.c"]},
    {"glob": ["**/*"], "glob_includedotfiles": True},
    {"relative_root": "src"},
    {"relative_root": "src", "expression": ["dirname", "deep"]},
    {"relative_root": "src", "expression": ["match", "*.c", "wholename"]},
    {"relative_root": "src", "path": ["deep"]},
    {"relative_root": "nowhere"},
    {"case_sensitive": False, "expression": ["name", "A.C"]},
    {"case_sensitive": False, "expression": ["match", "*.PY"]},
    {"case_sensitive": 3},
    {"since": "bad"},
    {"since": "c:0:0"},
    {"since": "c:0:0", "empty_on_fresh_instance": True},
    {"fields": ["nope"]},
    {"sync_timeout": -1},
    {"suffix": "c", "path": ["src"]},
    {"path": ["src"], "expression": ["suffix", "c"], "dedup_results": True},
    {"since": 1, "fields": ["name", "exists", "type"]},
]
OF_ALL = [{}, {"expression": ["type", "l"]}, {"expression": ["type", "f"]}, {"suffix": "c"}]
"""Queries of all files that need no look at the disk."""


class Both:
    """The two servers, asked the same."""

    def __init__(self, top, sockets):
        self.top, self.asked, self.unequal = top, 0, 0
        self.clients = [pywatchman.client(sockpath=path, timeout=60) for path in sockets]
        for client in self.clients:
            client.query("watch-project", top)

    def clocks(self):
        return [
            self.clock(client, name)
            for client, name in zip(self.clients, ("Watchman", "Railburnet"))
        ]

    def clock(self, client, name):
        try:
            return client.query("clock", self.top, {"sync_timeout": 60000})["clock"]
        except pywatchman.CommandError as error:
            raise SystemExit(f"{name} has no clock: {error}") from None

    def answer(self, client, query):
        """An answer without what isn't compared."""
        try:
            told = client.query("query", self.top, query)
        except pywatchman.CommandError:
            return "error"
        of_type = query.get("expression") == ["type", "f"]
        rows = {
            tuple(
                sorted(
                    (key, value)
                    for key, value in row.items()
                    if key in ("name", "exists", "new") or row["exists"]
                )
            )
            for row in told["files"]
            if row["type"] not in ("d", "?")
            and (row["exists"] or not row.get("new") and not of_type)
            and row["name"].split("/")[0] != ".git"
        }
        return bool(told["is_fresh_instance"]), rows

    def compare(self, name, queries):
        self.asked += 1
        one, other = (
            self.answer(client, {"fields": FIELDS, **query})
            for client, query in zip(self.clients, queries)
        )
        if one != other:
            self.unequal += 1
            alone = (
                [sorted(a - b)[:3] for a, b in ((one[1], other[1]), (other[1], one[1]))]
                if "error" not in (one, other)
                else (one, other)
            )
            print("unequal:", name, one[0], other[0], *alone, sep="\n    ")


def files(top):
    os.makedirs(top + "/.git")
    for path in (
        "a.c",
        "b.h",
        "src/a.c",
        "src/.hid.c",
        "src/deep/x.py",
        ".dot/z.c",
        "src/deep/er/Y.PY",
        "T/t",
        "sp ace/q.c",
        "n\xe9/u.c",
        "src/[x].c",
        ".e.c",
        "src/deep/.f/g.c",
    ):
        os.makedirs(os.path.dirname(f"{top}/{path}"), exist_ok=True)
        with open(f"{top}/{path}", "w", encoding="utf-8") as file:
            file.write(path)
    with open(top + "/empty", "wb"):
        pass
    os.symlink("a.c", top + "/link")


def main():
    with folder() as at, watchman(at) as (real, _), railburnet(at) as (ours, _):
        top, chance = at + "/w", random.Random(number(2, 3))
        files(top)
        both = Both(top, (real, ours))
        for expression in EXPRESSIONS:
            both.compare(expression, [{"expression": expression}] * 2)
        for query in QUERIES:
            both.compare(query, [query] * 2)
        for turn in range(number(1, 100)):
            clocks = both.clocks()
            for part in range(chance.randrange(1, 5)):
                step(top, chance, f"{turn}_{part}", replaces=False)
            both.clocks()
            more = chance.choice(
                [
                    {},
                    {},
                    {"expression": ["suffix", "c"]},
                    {"expression": ["type", "f"]},
                    {"relative_root": "src"},
                ]
            )
            both.compare(("since", turn, more), [{"since": clock, **more} for clock in clocks])
            names = {"fields": ["name", "exists", "type"], **chance.choice(OF_ALL)}
            both.compare(("all", turn, names), [names] * 2)
            both.compare(
                ("term since", turn),
                [{"expression": ["allof", "exists", ["since", clock]]} for clock in clocks],
            )
        print(f"pywatchman: {both.asked} queries to both, {both.unequal} unequal")
        return both.unequal != 0


if __name__ == "__main__":
    sys.exit(main())
