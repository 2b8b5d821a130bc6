"""railburnet watchman: the protocol, queries, subscriptions, triggers, and what happens when
processes are killed."""
import glob
import json
import os
import shutil
import signal
import socket
import stat
import subprocess
import time
import unittest

from kit import HERE, InFolder, client, wait_until

from railburnet import state
from railburnet.watchman import bser, wildmatch
from railburnet.watchman.session import encoded

# What Watchman 4.9.0 sent for these.
WATCHED = b"\0\2\0\0\0\0\3=\1\3\3\2\3\7watcher\2\3\7inotify\2\3\7version\r\3\0054.9.0\2\3\5watch\2\3\t/tmp/wm/t"
WATCHED_BYTES_ALONE = b"\0\2\1\0\0\0\3=\1\3\3\2\3\7watcher\2\3\7inotify\2\3\7version\2\3\0054.9.0\2\3\5watch\2\3\t/tmp/wm/t"
# The example of Watchman's description of BSER.
TEMPLATE = bytes.fromhex(
    "0b 00 03 02 02 03 04 6e 61 6d 65 02 03 03 61 67 65 03 03 02 03 04 66 72 65 64 03 14 "
    "02 03 04 70 65 74 65 03 1e 0c 03 19"
)
# Of each pattern the names that Watchman 4.9.0 matched, of those below.
NAMES = [
    b"a.c",
    b".e.c",
    b"empty",
    b"src/a.c",
    b"src/.hid.c",
    b"src/[x].c",
    b"src/deep/x.py",
    b"src/deep/.f/g.c",
    b".dot/z.c",
]
PATTERNS = {
    (b"*.c", False): [b"a.c"],
    (b"*.c", True): [b"a.c", b".e.c"],
    (b"**/*.c", False): [b"a.c", b"src/a.c", b"src/[x].c"],
    (b"**/*.c", True): [
        b"a.c",
        b".e.c",
        b"src/a.c",
        b"src/.hid.c",
        b"src/[x].c",
        b"src/deep/.f/g.c",
        b".dot/z.c",
    ],
    (b"src/**", False): [b"src/a.c", b"src/[x].c", b"src/deep/x.py", b"src/deep/.f/g.c"],
    (b"src/**", True): [
        b"src/a.c",
        b"src/.hid.c",
        b"src/[x].c",
        b"src/deep/x.py",
        b"src/deep/.f/g.c",
    ],
    (b"**", False): [
        b"a.c",
        b"empty",
        b"src/a.c",
        b"src/.hid.c",
        b"src/[x].c",
        b"src/deep/x.py",
        b"src/deep/.f/g.c",
    ],
    (b"src/*", False): [b"src/a.c", b"src/[x].c"],
    (b"src/\\[x].c", False): [b"src/[x].c"],
    (b"src/[!b].c", False): [b"src/a.c"],
    (b"[[:alpha:]].c", False): [b"a.c"],
    (b"src/**/*.py", False): [b"src/deep/x.py"],
    (b"s**/a.c", False): [b"src/a.c"],
}


class Format(unittest.TestCase):
    def test_what_watchman_sent(self):
        message = {"watcher": b"inotify", "version": "4.9.0", "watch": b"/tmp/wm/t"}
        self.assertEqual(encoded(message, 2, 0), WATCHED)
        self.assertEqual(encoded(message, 2, 1), WATCHED_BYTES_ALONE)
        self.assertEqual(encoded(message, 1, 0), b"\0\1" + WATCHED_BYTES_ALONE[6:])
        self.assertEqual(
            bser.loads(WATCHED[8:]),
            {"watcher": "inotify", "version": "4.9.0", "watch": "/tmp/wm/t"},
        )

    def test_values(self):
        self.assertEqual(
            bser.loads(TEMPLATE),
            [{"name": "fred", "age": 20}, {"name": "pete", "age": 30}, {"age": 25}],
        )
        for number, data in (
            (0, "0300"),
            (-1, "03ff"),
            (127, "037f"),
            (128, "048000"),
            (-129, "047fff"),
            (32768, "0500800000"),
            (1 << 31, "060000008000000000"),
            (-(1 << 63), "060000000000000080"),
        ):
            self.assertEqual(bser.integer(number).hex(), data)
            self.assertEqual(bser.loads(bytes.fromhex(data)), number)
        self.assertEqual(
            bser.loads(b"\0\3\4\x08\x09\x0a\x07\0\0\0\0\0\0\xf8\x3f"), [True, False, None, 1.5]
        )
        self.assertEqual(bser.loads(b"\2\3\2\xff\xfe"), "\udcff\udcfe")

    def test_no_bser(self):
        for end in range(len(TEMPLATE)):
            with self.assertRaises(bser.BserFault):
                bser.loads(TEMPLATE[:end])
        for data in (
            b"",
            b"\x0e",
            TEMPLATE + b"\0",
            b"\0\3\1" * 200 + b"\x08",
            b"\0\6" + b"\xff" * 7 + b"\x7f",
            b"\1\3\1\x08\x08",
            b"\0\3\xff",
        ):
            with self.assertRaises(bser.BserFault, msg=data):
                bser.loads(data)
        for data in (
            b"\0\3\3\1",
            b"{\2\3\1",
            b"\0\1\2\3\4",
            b"\0\1\6" + b"\xff" * 8,
            b"\0\2\0\0\0\0\5\0\0\0\x7f",
        ):
            with self.assertRaises(bser.BserFault, msg=data):
                bser.head(data)
        self.assertIsNone(bser.head(b"\0\2\0\0\0\0\5\0\0"))

    def test_patterns(self):
        for (pattern, dots), names in PATTERNS.items():
            found = wildmatch.re.compile(
                wildmatch.expression_of(pattern, dots), wildmatch.re.DOTALL
            ).fullmatch
            self.assertEqual([name for name in NAMES if found(name)], names, pattern)


class Peer:
    """A client in JSON."""

    def __init__(self, path):
        self._socket = socket.socket(socket.AF_UNIX)
        self._socket.settimeout(30)
        self._socket.connect(path)
        self._lines = self._socket.makefile("rb")
        self.pushes = []

    def close(self):
        self._lines.close()
        self._socket.close()

    def ask(self, *words):
        self._socket.sendall(json.dumps(words).encode() + b"\n")
        while True:
            told = self.next()
            if not told.get("unilateral"):
                return told
            self.pushes.append(told)

    def next(self):
        line = self._lines.readline()
        if not line:
            raise EOFError
        return json.loads(line)

    def pushed(self, true):
        """The first push of which something holds."""
        while True:
            told = self.pushes.pop(0) if self.pushes else self.next()
            if true(told):
                return told


class Served(InFolder):
    def setUp(self):
        super().setUp()
        self.environment = {
            **os.environ,
            "EDEND": os.environ.get("EDEND") or os.path.join(HERE, "stand_in.py"),
        }
        self.top = self.path("w")
        for name in ("a.c", "b.h", "src/a.c", "src/deep/x.py", ".hid/z.c"):
            self.write(name, name)
        os.makedirs(self.path("w", ".git"))
        self.write(".git/HEAD", "x")
        os.symlink("a.c", self.path("w", "link"))
        self._peers = []
        self.server = self.serve()

    def tearDown(self):
        for peer in self._peers:
            peer.close()
        self.server.terminate()
        self.server.wait(60)
        subprocess.run(
            client("down", "--all"),
            env=self.environment,
            stdout=subprocess.DEVNULL,
            stderr=subprocess.DEVNULL,
            check=False,
        )
        super().tearDown()

    def serve(self, *words):
        server = self.started(
            client("watchman", *words), env=self.environment, stdout=subprocess.PIPE
        )
        printed = [server.stdout.readline().decode(), server.stdout.readline().decode()]
        self.assertRegex(printed[0], r"\Awatchman: serving /", self.text("stderr"))
        self.socket = printed[0].split()[-1]
        self.assertEqual(printed[1], f"export WATCHMAN_SOCK={self.socket}\n")
        return server

    def peer(self, watch=True):
        peer = Peer(self.socket)
        self._peers.append(peer)
        if watch:
            self.assertEqual(peer.ask("watch", self.top)["watch"], self.top)
        return peer

    def write(self, name, text="x"):
        os.makedirs(os.path.dirname(self.path("w", name)), exist_ok=True)
        with open(self.path("w", name), "a", encoding="utf-8") as file:
            file.write(text)

    def names(self, peer, **query):
        told = peer.ask("query", self.top, {"fields": ["name"], **query})
        self.assertNotIn("error", told)
        return sorted(told["files"])

    def clock(self, peer):
        return peer.ask("clock", self.top, {"sync_timeout": 20000})["clock"]

    def mount(self):
        return state.find(os.fsencode(self.top), "watchman")


class Queries(Served):
    def test_what_is_there(self):
        peer = self.peer()
        everything = [".hid/z.c", "a.c", "b.h", "link", "src/a.c", "src/deep/x.py"]
        for query, names in (
            ({}, everything),
            ({"suffix": ["c"]}, [".hid/z.c", "a.c", "src/a.c"]),
            ({"expression": ["type", "l"]}, ["link"]),
            (
                {"expression": ["allof", ["type", "f"], ["not", ["suffix", "C"]]]},
                ["b.h", "src/deep/x.py"],
            ),
            ({"expression": ["dirname", "src"]}, ["src/a.c", "src/deep/x.py"]),
            ({"expression": ["dirname", "src", ["depth", "eq", 0]]}, ["src/a.c"]),
            ({"expression": ["name", ["src/a.c", "b.h"], "wholename"]}, ["b.h", "src/a.c"]),
            ({"expression": ["iname", "A.C"]}, ["a.c", "src/a.c"]),
            ({"expression": ["size", "gt", 8]}, ["src/deep/x.py"]),
            ({"expression": ["pcre", "^s.*py$", "wholename"]}, ["src/deep/x.py"]),
            ({"glob": ["*/*.c"]}, ["src/a.c"]),
            (
                {"expression": ["anyof", ["size", "eq", 3], ["suffix", "py"]]},
                ["a.c", "b.h", "link", "src/deep/x.py"],
            ),
            ({"path": [{"path": "src", "depth": 0}]}, ["src/a.c"]),
            ({"relative_root": "src"}, ["a.c", "deep/x.py"]),
            ({"relative_root": "src", "expression": ["dirname", "deep"]}, ["deep/x.py"]),
            ({"expression": ["type", "d"]}, []),
            ({"case_sensitive": False, "expression": ["name", "B.H"]}, ["b.h"]),
            ({"since": "c:0:0", "empty_on_fresh_instance": True}, []),
            ({"since": 1}, everything),
            ({"expression": ["since", "c:0:0"]}, everything),
            ({"expression": ["since", 1, "mtime"]}, everything),
            ({"expression": ["since", 1 << 40, "mtime"]}, []),
        ):
            self.assertEqual(self.names(peer, **query), names, query)

    def test_names_that_look_like_patterns(self):
        for name in ("!b.h", "!src/a.c", "[x]*/b.c"):
            self.write(name)
        peer = self.peer()
        for name, below in (("!src", "a.c"), ("[x]*", "b.c")):
            self.assertEqual(self.names(peer, relative_root=name), [below])
            found = self.names(peer, expression=["dirname", name])
            self.assertEqual(found, [f"{name}/{below}"])
        found = self.names(peer, expression=["name", ["!b.h", "b.h"], "wholename"])
        self.assertEqual(found, ["!b.h", "b.h"])

    def test_fields(self):
        peer = self.peer()
        status = os.lstat(self.path("w", "link"))
        told = peer.ask(
            "query",
            self.top,
            {
                "expression": ["name", "link"],
                "fields": [
                    "name",
                    "exists",
                    "new",
                    "size",
                    "mode",
                    "mtime_ms",
                    "ctime_ns",
                    "mtime_f",
                    "ino",
                    "dev",
                    "nlink",
                    "uid",
                    "gid",
                    "type",
                    "symlink_target",
                ],
            },
        )
        self.assertEqual(
            told["files"],
            [
                {
                    "name": "link",
                    "exists": True,
                    "new": True,
                    "size": 3,
                    "mode": status.st_mode,
                    "mtime_ms": status.st_mtime_ns // 10**6,
                    "ctime_ns": status.st_ctime_ns,
                    "mtime_f": status.st_mtime_ns / 1e9,
                    "ino": status.st_ino,
                    "dev": status.st_dev,
                    "nlink": 1,
                    "uid": status.st_uid,
                    "gid": status.st_gid,
                    "type": "l",
                    "symlink_target": "a.c",
                }
            ],
        )

    def test_words_of_watchman(self):
        """What isn't there is refused as Watchman 4.9.0 does it, and is no capability."""
        peer = self.peer()
        for words, error in (
            (["nope"], "unknown command nope"),
            (["clock"], "wrong number of arguments to 'clock'"),
            (
                ["clock", "/nowhere"],
                "unable to resolve root /nowhere: realpath(/nowhere) -> No such file or directory",
            ),
            (
                ["clock", self.folder],
                f"unable to resolve root {self.folder}: directory {self.folder} is not watched",
            ),
            (
                ["query", self.top, {"expression": "nonsense"}],
                "failed to parse query: unknown expression term 'nonsense'",
            ),
            (
                ["query", self.top, {"expression": ["allof"]}],
                'failed to parse query: must use ["allof", expr...]',
            ),
            (
                ["query", self.top, {"expression": []}],
                "failed to parse query: expected array or string for an expression",
            ),
            (
                ["query", self.top, {"expression": ["size", "xx", 1]}],
                "failed to parse query: integer comparator opname `xx' is invalid",
            ),
            (
                ["query", self.top, {"fields": ["content.sha1hex"]}],
                "failed to parse query: unknown field name 'content.sha1hex'",
            ),
            (["query", self.top, {"since": "bad"}], "invalid clockspec"),
            (
                ["query", self.top, {"since": {"scm": {"mergebase-with": "main"}}}],
                "failed to parse query: This root does not support SCM-aware queries.",
            ),
            (["subscribe", self.top, 3, {}], "expected 2nd parameter to be subscription name"),
            (["state-leave", self.top, "s"], "state s is not asserted"),
            (["trigger", self.top, "z"], "no command was specified"),
            (["log-level", "zz"], "invalid log level for 'log-level'"),
            ([3], "invalid command: expected element 0 to be the command name"),
        ):
            self.assertEqual(peer.ask(*words).get("error"), error, words)
        deep = "true"
        for _ in range(400):
            deep = ["not", deep]
        self.assertIn("nested too deep", peer.ask("query", self.top, {"expression": deep})["error"])
        told = peer.ask(
            "version",
            {
                "required": ["cmd-query"],
                "optional": ["scm-hg", "field-content.sha1hex", "term-since"],
            },
        )
        self.assertEqual(
            told["capabilities"],
            {
                "cmd-query": True,
                "scm-hg": False,
                "field-content.sha1hex": False,
                "term-since": True,
            },
        )
        self.assertIn("error", peer.ask("version", {"required": ["scm-since"]}))

    def test_clocks(self):
        """Two are equal exactly if the positions are, and what isn't of this mount is a fresh
        instance."""
        peer = self.peer()
        before = self.clock(peer)
        self.assertEqual(self.clock(peer), before)
        self.write("a.c")
        after = self.clock(peer)
        self.assertNotEqual(before, after)
        self.assertEqual(self.names(peer, since=before), ["a.c"])
        self.assertEqual(self.names(peer, since={"clock": after}), [])
        parts = after.split(":")
        for at, value in (
            (1, "7"),
            (2, "7"),
            (4, "999999"),
            (4, "18446744073709551615"),
            (4, "99999999999999999999"),
        ):
            told = peer.ask(
                "query",
                self.top,
                {"fields": ["name"], "since": ":".join([*parts[:at], value, *parts[at + 1 :]])},
            )
            self.assertEqual((told["is_fresh_instance"], len(told["files"])), (True, 6), value)
        self.assertEqual(len(self.names(peer, since="n:x")), 6)
        self.write("b.h")
        self.assertEqual(self.names(peer, since="n:x"), ["b.h"])
        self.assertEqual(self.names(peer, expression=["since", after]), ["b.h"])
        self.write("new.c")
        self.assertEqual(self.names(peer, expression=["since", after, "cclock"]), ["new.c"])

    def test_a_directory_that_moved(self):
        """Each name that is gone, and each that is there now, is told."""
        peer = self.peer()
        before = self.clock(peer)
        os.rename(self.path("w", "src"), self.path("w", "to"))
        told = peer.ask("query", self.top, {"since": before, "fields": ["name", "exists", "new"]})
        self.assertEqual(
            {(row["name"], row["exists"], row["new"]) for row in told["files"]},
            {
                ("src/a.c", False, False),
                ("src/deep/x.py", False, False),
                ("to/a.c", True, True),
                ("to/deep/x.py", True, True),
            },
        )

    def test_a_link_where_a_directory_was(self):
        """A path below a link isn't taken for a file."""
        peer = self.peer()
        before = self.clock(peer)
        os.rename(self.path("w", "src"), self.path("elsewhere"))
        os.symlink(self.path("elsewhere"), self.path("w", "src"))
        told = peer.ask("query", self.top, {"since": before, "fields": ["name", "exists", "size"]})
        self.assertEqual(
            {(row["name"], row["exists"]) for row in told["files"]},
            {("src", True), ("src/a.c", False), ("src/deep/x.py", False)},
        )

    def test_bser(self):
        """The same answer in BSER, of both versions."""
        self.peer()
        words = b"\0\3\3" + b"".join(
            b"\2\3" + bytes([len(one)]) + one for one in (b"query", self.top.encode())
        )
        body = words + b"\1\3\1\2\3\6suffix\2\3\2py"
        for begin in (b"\0\1", b"\0\2\0\0\0\0"):
            with socket.socket(socket.AF_UNIX) as peer:
                peer.settimeout(30)
                peer.connect(self.socket)
                peer.sendall(begin + b"\4" + len(body).to_bytes(2, "little") + body)
                data = peer.recv(65536)
            head = bser.head(data)
            told = bser.loads(data[head.start :])
            self.assertEqual((head.version, len(data) - head.start), (begin[1], head.size))
            self.assertEqual(
                [(row["name"], row["exists"], row["size"]) for row in told["files"]],
                [("src/deep/x.py", True, 13)],
            )


class Pushes(Served):
    def subscribe(self, peer, **query):
        told = peer.ask(
            "subscribe", self.top, "s", {"fields": ["name"], "expression": ["type", "f"], **query}
        )
        self.assertEqual(told["subscribe"], "s", told)

    def test_pushes(self):
        peer = self.peer()
        self.subscribe(peer)
        first = peer.pushed(lambda told: True)
        self.assertEqual((first["is_fresh_instance"], len(first["files"])), (True, 5))
        self.write("a.c")
        told = peer.pushed(lambda told: True)
        self.assertEqual(
            (told["files"], told["is_fresh_instance"], told["since"]),
            (["a.c"], False, first["clock"]),
        )
        os.unlink(self.path("w", "a.c"))
        self.assertEqual(
            peer.ask("flush-subscriptions", self.top, {"sync_timeout": 20000})["synced"], ["s"]
        )
        self.assertEqual(peer.pushed(lambda told: True)["files"], ["a.c"])
        self.assertTrue(peer.ask("unsubscribe", self.top, "s")["deleted"])
        self.assertFalse(peer.ask("unsubscribe", self.top, "s")["deleted"])

    def test_states(self):
        """What changes in a state is told after it, or not at all."""
        peer, other, third = self.peer(), self.peer(), self.peer()
        self.subscribe(peer, since=self.clock(peer), defer=["st"])
        self.subscribe(third, since=self.clock(peer), drop=["st"])
        self.assertEqual(
            other.ask("state-enter", self.top, {"name": "st", "metadata": 1})["state-enter"], "st"
        )
        self.assertIn("already asserted", other.ask("state-enter", self.top, "st")["error"])
        self.assertEqual(peer.pushed(lambda told: True)["state-enter"], "st")
        self.assertEqual(third.pushed(lambda told: True)["metadata"], 1)
        self.write("a.c")
        self.clock(other)
        self.assertEqual(other.ask("state-leave", self.top, "st")["state-leave"], "st")
        self.assertEqual(peer.pushed(lambda told: True)["state-leave"], "st")
        self.assertEqual(peer.pushed(lambda told: True)["files"], ["a.c"])
        self.assertEqual(third.pushed(lambda told: True)["state-leave"], "st")
        self.write("b.h")
        self.assertEqual(third.pushed(lambda told: True)["files"], ["b.h"])
        other.ask("state-enter", self.top, "st")
        other.close()
        self.assertTrue(peer.pushed(lambda told: "state-leave" in told)["abandoned"])

    def test_triggers(self):
        peer = self.peer()
        command = ["sh", "-c", 'echo "$WATCHMAN_TRIGGER" "$@" >> ../ran; cat >> ../given', "-"]
        spec = {
            "name": "t",
            "command": command,
            "append_files": True,
            "stdin": "NAME_PER_LINE",
            "expression": ["match", "*.c", "wholename"],
        }
        self.assertEqual(peer.ask("trigger", self.top, spec)["disposition"], "created")
        self.assertEqual(peer.ask("trigger", self.top, spec)["disposition"], "already_defined")
        self.assertEqual(peer.ask("trigger-list", self.top)["triggers"], [spec])

        def ran():
            return self.text("ran").decode() if os.path.exists(self.path("ran")) else ""

        self.assertTrue(wait_until(lambda: ran() == "t a.c\n"), self.text("stderr"))
        self.write("new.c")
        self.assertTrue(wait_until(lambda: ran() == "t a.c\nt new.c\n"), self.text("stderr"))
        self.assertTrue(wait_until(lambda: self.text("given") == b"a.c\nnew.c\n"))
        self.assertTrue(peer.ask("trigger-del", self.top, "t")["deleted"])
        self.assertEqual(peer.ask("trigger-list", self.top)["triggers"], [])

    def test_idle(self):
        """Ten subscriptions take no processor time while nothing happens."""
        peer = self.peer()
        for number in range(10):
            peer.ask("subscribe", self.top, f"s{number}", {"fields": ["name"]})
        peer.ask("flush-subscriptions", self.top, {"sync_timeout": 20000})

        def used():
            times = []
            for process in (self.server.pid, self.mount().feed.id, self.mount().edend.id):
                with open(f"/proc/{process}/stat", encoding="ascii") as file:
                    times += file.read().rpartition(")")[2].split()[11:13]
            return times

        time.sleep(0.5)
        before = used()
        time.sleep(1)
        self.assertEqual(used(), before)


class Lives(Served):
    def test_killed(self):
        """Feed or the daemon is killed: the next answer is right and says that it is fresh, and so
        does a push."""
        peer, listens = self.peer(), self.peer()
        listens.ask("subscribe", self.top, "s", {"fields": ["name"]})
        self.assertEqual(len(listens.pushed(lambda told: True)["files"]), 6)
        for number, name in enumerate(("feed", "edend")):
            before, mount = self.clock(peer), self.mount()
            self.write(f"new{number}")
            os.kill(getattr(mount, name).id, signal.SIGKILL)
            told = peer.ask("query", self.top, {"fields": ["name"], "since": before})
            self.assertEqual(
                (told.get("is_fresh_instance"), len(told.get("files", []))),
                (True, 7 + number),
                (name, told, self.text("stderr")),
            )
            pushed = listens.pushed(lambda told: told["is_fresh_instance"])
            self.assertEqual(len(pushed["files"]), 7 + number)
            self.assertNotEqual(self.mount(), mount)
            self.write("a.c")
            self.assertEqual(
                listens.pushed(lambda told: not told["is_fresh_instance"])["files"], ["a.c"]
            )

    def test_the_server_is_killed(self):
        """The next server goes on with the mount, and clocks stay good."""
        peer = self.peer()
        before, mount = self.clock(peer), self.mount()
        self.server.kill()
        self.server.wait()
        self.write("a.c")
        self.server = self.serve()
        peer = self.peer(watch=False)
        self.assertEqual(peer.ask("watch-list")["roots"], [self.top])
        self.assertEqual(self.names(peer, since=before), ["a.c"])
        self.assertEqual(self.mount(), mount)

    def test_beside_a_mount_of_ones_own(self):
        """A mount that `railburnet up` began stays as it is, and status shows both."""

        def run(*words):
            return subprocess.run(
                client(*words),
                env=self.environment,
                stdout=subprocess.PIPE,
                stderr=subprocess.PIPE,
                check=False,
            ).stdout.decode()

        run("up", "--empty", self.top)
        up = state.find(os.fsencode(self.top))
        peer = self.peer()
        told = run("status")
        self.assertEqual(
            (told.count(" at socket "), told.count(", names alone, for watchman")), (2, 1), told
        )
        mount = self.mount()
        self.assertTrue(peer.ask("watch-del", self.top)["watch-del"])
        self.assertIsNone(self.mount())
        self.assertFalse(mount.feed.lives or mount.edend.lives)
        self.assertEqual(state.find(os.fsencode(self.top)), up)
        self.assertEqual(peer.ask("watch-list")["roots"], [])
        self.peer()
        mount = self.mount()
        self.server.terminate()
        self.assertEqual(self.server.wait(60), 0)
        self.assertFalse(mount.feed.lives or mount.edend.lives)

    def test_roots(self):
        """Several roots, with a mount each; a watch that is deleted ends its subscriptions."""
        os.makedirs(self.path("other", "below", "far"))
        with open(self.path("other", ".watchmanconfig"), "w", encoding="utf-8") as file:
            file.write('{"ignore_dirs": ["below"]}')
        for name in ("other/a", "other/below/b"):
            with open(self.path(name), "wb"):
                pass
        peer = self.peer()
        told = peer.ask("watch-project", self.path("other", "below", "far"))
        self.assertEqual((told["watch"], told["relative_path"]), (self.path("other"), "below/far"))
        self.assertEqual(
            sorted(peer.ask("watch-list")["roots"]), sorted([self.path("other"), self.top])
        )
        self.assertEqual(
            peer.ask("get-config", self.path("other"))["config"], {"ignore_dirs": ["below"]}
        )
        self.assertEqual(
            peer.ask("query", self.path("other"), {"fields": ["name"]})["files"],
            [".watchmanconfig", "a"],
        )
        peer.ask("subscribe", self.top, "s", {"fields": ["name"]})
        peer.pushed(lambda told: True)
        peer.ask("watch-del", self.top)
        self.assertTrue(peer.pushed(lambda told: True)["canceled"])
        self.assertEqual(peer.ask("watch-del-all")["roots"], [self.path("other")])
        self.assertEqual(glob.glob(self.path("state", "*-watchman", "mount.json")), [])

    def test_the_socket(self):
        """It is its owner's alone; where others look for Watchman there is a link as long as the
        server runs."""
        self.assertEqual(stat.S_IMODE(os.stat(self.socket).st_mode), 0o600)
        self.assertEqual(stat.S_IMODE(os.stat(os.path.dirname(self.socket)).st_mode), 0o700)
        second = subprocess.run(
            client("watchman"),
            env=self.environment,
            stderr=subprocess.PIPE,
            stdout=subprocess.PIPE,
            timeout=60,
            check=False,
        )
        self.assertEqual(second.returncode, 3)
        self.assertIn(b"another server answers there", second.stderr)
        peer = self.peer(watch=False)
        self.assertTrue(peer.ask("shutdown-server")["shutdown-server"])
        self.assertEqual(self.server.wait(60), 0)
        self.assertFalse(os.path.exists(self.socket))
        link = self.path("root-state", "sock")
        self.server = self.serve("--take-over", link)
        self.assertEqual(os.readlink(link), self.socket)
        with_link = Peer(link)
        self.assertEqual(with_link.ask("get-sockname")["sockname"], self.socket)
        with_link.close()
        self.server.terminate()
        self.server.wait(60)
        self.assertFalse(os.path.lexists(link))
        shutil.rmtree(self.path("root-state"))


if __name__ == "__main__":
    unittest.main()
