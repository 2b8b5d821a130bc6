"""Git's hook, and git-setup."""
import contextlib
import json
import os
import shutil
import signal
import socket
import struct
import subprocess
import sys
import threading
import time
import unittest

from checkouts import Checkout
from kit import CLIENTS, HERE, InFolder, client, wait_until

from railburnet import git_fsmonitor as hook
from railburnet import state
from railburnet.commands import git_setup

HOOK = [sys.executable, "-IS", os.path.abspath(hook.__file__)]


class Notes(InFolder):
    """The hook reads what state.py writes."""

    def test_folders(self):
        root = os.fsencode(self.path("w"))
        for variables in ({"RAILBURNET_STATE": self.path("s")}, {"RAILBURNET_STATE": "below/../here"}, {"RAILBURNET_STATE": "", "XDG_STATE_HOME": self.path("x")},
                          {"RAILBURNET_STATE": "", "XDG_STATE_HOME": "", "HOME": self.path("home")}):
            with self.subTest(variables), environment(**variables):
                self.assertEqual(hook.folder_of(root), state.folder_of(root))

    def test_notes(self):
        here, parent = state.Process.of(os.getpid()), state.Process.of(os.getppid())
        for root in (b"/w", b'/"port": 1,\n "edend": {"id": 2', b'\\"generation": 7', b"/\xff\n"):
            with self.subTest(root):
                mount = state.Mount(root, 4711, 12_345_678_901_234_567_890, here, parent, True, "/control")
                folder = self.path("s", "f")
                state.make_folder(folder)
                state.note(folder, mount)
                note = hook.noted(folder)
                self.assertEqual((note.port, note.generation, note.edend, note.feed), (mount.port, mount.generation, here, parent))
                state.note(folder, mount._replace(feed=parent._replace(started=parent.started + 1)))
                self.assertIsNone(hook.noted(folder))

    def test_a_folder_of_others(self):
        folder = self.path("s", "f")
        self.assertIsNone(hook.noted(folder))
        state.make_folder(folder)
        self.assertIsNone(hook.noted(folder))
        os.chmod(self.path("s"), 0o755)
        with self.assertRaises(hook.Amiss):
            hook.noted(folder)


class Replies(unittest.TestCase):
    """Replies as docs/formats.md has them."""

    def fields(self, number, marked, prefixes=()):
        lists = [b"".join(bytes([mark]) + struct.pack(">H", len(path)) + path for mark, path in marked),
                 b"".join(struct.pack(">H", len(path)) + path for path in prefixes)]
        counts = [struct.pack(">I", len(items)) for items in (marked, prefixes)]
        return struct.pack(">QQ20s", 9, number, b"r" * 20) + counts[0] + lists[0] + counts[1] + lists[1]

    def test_paths(self):
        self.assertEqual(hook.changed(self.fields(5, [])), (5, []))
        self.assertEqual(hook.changed(self.fields(5, [(3, b"a"), (3, b"d/\n")])), (5, [b"a", b"d/\n"]))

    def test_what_feed_keeps_for_itself(self):
        self.assertEqual(hook.changed(self.fields(5, [(1, b".git/.railburnet/names"), (3, b".gitignore")])), (5, [b".gitignore"]))

    def test_directories_above_what_came_or_went(self):
        for mark in (1, 2, 4):
            number, paths = hook.changed(self.fields(5, [(mark, b"d/e/f"), (mark, b"d/e/g"), (mark, b"d/h")]))
            self.assertEqual((number, paths[:3]), (5, [b"d/e/f", b"d/e/g", b"d/h"]))
            self.assertEqual(sorted(paths[3:]), [b".railburnet", b"d/.railburnet", b"d/e/.railburnet"])

    def test_a_repository_below(self):
        number, paths = hook.changed(self.fields(5, [(3, b"d/e/.git")]))
        self.assertEqual(sorted(paths), [b".railburnet", b"d/.railburnet", b"d/e/.git", b"d/e/.railburnet"])

    def test_a_directory_that_was_moved(self):
        self.assertEqual(hook.changed(self.fields(5, [(3, b"a")], [b"d"])), (5, None))

    def test_a_reply_that_is_cut(self):
        whole = self.fields(5, [(3, b"a"), (1, b"d/e")])
        for end in range(len(whole)):
            with self.assertRaises(struct.error):
                hook.changed(whole[:end])


class Peers(InFolder):
    """The hook beside a feed and an edend that answer as a test wants."""

    NAMES = ("hook", "feed", "edend")

    def setUp(self):
        super().setUp()
        os.mkdir(self.path("w"))
        self.folder_of_mount = state.folder_of(os.fsencode(self.path("w")))
        state.make_folder(self.folder_of_mount)
        self.feed_says = [b"at 7 5\n", b'{"left_out": {}}\n']
        self.asked = []
        self._listeners = [socket.socket(socket.AF_UNIX), socket.create_server(("127.0.0.1", 0))]
        self._listeners[0].bind(os.path.join(self.folder_of_mount, "control"))
        self._listeners[0].listen()
        here = state.Process.of(os.getpid())
        self.edend = f"{here.id}:{here.started}"
        port = self._listeners[1].getsockname()[1]
        state.note(self.folder_of_mount, state.Mount(os.fsencode(self.path("w")), port, 7, here, here, True, "control"))
        for listener, serve in zip(self._listeners, (self.serve_feed, self.serve_edend)):
            threading.Thread(target=self.serve, args=(listener, serve), daemon=True).start()

    def tearDown(self):
        for listener in self._listeners:
            with contextlib.suppress(OSError):
                listener.shutdown(socket.SHUT_RDWR)
            listener.close()
        super().tearDown()

    def serve(self, listener, answer):
        with contextlib.suppress(OSError):
            while True:
                connection, _ = listener.accept()
                with connection, connection.makefile("rb") as asked, contextlib.suppress(OSError):
                    answer(connection, asked)

    def serve_feed(self, connection, asked):
        for line in self.feed_says:
            asked.readline()
            connection.sendall(line)
        connection.shutdown(socket.SHUT_WR)
        asked.read()

    def serve_edend(self, connection, asked):
        while True:
            size = asked.read(4)
            if len(size) < 4:
                return
            body = asked.read(*struct.unpack(">I", size))
            generation, number = struct.unpack_from(">QQ", body, 26)
            self.asked.append((generation, number, body[62:]))
            reply = self.edend_says(number, body[2:26])
            if reply is None:
                return
            connection.sendall(struct.pack(">I", len(reply)) + reply)

    def edend_says(self, number, query):
        """At number 6, nothing changed."""
        return b"\x02\x82" + query + struct.pack(">QQ20sII", 7, 6, b"", 0, 0)

    def refuse(self, cause, value, first=0):
        """Has edend refuse what is asked after some questions."""
        said = self.edend_says
        self.edend_says = lambda number, query: (b"\x02\x84" + query + struct.pack(">BQ", cause, value) if len(self.asked) > first
                                                 else said(number, query))

    def ask(self, token, *words):
        done = subprocess.run([*HOOK, *(words or ("2",)), token], cwd=self.path("w"), stdout=subprocess.PIPE, stderr=subprocess.PIPE, check=False)
        return done.returncode, done.stdout, done.stderr.decode()

    def everything(self, number=5):
        return 0, f"7:{number}:{self.edend}:folders\0/\0".encode(), ""

    def test_nothing_changed(self):
        self.assertEqual(self.ask(f"7:3:{self.edend}"), (0, f"7:6:{self.edend}\0".encode(), ""))
        self.assertEqual(self.asked, [(7, 5, b"\0"), (7, 3, b"\0")])

    def test_tokens_of_others(self):
        process, _, started = self.edend.partition(":")
        for token in ("", "1795945985403243816", "7", f"8:3:{self.edend}", f"7:3:{process}:{int(started) + 1}", f"7:3:1{self.edend}", f"7:-3:{self.edend}",
                      f"7:3:{self.edend}:all", f"7:3:{self.edend}:folders:", f"8:3:{self.edend}:folders", f"7:\u0663:{self.edend}", f"7:{'9' * 30}:{self.edend}", f" 7:3:{self.edend}", f"7::{self.edend}"):
            with self.subTest(token):
                self.assertEqual(self.ask(token), self.everything())

    def test_after_everything(self):
        """Who was given everything is given a name in each directory next, and then what changed."""
        for folder in ("a/b", "c d", "a/.git/x"):
            os.makedirs(self.path("w", folder))
        os.symlink("a", self.path("w", "link"))
        status, printed, _ = self.ask(f"7:3:{self.edend}:folders")
        token, *paths, last = printed.split(b"\0")
        self.assertEqual((status, token.decode(), last), (0, f"7:6:{self.edend}", b""))
        self.assertEqual(sorted(paths), [b".railburnet", b"a/.railburnet", b"a/b/.railburnet", b"c d/.railburnet"])
        self.assertEqual(self.asked[-1], (7, 3, b"\0"))

    def test_positions_that_are_refused(self):
        for cause in (1, 2, 3, 4):
            with self.subTest(cause):
                self.asked.clear()
                self.refuse(cause, 9, first=1)
                self.assertEqual(self.ask(f"7:3:{self.edend}"), self.everything())

    def test_an_edend_that_is_late(self):
        """The hook asks until edend has what feed has reported."""
        late = self.edend_says
        self.edend_says = lambda number, query: (b"\x02\x84" + query + struct.pack(">BQ", 2, 4) if len(self.asked) < 4 else late(number, query))
        self.assertEqual(self.ask(f"7:3:{self.edend}"), (0, f"7:6:{self.edend}\0".encode(), ""))
        self.assertEqual([number for _, number, _ in self.asked], [5, 5, 5, 5, 3])

    def test_version_1(self):
        self.assertEqual(self.ask("1795945985403243816", "1"), (1, b"", ""))
        self.assertEqual(subprocess.run(HOOK, check=False).returncode, 1)

    def test_what_is_amiss(self):
        """Git gets no answer, and looks by itself."""
        good = self.feed_says
        for says in ([b"error unknown request\n"], [b"at 7\n", good[1]], [b"at 7 x\n", good[1]], [b"at 8 5\n", good[1]], [b"at 7 5"], [good[0], b"{\n"], []):
            with self.subTest(says):
                self.feed_says = says
                status, printed, said = self.ask(f"7:3:{self.edend}")
                self.assertEqual((status, printed), (1, b""))
                self.assertTrue(said.startswith("railburnet: "), said)
        self.feed_says = good
        for says in (lambda number, query: None, lambda number, query: b"\x02\x82" + query, lambda number, query: b"\x02\x82" + bytes(24) + bytes(44),
                     lambda number, query: b"\x01\x82" + query + bytes(44), lambda number, query: b"", lambda number, query: b"\x02\x84" + query + struct.pack(">BQ", 1, 8)):
            self.edend_says = says
            status, printed, said = self.ask(f"7:3:{self.edend}")
            self.assertEqual((status, printed), (1, b""), said)

    def test_a_feed_that_hangs(self):
        """It is waited for no longer than the time."""
        self.feed_says = []
        name = os.path.join(self.folder_of_mount, "control")
        os.unlink(name)
        with socket.socket(socket.AF_UNIX) as silent, in_folder(self.path("w")), waiting(0.2):
            silent.bind(name)
            silent.listen()
            with self.assertRaises((hook.Amiss, OSError)):
                hook.answer(f"7:3:{self.edend}")

    def test_the_command(self):
        """It is the same by the name of the command."""
        words = client("git-fsmonitor", "2", f"7:3:{self.edend}")
        done = subprocess.run(words, cwd=self.path("w"), stdout=subprocess.PIPE, check=False)
        self.assertEqual((done.returncode, done.stdout), (0, f"7:6:{self.edend}\0".encode()))
        words = client("git-fsmonitor", "1", "0")
        self.assertEqual(subprocess.run(words, cwd=self.path("w"), check=False).returncode, 1)

    def test_what_the_mount_cannot_know(self):
        """Everything may have changed, and may have changed since that answer too."""
        os.mkfifo(self.path("w", "pipe"))
        os.mkdir(self.path("w", "copy"))
        with open(self.path("w", "large"), "wb"):
            pass
        known = {"pipe": "is no file", "large": "9,000,000 bytes"}
        for left_out, is_whole in ((known, True), ({**known, "copy": "a copy"}, False), ({"gone": "?"}, False), ({"d/" * 64 + "f": "long"}, False),
                                   ({"n" * 1025: "long"}, False), (dict.fromkeys(map(str, range(101)), "x"), False)):
            self.feed_says[1] = json.dumps({"names": True, "left_out": left_out}).encode() + b"\n"
            wanted = f"7:6:{self.edend}\0" if is_whole else f"7:5:{self.edend}:all\0/\0"
            self.assertEqual(self.ask(f"7:3:{self.edend}"), (0, wanted.encode(), ""))
        self.feed_says[1] = b'{"left_out": {}}\n'
        os.mkdir(self.path("w", ".railburnet"))
        self.assertEqual(self.ask(f"7:3:{self.edend}"), (0, f"7:5:{self.edend}:all\0/\0".encode(), ""))


@unittest.skipUnless(shutil.which("git"), "no git here")
class Checkouts(InFolder):
    """Git with the hook, beside Git without."""

    def setUp(self):
        super().setUp()
        edend = os.environ.get("EDEND") or os.path.join(HERE, "stand_in.py")
        # enterContext is of a later Python.
        self._variables = contextlib.ExitStack()
        self._variables.enter_context(environment(EDEND=edend))
        self.checkout = Checkout(self.folder)
        self.checkout.make()

    def tearDown(self):
        subprocess.run(client("down", "--all"), check=False, stdout=subprocess.DEVNULL, stderr=subprocess.DEVNULL)
        self._variables.close()
        super().tearDown()

    def ask(self, token):
        """A new token, and the paths that the hook gives, however slow the machine is."""
        with in_folder(self.checkout.top), waiting(60.0):
            return hook.answer(token)

    def put(self, path, text="text"):
        os.makedirs(os.path.dirname(self.path("w", path)), exist_ok=True)
        with open(self.path("w", path), "w", encoding="utf-8") as file:
            file.write(text)

    def same(self, *wanted):
        """Both answers are equal, and have these lines among them."""
        given = self.checkout.status()
        self.assertEqual(given, self.checkout.status_alone())
        self.assertLessEqual(set(wanted), set(given.split(b"\0")))

    def test_paths(self):
        self.checkout.set_up()
        self.assertTrue(self.checkout.mount().names)
        token, paths = self.ask("")
        self.assertEqual(paths, [b"/"])
        self.assertRegex(token, rf"\A{self.checkout.mount().generation}:\d+:{self.checkout.mount().edend.id}:\d+:folders\Z")
        token, paths = self.ask(token)
        self.assertLessEqual({b".railburnet", b"d1/.railburnet", b"d1/e1/.railburnet"}, set(paths))
        self.assertEqual(self.ask(token)[1], [])
        os.utime(self.path("w", "d1", "e1", "f1"))
        token, paths = self.ask(token)
        self.assertEqual(paths, [b"d1/e1/f1"])
        self.put("d1/new")
        token, paths = self.ask(token)
        self.assertEqual(set(paths), {b"d1/new", b".railburnet", b"d1/.railburnet"})
        os.rename(self.path("w", "d1"), self.path("w", "x"))
        token, paths = self.ask(token)
        self.assertLessEqual({b"d1/new", b"x/new", b"d1/e1/f1", b"x/e1/f1", b".railburnet"}, set(paths))
        self.same(b"?? x/")
        self.checkout.steps.git("add", "-A")
        self.same(b"A  x/new")

    def test_a_mount_of_whole_renames(self):
        """A mount that `up` began is used, and everything may have changed once a directory was moved."""
        subprocess.run(client("up", self.path("w")), check=True, stdout=subprocess.DEVNULL)
        self.checkout.set_up()
        self.assertFalse(self.checkout.mount().names)
        token, _ = self.ask(self.ask("")[0])
        self.put("d1/e1/f1")
        token, paths = self.ask(token)
        self.assertEqual(paths, [b"d1/e1/f1"])
        self.put("d2/sub/x")
        self.same(b"?? d2/sub/")
        # A directory with an empty one takes the place of one that has files.
        os.makedirs(self.path("w", "d3", "sub"))
        for old, new in (("d2", "swap"), ("d3", "d2"), ("swap", "d3")):
            os.rename(self.path("w", old), self.path("w", new))
        token, paths = self.ask(token)
        self.assertEqual(paths, [b"/"])
        self.same(b"?? d3/sub/")
        token, paths = self.ask(token)
        self.assertEqual({path.rpartition(b"/")[2] for path in paths}, {b".railburnet"})
        self.assertEqual(self.ask(token)[1], [])

    def test_all_untracked_files(self):
        """Git finds new directories in directories that it has listed before."""
        self.checkout.set_up("all")
        for path in ("new/below/x", "d1/e1/new/y", "new/below/z"):
            self.same()
            self.put(path)
            self.same(b"?? " + os.fsencode(path))
        shutil.rmtree(self.path("w", "new"))
        self.same(b"?? d1/e1/new/y")

    def test_repositories_below(self):
        """A directory becomes a repository of its own, and goes again."""
        self.checkout.set_up()
        self.same()
        for path in (self.path("w", "sub"), self.path("w", "d1", "new", "s")):
            self.checkout.steps.git("init", "-q", os.fsencode(path))
            self.same()
        shutil.rmtree(self.path("w", "sub"))
        self.same()

    def test_worktrees(self):
        self.checkout.set_up()
        self.checkout.steps.git("worktree", "add", "-q", os.fsencode(self.path("other")), "two")
        other = Checkout(self.folder)
        other.top = os.fsencode(os.path.realpath(self.path("other")))
        other.steps.top = other.top
        other.wait()
        self.assertNotEqual(other.mount().place, self.checkout.mount().place)
        with open(self.path("other", "new"), "w", encoding="utf-8"):
            pass
        self.assertEqual(other.status(), b"?? new\0")
        self.same()

    def test_what_dies(self):
        self.checkout.set_up()
        self.same()
        for which in ("feed", "edend", "both"):
            with self.subTest(which):
                self.checkout.kill(which)
                self.put(which)
                self.same(b"?? " + which.encode())
                self.checkout.wait()
                self.same(b"?? " + which.encode())

    def test_what_changed_while_there_was_no_mount(self):
        """The first commands look for no untracked files, and what Git knew of these is no longer so."""
        os.makedirs(self.path("w", "u", "v"))
        self.put("u/v/x")
        self.checkout.set_up()
        self.same(b"?? u/")
        self.same(b"?? u/")
        self.checkout.end()
        shutil.rmtree(self.path("w", "u"))
        os.makedirs(self.path("w", "d0", "k"))
        self.put("d0/k/new")
        end = time.monotonic() + 60
        while self.checkout.mount() is None and time.monotonic() < end:
            self.checkout.steps.git("diff")
        for _ in range(3):
            self.checkout.steps.git("diff")
        self.same(b"?? d0/k/")

    def test_what_stops(self):
        self.checkout.set_up()
        self.same()
        os.kill(self.checkout.mount().feed.id, signal.SIGSTOP)
        try:
            self.put("new")
            self.same(b"?? new")
        finally:
            os.kill(self.checkout.mount().feed.id, signal.SIGCONT)
        self.same(b"?? new")

    def test_a_daemon_that_is_not_there(self):
        self.checkout.set_up()
        self.checkout.end()
        os.environ["EDEND"] = self.path("nothing")
        with self.assertRaises(hook.Amiss) as amiss:
            self.ask("")
        self.assertEqual(str(amiss.exception), f"{self.path('nothing')}: No such file or directory")
        self.same()

    def test_a_mount_that_begins(self):
        """Git doesn't wait for a mount that takes longer, and nobody else is sent to begin it."""
        self.checkout.set_up()
        self.checkout.end()
        with state.locked(state.folder_of(self.checkout.top)):
            with self.assertRaises(hook.Amiss) as amiss:
                self.ask("")
            self.assertEqual(str(amiss.exception), "")
            self.same()
        self.assertIsNone(self.checkout.mount())

    def test_random_steps(self):
        for way in ("cache", "no-cache"):
            self.checkout.set_up(way)
            for step in range(15):
                kind, lines = self.checkout.step()
                self.assertEqual(lines, [], f"{way}, step {step}, {kind}")
        self.assertGreater(self.checkout.given, 10)


@unittest.skipUnless(shutil.which("git"), "no git here")
class Setup(InFolder):
    def setUp(self):
        super().setUp()
        self.environment = {**os.environ, "EDEND": os.environ.get("EDEND") or os.path.join(HERE, "stand_in.py")}
        os.mkdir(self.path("w"))
        self.git("init", "-q")

    def tearDown(self):
        self.run_it("down", "--all")
        super().tearDown()

    def git(self, *words, status=0):
        done = subprocess.run(["git", "-C", self.path("w"), *words], stdout=subprocess.PIPE, stderr=subprocess.PIPE, env=self.environment, check=False)
        self.assertEqual(done.returncode, status, done)
        return (done.stdout + done.stderr).decode()

    def run_it(self, *words, status=None, railburnet=None):
        words = [sys.executable, railburnet, *words] if railburnet else client(*words)
        done = subprocess.run(words, cwd=self.path("w"), env=self.environment, stdout=subprocess.PIPE, stderr=subprocess.PIPE, check=False)
        if status is not None:
            self.assertEqual(done.returncode, status, done)
        return done.stdout.decode(), done.stderr.decode()

    def settings(self):
        names = ("core.fsmonitor", "core.untrackedcache", "railburnet.")
        lines = self.git("config", "--local", "--list").splitlines()
        return dict(line.split("=", 1) for line in lines if line.startswith(names))

    def test_there_and_back(self):
        value = " ".join(HOOK)
        self.assertEqual(self.run_it("git-setup", status=0)[0], f"set: core.fsmonitor = {value}\nset: core.untrackedCache = true\n"
                         f"in {self.path('w')}; `railburnet git-setup --undo` there takes it back\n")
        once = self.settings()
        self.assertEqual((once["core.fsmonitor"], once["core.untrackedcache"]), (value, "true"))
        self.run_it("git-setup", self.path("w"), status=0)
        self.assertEqual(self.settings(), once)
        self.assertEqual(self.run_it("git-setup", "--undo", status=0)[0], "unset: core.fsmonitor\nunset: core.untrackedCache\n"
                         f"in {self.path('w')}; `railburnet down` there ends the mount\n")
        self.assertEqual(self.settings(), {})
        self.assertEqual(self.run_it("git-setup", "--undo", status=0)[0], f"nothing is set in {self.path('w')}\n")

    def test_a_cache_that_was_set(self):
        for before in ("true", "keep", "false"):
            self.git("config", "core.untrackedCache", before)
            self.run_it("git-setup", status=0)
            self.assertEqual(self.settings()["core.untrackedcache"], "true")
            self.run_it("git-setup", "--undo", status=0)
            self.assertEqual(self.settings(), {"core.untrackedcache": before})

    def test_another_monitor(self):
        self.git("config", "core.fsmonitor", "query-watchman '")
        for words in (["git-setup"], ["git-setup", "--undo"]):
            self.assertIn("query-watchman", self.run_it(*words, status=1)[1])
        self.assertEqual(self.settings(), {"core.fsmonitor": "query-watchman '"})

    def test_what_is_refused(self):
        os.mkdir(self.path("w", "d"))
        self.assertIn(f"is not the top of the checkout, which is {self.path('w')}", self.run_it("git-setup", "d", status=1)[1])
        self.assertIn("is not the top of a checkout of Git", self.run_it("git-setup", self.folder, status=1)[1])
        self.assertIn("is not the top of a checkout of Git", self.run_it("git-setup", "nowhere", status=1)[1])
        subprocess.run(["git", "init", "-q", "--bare", self.path("bare")], check=True)
        self.assertIn("is not the top of a checkout of Git", self.run_it("git-setup", self.path("bare"), status=1)[1])
        with open(self.path("git"), "w", encoding="ascii") as file:
            file.write("#!/bin/sh\necho git version 2.25.4\n")
        os.chmod(self.path("git"), 0o755)
        before = self.environment["PATH"]
        self.environment["PATH"] = self.folder + ":" + before
        self.assertIn("Git has to be of version 2.26 or later; there is: git version 2.25.4", self.run_it("git-setup", status=1)[1])
        self.environment["PATH"] = "/nowhere"
        self.assertIn("no program git", self.run_it("git-setup", status=1)[1])
        self.environment["PATH"] = before
        self.assertEqual(self.settings(), {})

    def test_versions(self):
        for text, version in (("git version 2.39.5", (2, 39)), ("git version 2.50.1 (Apple Git-155)", (2, 50)), ("git version 2.47.0.windows.1", (2, 47)), ("?", ())):
            self.assertEqual(git_setup.version_of(text), version)

    def test_a_path_with_spaces_and_quotes(self):
        odd = self.path("~a b'c\"d$HOME`e\\")
        os.mkdir(odd)
        shutil.copytree(os.path.join(CLIENTS, "python"), os.path.join(odd, "python"), ignore=shutil.ignore_patterns("__pycache__"))
        shutil.copy(os.path.join(CLIENTS, "railburnet"), odd)
        self.run_it("git-setup", railburnet=os.path.join(odd, "railburnet"), status=0)
        self.environment["GIT_TRACE_FSMONITOR"] = "1"
        self.assertTrue(wait_until(lambda: "returned success" in self.git("status")))
        # Another installation may take its place, and take it back.
        self.run_it("git-setup", status=0)
        self.assertEqual(self.settings()["core.fsmonitor"], " ".join(HOOK))
        self.run_it("git-setup", "--undo", railburnet=os.path.join(odd, "railburnet"), status=0)
        self.assertEqual(self.settings(), {})


@contextlib.contextmanager
def in_folder(folder):
    """A directory that one is in for as long as a block runs."""
    before = os.getcwd()
    os.chdir(folder)
    try:
        yield
    finally:
        os.chdir(before)


@contextlib.contextmanager
def waiting(seconds):
    """How long the hook waits at the most, for as long as a block runs."""
    before = hook.MOST_SECONDS, hook.MOST_BEGINNING
    hook.MOST_SECONDS = hook.MOST_BEGINNING = seconds
    try:
        yield
    finally:
        hook.MOST_SECONDS, hook.MOST_BEGINNING = before


@contextlib.contextmanager
def environment(**variables):
    """Variables for as long as a block runs."""
    before = {name: os.environ.get(name) for name in variables}
    os.environ.update(variables)
    try:
        yield
    finally:
        for name, value in before.items():
            if value is None:
                del os.environ[name]
            else:
                os.environ[name] = value


if __name__ == "__main__":
    unittest.main()
