"""railburnet up, down, status and sync: mounts in the background, found by their directories."""
import concurrent.futures
import contextlib
import json
import os
import re
import shutil
import signal
import stat
import subprocess
import threading
import unittest

from kit import HERE, InFolder, client, free_port, wait_until, writable_edend

from railburnet import (
    Client,
    ConnectionLost,
    File,
    FrameFault,
    Kind,
    Mirror,
    NotWritable,
    Remove,
    state,
)
from railburnet.control import Bell, ControlFault
from railburnet.mount import stop


class Mounts(InFolder):
    def setUp(self):
        super().setUp()
        self.environment = {
            **os.environ,
            "EDEND": os.environ.get("EDEND") or os.path.join(HERE, "stand_in.py"),
        }
        self.environment.pop("RAILBURNET_PORT", None)
        os.makedirs(self.path("w", "d"))
        self.write("a", "1")
        self.write("d/b", "2")

    def tearDown(self):
        self.run_it("down", "--all")
        super().tearDown()

    def write(self, name, text):
        with open(self.path("w", name), "w", encoding="utf-8") as file:
            file.write(text)

    def run_it(self, *words, status=None, at=None):
        """Runs the command in the directory; what it prints and says."""
        done = subprocess.run(
            client(*words),
            cwd=at or self.path("w"),
            env=self.environment,
            stdout=subprocess.PIPE,
            stderr=subprocess.PIPE,
            check=False,
        )
        if status is not None:
            self.assertEqual(done.returncode, status, done)
        return done.stdout.decode(), done.stderr.decode()

    def up(self, *words):
        """Begins a mount of the directory."""
        printed, said = self.run_it("up", *words, status=0)
        self.assertRegex(printed, r"\Aup: \S+ at (socket \S+|port \d+), [\d,]+ files?")
        return self.mount(), printed, said

    def mount(self):
        return state.find(os.fsencode(self.path("w")))

    def listed(self, *words, at=None):
        return self.run_it("list", "--null", *words, status=0, at=at)[0].split("\0")[:-1]

    def git(self, *words):
        words = ["git", "-C", self.path("w"), "-c", "user.name=a", "-c", "user.email=a@a", *words]
        return subprocess.run(words, stdout=subprocess.PIPE, check=True).stdout.decode().strip()


class Beginnings(Mounts):
    def test_up_and_down(self):
        mount, printed, said = self.up()
        self.assertEqual(said, "")
        self.assertRegex(
            printed, rf"\Aup: {self.path('w')} at socket {mount.socket}, 2 files, \d+\.\d s\n\Z"
        )
        self.assertEqual(self.listed(), ["a", "d/b"])
        self.assertEqual(self.listed(at=self.path("w", "d")), ["a", "d/b"])
        self.assertEqual(self.listed("-C", self.path("w", "d"), at="/"), ["a", "d/b"])
        self.assertEqual(
            self.run_it("up", self.path("w"), status=0)[0],
            f"up: {self.path('w')} at socket {mount.socket}, 2 files, up already\n",
        )
        self.assertEqual(self.mount(), mount)
        self.assertEqual(
            self.run_it("down", at=self.path("w", "d"), status=0)[0], f"down: {self.path('w')}\n"
        )
        self.assertFalse(mount.feed.lives or mount.edend.lives)
        self.assertEqual(
            set(os.listdir(state.folder_of(mount.root))), {"generation", "lock", "log"}
        )
        self.assertIn("no mount of", self.run_it("list", status=3)[1])
        self.assertIn("no mount of", self.run_it("down", status=1)[1])

    def test_once_however_many_ask(self):
        with concurrent.futures.ThreadPoolExecutor(4) as pool:
            printed = list(pool.map(lambda _: self.run_it("up", status=0)[0], range(4)))
        self.assertEqual(sum("up already" not in text for text in printed), 1, printed)
        self.assertEqual(len({text.split(",")[0] for text in printed}), 1)

    def test_a_generation_never_comes_twice(self):
        generations, places = [], []
        for _ in range(3):
            mount, _, _ = self.up()
            generations.append(mount.generation)
            places.append(mount.place)
            self.assertIn(f"at {mount.generation} ", self.run_it("list", status=0)[0])
            self.run_it("down", status=0)
        self.assertEqual(generations, sorted(set(generations)))
        self.assertEqual(len(set(places)), 1)

    def test_a_half_that_died(self):
        for name in ("edend", "feed"):
            mount, _, _ = self.up()
            dead = getattr(mount, name)
            os.kill(dead.id, signal.SIGKILL)
            self.assertTrue(wait_until(lambda: not mount.feed.lives and not mount.edend.lives))
            report = self.run_it("status", status=1)[0]
            self.assertIn("ended; `railburnet up` begins it again", report)
            self.assertIn(
                "has ended; `railburnet up` there begins it again", self.run_it("list", status=3)[1]
            )
            after, _, _ = self.up()
            self.assertEqual(after.place, mount.place)
            self.assertGreater(after.generation, mount.generation)

    def test_nested(self):
        self.up()
        self.run_it("up", self.path("w", "d"), status=0)
        self.assertEqual(self.listed(), ["a", "d/b"])
        self.assertEqual(self.listed(at=self.path("w", "d")), ["b"])
        self.assertEqual(self.run_it("status", status=0)[0].count(" at socket "), 2)

    def test_what_cannot_begin(self):
        self.assertIn("is not a directory", self.run_it("up", self.path("w", "a"), status=1)[1])
        self.environment["EDEND"] = self.path("nothing")
        self.assertIn("nothing: No such file", self.run_it("up", status=1)[1])
        del self.environment["EDEND"]
        self.environment["PATH"] = "/nowhere"
        if not os.path.exists(os.path.join(HERE, "..", "..", "bin", "edend")):
            self.assertIn(
                "`./build` in Railburnet's repository makes it", self.run_it("up", status=1)[1]
            )
        self.assertIsNone(self.mount())
        self.environment["EDEND"] = "/bin/false"
        self.assertIn("edend ended with status 1", self.run_it("up", status=1)[1])
        self.assertIsNone(self.mount())
        self.assertEqual(
            subprocess.run(["pgrep", "-f", f"feed .*{self.path('w')}"], check=False).returncode, 1
        )

    def test_one_that_was_left_while_it_began(self):
        """`up` is killed before edend listens: `down` ends both processes."""
        for words in ((), ("--all",)):
            mount = self.left_while_it_began("exec cat")
            self.assertTrue(mount.feed.lives and mount.edend.lives)
            printed = self.run_it("down", *words, status=0)[0]
            self.assertEqual(printed, f"down: {self.path('w')}\n")
            self.assertFalse(mount.feed.lives or mount.edend.lives)
            # feed may have ended while it replaced the generation.
            kept = {"generation", "generation.new", "lock", "log"}
            self.assertLessEqual(set(os.listdir(mount.folder)), kept)

    def test_an_edend_that_does_not_end(self):
        """One that goes on once the feed has ended is killed after a time."""
        mount = self.left_while_it_began("exec sleep 600")
        stop(mount, timeout=0.2)
        self.assertFalse(mount.feed.lives or mount.edend.lives)

    def left_while_it_began(self, edend):
        """Kills `up` while it waits for a shell script in place of edend; what is left of it."""
        self.environment["EDEND"] = self.path("edend")
        with open(self.path("edend"), "w", encoding="ascii") as file:
            file.write(f'#!/bin/sh\n[ "$2" != --help ] || exit 2\n{edend}\n')
        os.chmod(self.path("edend"), 0o755)
        up = self.started(client("up", self.path("w")), env=self.environment)
        folder = state.folder_of(os.fsencode(self.path("w")))
        self.assertTrue(wait_until(lambda: state.begun(folder) is not None))
        up.kill()
        up.wait()
        return state.begun(folder)

    def test_a_port_of_ones_own(self):
        port = free_port()
        mount, printed, _ = self.up("--port", str(port))
        self.assertEqual((mount.place, mount.socket), (port, ""))
        self.assertIn(f" at port {port}, 2 files, ", printed)
        self.assertIn("another setting of --names", self.up("--names")[2])
        self.assertIn("another setting of --port", self.up("--port", str(free_port()))[2])
        report = json.loads(self.run_it("status", "--json", status=0)[0])
        self.assertEqual((report["port"], report["socket"]), (port, None))
        self.assertIn(f" at port {port}\n", self.run_it("status", status=0)[0])
        self.assertEqual(self.listed("--port", str(port), at="/"), ["a", "d/b"])

    def test_a_socket_that_nobody_else_can_open(self):
        mount, _, _ = self.up()
        status = os.lstat(mount.socket)
        self.assertTrue(stat.S_ISSOCK(status.st_mode))
        self.assertEqual(stat.S_IMODE(status.st_mode), 0o600)
        self.assertEqual(stat.S_IMODE(os.stat(os.path.dirname(mount.socket)).st_mode), 0o700)
        report = json.loads(self.run_it("status", "--json", status=0)[0])
        self.assertEqual((report["port"], report["socket"]), (None, mount.socket))
        self.assertEqual(self.listed("--socket", mount.socket, at="/"), ["a", "d/b"])
        self.assertEqual(
            self.listed("--socket", "socket", at=os.path.dirname(mount.socket)), ["a", "d/b"]
        )
        # Its files go with the mount, also if edend is killed.
        os.kill(mount.edend.id, signal.SIGKILL)
        self.assertTrue(wait_until(lambda: not mount.edend.lives))
        self.run_it("down", status=0)
        self.assertEqual(
            set(os.listdir(state.folder_of(mount.root))), {"generation", "lock", "log"}
        )
        said = self.run_it("list", "--socket", mount.socket, status=3)[1]
        self.assertIn(f"no connection to socket {mount.socket}: No such file", said)

    def test_a_path_that_is_too_long_for_a_socket(self):
        self.environment["RAILBURNET_STATE"] = self.path("s" * 100)
        _, printed, said = self.up()
        self.assertIn(" at port ", printed)
        self.assertIn("is too long for a socket, so the mount is at a port", said)
        self.assertEqual(self.listed(), ["a", "d/b"])
        self.run_it("down", status=0)

    def test_stay(self):
        stay = self.started(
            client("up", "--stay", self.path("w")), env=self.environment, stdout=subprocess.DEVNULL
        )
        self.assertTrue(wait_until(lambda: self.mount() is not None), self.text("stderr"))
        mount = self.mount()
        stay.send_signal(signal.SIGTERM)
        self.assertEqual(stay.wait(120), 0)
        self.assertFalse(mount.feed.lives or mount.edend.lives)
        stay = self.started(
            client("up", "--stay", self.path("w")), env=self.environment, stdout=subprocess.DEVNULL
        )
        self.assertTrue(wait_until(lambda: self.mount() is not None), self.text("stderr"))
        os.kill(self.mount().edend.id, signal.SIGKILL)
        self.assertEqual(stay.wait(120), 1)
        self.assertIsNone(self.mount())

    def test_signals_of_a_terminal(self):
        """An interrupt of the terminal's processes, once `up` has ended, ends no mount."""
        up = self.started(
            client("up", self.path("w")),
            env=self.environment,
            stdout=subprocess.DEVNULL,
            start_new_session=True,
        )
        self.assertEqual(up.wait(120), 0)
        self.assertNotEqual(os.getsid(self.mount().feed.id), up.pid)
        self.assertNotEqual(os.getsid(self.mount().edend.id), up.pid)


@unittest.skipUnless(shutil.which("git"), "no git here")
class Checkouts(Mounts):
    def test_a_checkout(self):
        self.git("init", "-q")
        self.assertEqual(self.up()[0].names, False)
        self.assertIn(f" {'0' * 40}\n", self.run_it("list", status=0)[0])
        self.run_it("down", status=0)
        self.git("add", "-A")
        self.git("commit", "-q", "-m", "one")
        self.write("a", "changed")
        self.write("new", "3")
        mount, printed, said = self.up()
        self.assertIn(", 3 files, ", printed)
        self.assertEqual(said, "")
        self.assertIn(f" {self.git('rev-parse', 'HEAD')}\n", self.run_it("list", status=0)[0])
        self.assertEqual(self.run_it("cat", "a", status=0)[0], "changed")
        # Below the top of a checkout there is no commit to mount.
        self.run_it("up", self.path("w", "d"), status=0)
        self.assertIn(
            f" {'0' * 40}\nfiles 1\nb\n", self.run_it("list", status=0, at=self.path("w", "d"))[0]
        )

    def test_what_a_mount_cannot_hold(self):
        self.git("init", "-q")
        with open(self.path("w", "large"), "wb") as file:
            file.truncate(8_388_609)
        self.git("add", "-A")
        self.git("commit", "-q", "-m", "one")
        _, printed, said = self.up()
        self.assertIn(", 2 files, ", printed)
        self.assertEqual(
            said, "railburnet: left out of the mounted commit: large (a file of 8,388,609 bytes)\n"
        )
        self.assertIn("not in the mount: large", self.run_it("status", status=0)[0])
        report = json.loads(self.run_it("status", "--json", status=0)[0])
        self.assertEqual(
            (list(report["left_out"]), report["files"], report["fault"]), (["large"], 2, None)
        )
        # The copy isn't equal to the directory, and says so; where the file isn't wanted, it is.
        words = ("follow", "--once", "--into")
        printed, said = self.run_it(*words, self.path("m"), status=1)
        self.assertIn("unequal 1\n", printed)
        self.assertRegex(said, r"\Arailburnet: large: 8,388,609 bytes are too many .*\n\Z")
        printed, said = self.run_it(*words, self.path("n"), "a", "d/**", status=0)
        self.assertIn("unequal 0\n", printed)
        self.assertEqual(said, "")

    def test_many_files_that_a_mount_cannot_hold(self):
        """A copy names some of them, once."""
        for n in range(12):
            with open(self.path("w", f"large{n:02}"), "wb") as file:
                file.truncate(9_000_000)
        self.up()
        follow = [*client("follow"), "--into", self.path("m"), "--every", "0.02"]
        self.started(follow, cwd=self.path("w"), env=self.environment, stdout=subprocess.DEVNULL)
        more = b"railburnet: and 2 more; `railburnet status --json` lists them\n"
        self.assertTrue(wait_until(lambda: more in self.text("stderr")))
        self.write("a", "more")
        self.assertTrue(wait_until(lambda: self.text("m/a") == self.text("w/a")))
        with open(self.path("w", "large03"), "ab") as file:
            file.write(b"x")
        self.assertTrue(wait_until(lambda: b"large03: 9,000,001 bytes" in self.text("stderr")))
        self.assertEqual(len(self.text("stderr").splitlines()), 12)


class LargeFiles(Mounts):
    """Files that no line holds, in mounts that can be changed over their sockets or can't."""

    def setUp(self):
        super().setUp()
        self.environment["EDEND"] = writable_edend() or os.path.join(HERE, "stand_in.py")
        self.large = self.path("w", "large")
        with open(self.large, "wb") as file:
            file.write(b"x" * 1_000_000)

    def reported(self):
        return json.loads(self.run_it("status", "--json", status=0)[0])

    def test_over_a_socket(self):
        mount, printed, _ = self.up()
        self.assertIn(", 3 files, ", printed)
        with Client(mount.place) as asks:
            for text in (b"y" * 1_000_000, b"z" * 8_388_608):
                with open(self.large, "wb") as file:
                    file.write(text)
                asks.sync(mount.control)
                self.assertEqual(asks.fetch(b"large").file.content, text)
        self.assertEqual(self.reported()["left_out"], {})

    def test_none_is_missing_while_a_mount_begins(self):
        """Whoever connects to the socket, at whatever moment, finds all files."""
        self.up()
        over, found = threading.Event(), set()
        place = os.path.join(state.folder_of(os.fsencode(self.path("w"))), "socket")

        def look():
            while not over.wait(0.005):
                with contextlib.suppress(ConnectionLost, FrameFault):
                    with Client(place, connections=1) as asks:
                        basis = asks.basis()
                        found.add((basis.position.generation, *basis.paths))

        looker = threading.Thread(target=look)
        looker.start()
        try:
            for _ in range(2):
                self.run_it("down", status=0)
                mount, _, _ = self.up()
                known = (mount.generation, b"a", b"d/b", b"large")
                self.assertTrue(wait_until(lambda known=known: known in found))
        finally:
            over.set()
            looker.join()
        self.assertEqual({it[1:] for it in found}, {(b"a", b"d/b", b"large")})

    def test_at_a_port(self):
        """Whoever can connect to a port must not change the mount, so lines alone do."""
        self.up("--port", str(free_port()))
        why = "1,000,000 bytes are too many for a line; the mount has no file there"
        self.assertEqual(self.reported()["left_out"], {"large": why})
        with Client(self.mount().place) as asks, self.assertRaises(NotWritable):
            asks.do(Remove(b"a"))

    def test_an_older_edend(self):
        """One that doesn't know the option is fed by lines alone."""
        program = self.environment["EDEND"]
        self.environment["EDEND"] = self.path("edend")
        with open(self.path("edend"), "w", encoding="ascii") as file:
            file.write(f'#!/bin/sh\n[ "$2" != --help ] || exit 2\nexec {program} "$@"\n')
        os.chmod(self.path("edend"), 0o755)
        self.up()
        self.assertEqual(list(self.reported()["left_out"]), ["large"])
        self.assertEqual(self.listed(), ["a", "d/b"])
        with Client(self.mount().place) as asks, self.assertRaises(NotWritable):
            asks.do(Remove(b"a"))


class Questions(Mounts):
    def test_sync(self):
        """A save is in the mount after a sync, each time."""
        mount, _, _ = self.up()
        with Client(mount.place) as asks:
            for n in range(50):
                self.write("a", f"save {n}")
                position = asks.sync(mount.control)
                self.assertEqual(asks.fetch(b"a").file, File(Kind.PLAIN, b"save %d" % n))
                self.assertEqual(position.generation, mount.generation)
        self.write("a", "last")
        self.assertRegex(
            self.run_it("sync", status=0)[0], rf"\Aat {mount.generation} \d+ {'0' * 40}\n\Z"
        )
        self.assertEqual(self.run_it("cat", "a", status=0)[0], "last")

    def test_a_bell(self):
        mount, _, _ = self.up()
        bell = Bell(mount.control)
        self.assertTrue(bell.wait(120))
        before = bell.at
        self.assertFalse(bell.wait(0.1))
        self.write("a", "2")
        self.assertTrue(bell.wait(120))
        self.assertEqual(bell.at[0], mount.generation)
        self.assertGreater(bell.at[1], before[1])
        self.run_it("down", status=0)
        with self.assertRaises(ControlFault):
            while bell.wait(120):
                pass
        bell.close()
        with self.assertRaises(ControlFault), Client(mount.place) as asks:
            asks.sync(mount.control)

    def test_names(self):
        self.write("a", "x" * 300_000)
        mount, printed, _ = self.up("--names")
        self.assertTrue(mount.names)
        self.assertIn(", 2 files, names alone, ", printed)
        self.assertEqual(self.listed(), ["a", "d/b"])
        with Client(mount.place) as asks:
            position = asks.position()
            self.assertLess(len(asks.fetch(b"a").file.content), 100)
            self.write("a", "y" * 300_000)
            asks.sync(mount.control)
            self.assertEqual([path for _, path in asks.since(position).marked], [b"a"])
        for at in ([], ["--socket", mount.socket]):
            said = self.run_it(*at, "follow", "--into", self.path("m"), status=2)[1]
            self.assertIn("no contents to copy", said)
        self.assertFalse(os.path.exists(self.path("m")))

    def test_names_that_are_left_out(self):
        os.makedirs(self.path("w", "d", "build"))
        self.write("d/build/o", "3")
        self.write("build", "4")
        skip = ("--skip", "build", "--skip", "b")
        self.assertEqual(self.up(*skip)[0].skip, ("b", "build"))
        self.assertEqual(self.listed(), ["a"])
        self.write("d/build/p", "5")
        self.write("d/c", "6")
        self.run_it("sync", status=0)
        self.assertEqual(self.listed(), ["a", "d/c"])
        # The same names in another order are the same setting.
        self.assertEqual(self.up("--skip", "b", "--skip", "build", "--skip", "b")[2], "")
        self.assertIn("another setting of --skip", self.up("--skip", "b")[2])
        for word in ("", ".", "..", "d/b"):
            said = self.run_it("up", "--skip", word, at=self.path("w", "d"), status=1)[1]
            self.assertIn("is no name of a file that can be left out", said)

    def test_a_copy_in_the_directory(self):
        mount, _, _ = self.up()
        for at in ([], ["--socket", mount.socket]):
            for into in (
                self.path("w"),
                self.path("w", "copy"),
                self.path("w", "d", "..", "x", "copy"),
            ):
                said = self.run_it(*at, "follow", "--into", into, status=2)[1]
                self.assertIn("the copy would copy itself", said)
        self.assertEqual(sorted(os.listdir(self.path("w"))), ["a", "d"])

    def test_watch_finds_the_mount_again(self):
        """watch runs in the mount's root, with its paths, and goes on when the mount has ended
        and begun again."""
        self.up()
        with open(self.path("log"), "wb") as log:
            words = client("watch", "./**", "--", "sh", "-c", 'cat "$@"; pwd', "-")
            self.started(words, cwd=self.path("w", "d"), env=self.environment, stdout=log)
            self.assertTrue(
                wait_until(lambda: b"watching 2 paths" in self.text("stderr")), self.text("stderr")
            )
            self.write("d/b", "saved ")
            self.assertTrue(
                wait_until(
                    lambda: self.text("log") == b"saved " + os.fsencode(self.path("w")) + b"\n"
                ),
                self.text("stderr"),
            )
            self.run_it("down", status=0)
            mount, _, _ = self.up("--port", str(free_port()))
            # It says that the connection was lost only if the mount was away for long.
            beginning = f"(STALE {mount.generation}): beginning again".encode()
            self.assertTrue(
                wait_until(lambda: beginning in self.text("stderr")), self.text("stderr")
            )
            self.write("a", "again ")
            self.assertTrue(wait_until(lambda: b"again " in self.text("log")), self.text("stderr"))

    def test_watch_waits_for_a_mount_that_is_away(self):
        """watch says once that the mount is away, and once that it is there again."""
        self.up()
        self.started(
            client("watch", "**", "--", "true"), cwd=self.path("w"), env=self.environment
        )
        self.assertTrue(
            wait_until(lambda: b"watching 2 paths" in self.text("stderr")), self.text("stderr")
        )
        self.run_it("down", status=0)
        self.assertTrue(
            wait_until(lambda: b"; trying again\n" in self.text("stderr")), self.text("stderr")
        )
        self.up()
        self.assertTrue(
            wait_until(lambda: b"connected again\n" in self.text("stderr")), self.text("stderr")
        )
        for said in (b"; trying again\n", b"connected again\n"):
            self.assertEqual(self.text("stderr").count(said), 1, self.text("stderr"))

    def test_files_that_feed_keeps_for_itself(self):
        """They are in no list, and not in a mirror, though the mount has them."""
        port, server = self.server(
            b"mount empty 7 1000000\nwrite a plain 1\n"
            b"write .git/.railburnet/x plain 1\nwrite .git/.railburnet0 plain 1\n"
        )
        with Client(port) as asks:
            self.assertEqual(asks.basis().paths, [b".git/.railburnet0", b"a"])
            begin = asks.position()
            self.lines(server, b"write .git/.railburnet/y plain 2", b"write b plain 2")
            self.assertTrue(wait_until(lambda: asks.position().sequence == begin.sequence + 2))
            self.assertEqual([path for _, path in asks.since(begin).marked], [b"b"])
            self.assertEqual(asks.below(b".git").paths, [b".git/.railburnet0"])
            mirror = Mirror()
            asks.round(mirror)
            self.assertEqual(set(mirror.files), {b".git/.railburnet0", b"a", b"b"})


if __name__ == "__main__":
    unittest.main()
