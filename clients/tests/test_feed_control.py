"""feed beside `edend serve`: its control socket, restarts, and mounts of names."""
import json
import os
import signal
import socket
import stat
import subprocess
import threading
import time
import unittest

from kit import InFolder, client, free_port, wait_until

import railburnet
import railburnet.control
from railburnet import Client, Position, PositionRefused
from railburnet.frames import NAMES_MARK


class Peer:
    """A connection to a control socket."""

    def __init__(self, path):
        self.stream = socket.socket(socket.AF_UNIX)
        # With a time limit a connection that finds the queue full would fail at once.
        self.stream.connect(path)
        self.stream.settimeout(20)
        self.lines = self.stream.makefile("rb")

    def ask(self, word):
        self.stream.sendall(word + b"\n")
        return self.lines.readline()

    def sync(self):
        """The number that a sync is answered with."""
        word, _, number = self.ask(b"sync").split()
        assert word == b"at"
        return int(number)

    def status(self):
        return json.loads(self.ask(b"status"))

    def close(self):
        self.lines.close()
        self.stream.close()


class Mounted(InFolder):
    """A directory `w`, its feed, and `edend serve`."""

    def setUp(self):
        super().setUp()
        os.mkdir(self.path("w"))
        self.peers, self.mount = [], None
        self.port = free_port()

    def tearDown(self):
        for peer in self.peers:
            peer.close()
        if self.mount is not None:
            self.mount.close()
        super().tearDown()

    def begin(self, *options, words=None):
        """Starts a feed and an edend, and waits until they serve."""
        told = self.told().count(b"following")
        words = [
            *(words or client("feed")),
            "--control",
            self.path("control"),
            *options,
            self.path("w"),
        ]
        self.feeder = self.started(words, stdout=subprocess.PIPE)
        _, self.edend = self.server(b"", self.port, source=self.feeder.stdout)
        self.feeder.stdout.close()
        self.assertTrue(wait_until(lambda: self.told().count(b"following") > told), self.told())
        self.mount = Client(self.port)
        self.control = self.peer()

    def told(self):
        return self.text("stderr") if os.path.exists(self.path("stderr")) else b""

    def peer(self):
        self.peers.append(Peer(self.path("control")))
        return self.peers[-1]

    def listens(self):
        """Whether the control socket takes connections, a moment after it is there."""
        with socket.socket(socket.AF_UNIX) as peer:
            return peer.connect_ex(self.path("control")) == 0

    def end(self):
        """Kills both at once, as a machine that stops does."""
        for process in (self.feeder, self.edend):
            process.kill()
            process.wait()
        self.mount.close()

    def write(self, name, text):
        with open(self.path("w", name), "w", encoding="ascii") as file:
            file.write(text)

    def at_least(self, number):
        """Waits until the mount is at a number."""
        self.assertTrue(
            wait_until(lambda: self.mount.position().sequence >= number),
            (number, self.mount.position().sequence),
        )


class Syncing(Mounted):
    def test_a_save_and_a_poll(self):
        """What was saved before a sync is in the poll after it, each time."""
        self.begin("--empty")
        generation = self.mount.position().generation
        named = 0
        for n in range(50):
            before = self.control.sync()
            self.at_least(before)
            self.write("file", f"save {n}")
            self.at_least(self.control.sync())
            changes = self.mount.since(Position(generation, before))
            named += [path for _, path in changes.marked] == [b"file"]
        self.assertEqual(named, 50)
        self.assertEqual(self.mount.fetch(b"file").file.content, b"save 49")

    def test_the_number_is_the_mounts(self):
        for n in range(20):
            os.makedirs(self.path("w", f"d{n}", "e"))
            self.write(f"d{n}/e/f", "1")
        self.begin("--empty", "--settle", "0.001")
        for n in range(19):
            os.rename(self.path("w", f"d{n}", "e"), self.path("w", f"d{n + 1}", f"e{n}"))
            os.link(self.path("w", f"d{n + 1}", f"e{n}", "f"), self.path("w", f"link{n}"))
            self.write("large", "x" * (70_000 if n % 2 else 1))
            os.rename(self.path("w", f"d{n}"), self.path("w", "d"))
            os.rename(self.path("w", "d"), self.path("w", f"d{n}"))
            number = self.control.sync()
            self.at_least(number)
            self.assertEqual(self.mount.position().sequence, number)

    def test_while_git_holds_its_lock(self):
        """Git holds its lock while it runs a hook that may ask; and a lock that was left behind
        is waited for once."""
        os.mkdir(self.path("w", ".git"))
        self.begin("--empty")
        self.write(".git/index.lock", "")
        self.write("a", "1")
        time.sleep(0.3)
        self.assertIsNone(self.mount.fetch(b"a").file)
        self.assertGreater(self.control.status()["waits_for_lock"], 0.1)
        self.at_least(self.control.sync())
        self.assertEqual(self.mount.fetch(b"a").file.content, b"1")
        self.assertIsNone(self.control.status()["waits_for_lock"])
        for n in range(3):
            self.write("a", f"{n}")
            self.assertTrue(wait_until(lambda: b"waiting for git" in self.told()))
        self.assertEqual(self.told().count(b"waiting for git"), 1)
        self.assertIn(b"w/.git/index.lock is there", self.told())
        os.unlink(self.path("w", ".git", "index.lock"))
        self.assertTrue(wait_until(lambda: self.mount.fetch(b"a").file.content == b"2"))

    def test_a_sync_during_the_first_look(self):
        """It is answered after that, though nothing else happens."""
        for n in range(40):
            os.mkdir(self.path("w", f"d{n}"))
            for m in range(75):
                self.write(f"d{n}/f{m}", f"{n} {m}\n" * 200)
        feeder = self.started(
            [*client("feed"), "--empty", "--control", self.path("control"), self.path("w")],
            stdout=subprocess.PIPE,
        )
        self.assertTrue(wait_until(self.listens))
        answered = threading.Event()

        def read():
            # The look goes on no faster than this until the status has come.
            while feeder.stdout.read1(1 << 16):
                answered.wait(0.02)

        reader = threading.Thread(target=read)
        early = self.peer()
        early.stream.sendall(b"status\nsync\n")
        reader.start()
        self.assertIs(json.loads(early.lines.readline())["following"], False)
        answered.set()
        self.assertEqual(int(early.lines.readline().split()[2]), 3001)
        feeder.kill()
        reader.join()

    def test_bells(self):
        self.begin("--empty")
        bell = self.peer()
        self.assertEqual(bell.ask(b"bell"), b"at %d 1\n" % self.mount.position().generation)
        for n in range(2, 7):
            self.write("a", f"{n}")
            self.assertEqual(
                bell.lines.readline(), b"at %d %d\n" % (self.mount.position().generation, n)
            )
        # A sync over another connection tells, and rings too.
        self.write("b", "1")
        self.assertEqual(self.control.sync(), 7)
        self.assertEqual(bell.lines.readline().split()[2], b"7")

    def test_status(self):
        self.write("large", "x" * 70_000)
        self.begin("--empty")
        self.assertEqual(self.control.sync(), 3)
        self.assertEqual(
            self.control.status(),
            {
                "following": True,
                "root": self.path("w"),
                "generation": self.mount.position().generation,
                "number": 3,
                "left_out": {
                    "large": "70,000 bytes are too many for a line; the mount has no file there"
                },
                "parked": [],
                "waits_for_lock": None,
                "names": False,
            },
        )
        self.write("large", "small")
        self.control.sync()
        self.assertEqual(self.control.status()["left_out"], {})

    def test_words_that_are_none(self):
        self.begin("--empty")
        self.assertEqual(self.control.ask(b"sink"), b"error unknown request\n")
        self.assertEqual(self.control.ask(b""), b"error unknown request\n")
        self.control.stream.sendall(b"x" * 5000)
        self.assertEqual(self.control.lines.readline(), b"error unknown request\n")
        # Half a word, and many at once; one that asks nothing more has its answer.
        other = self.peer()
        other.stream.sendall(b"syn")
        time.sleep(0.05)
        other.stream.sendall(b"c\nstatus\nsync\n")
        other.stream.shutdown(socket.SHUT_WR)
        self.assertEqual([line.split(b" ")[0] for line in other.lines], [b"at", b'{"root":', b"at"])

    def test_peers_that_do_not_read(self):
        """They cost nobody else anything."""
        self.begin("--empty", "--settle", "0.001")
        lazy = self.peer()
        lazy.ask(b"bell")
        floods = self.peer()
        floods.stream.setblocking(False)
        try:
            while True:
                floods.stream.send(b"status\n" * 1000)
        except BlockingIOError:
            pass
        dead = self.peer()
        dead.stream.sendall(b"sync\n")
        dead.close()
        for n in range(300):
            self.write("a", f"{n}")
            begun = time.monotonic()
            self.control.sync()
            self.assertLess(time.monotonic() - begun, 5)
        many = [self.peer() for _ in range(300)]
        for peer in many[:150]:
            self.assertGreater(peer.sync(), 300)
        for peer in many:
            peer.close()
        self.assertGreater(self.control.sync(), 300)
        # The newest of what a bell was told comes in the end.
        lines = []
        while not lines or int(lines[-1].split()[2]) < self.control.sync():
            lines.append(lazy.lines.readline())
        self.assertLessEqual(len(lines), 300)

    def test_whose_socket_it_is(self):
        self.begin("--empty")
        self.assertEqual(stat.S_IMODE(os.lstat(self.path("control")).st_mode), 0o600)
        second = subprocess.run(
            [*client("feed"), "--empty", "--control", self.path("control"), self.path("w")],
            stdout=subprocess.PIPE,
            stderr=subprocess.PIPE,
            check=False,
        )
        self.assertEqual((second.returncode, second.stdout), (1, b""))
        self.assertIn(b"another feed answers there", second.stderr)
        self.control.sync()
        # One that was killed leaves its socket, and the next one takes its place; a file of others
        # stays.
        self.end()
        self.begin("--empty")
        self.control.sync()
        self.feeder.send_signal(signal.SIGTERM)
        self.feeder.wait(120)
        self.assertFalse(os.path.exists(self.path("control")))
        with open(self.path("control"), "w", encoding="ascii") as file:
            file.write("precious")
        third = subprocess.run(
            [*client("feed"), "--empty", "--control", self.path("control"), self.path("w")],
            stdout=subprocess.PIPE,
            stderr=subprocess.PIPE,
            check=False,
        )
        self.assertIn(b"there is a file that is no socket", third.stderr)
        self.assertEqual(self.text("control"), b"precious")

    def test_a_long_path(self):
        folder = self.path(*["long" * 20] * 3)
        os.makedirs(folder)
        feeder = self.started(
            [
                *client("feed"),
                "--empty",
                "--control",
                os.path.join(folder, "control"),
                self.path("w"),
            ],
            stdout=subprocess.PIPE,
        )
        self.assertTrue(wait_until(lambda: b"following" in self.told()))
        self.assertRegex(
            railburnet.control.ask(os.path.join(folder, "control"), "sync"), "^at [0-9]+ 1$"
        )
        self.assertIsNone(feeder.poll())

    def test_by_looking(self):
        """Without notices a sync looks at everything."""
        self.begin("--empty", "--scan", "--every", "60")
        for n in range(5):
            self.write("a", f"{n}")
            self.at_least(self.control.sync())
            self.assertEqual(self.mount.fetch(b"a").file.content, b"%d" % n)


class Restarts(Mounted):
    def test_positions_of_before(self):
        """None is good in a mount that was begun anew, however soon."""
        for n in range(3):
            self.write(f"f{n}", f"{n}")
        seen = set()
        for n in range(5):
            self.begin("--empty")
            position = self.mount.basis().position
            self.assertNotIn(position.generation, seen)
            for generation in seen:
                with self.assertRaises(PositionRefused) as refused:
                    self.mount.since(Position(generation, 4))
                self.assertIs(refused.exception.reply.cause, railburnet.Cause.STALE)
            seen.add(position.generation)
            self.end()
            self.write("f2", f"changed {n}")

    def test_a_copy_loses_nothing(self):
        """A copy that follows has at no time less than the directory had before a restart, and
        has after it."""
        files = {f"gen/f{n}": f"{n}\n" for n in range(3000)}
        os.mkdir(self.path("w", "gen"))
        for name, text in files.items():
            self.write(name, text)
        self.write("README.md", "one\n")
        self.begin("--empty")
        follow = self.started(
            [
                *client(
                    "--port",
                    str(self.port),
                    "follow",
                    "--into",
                    self.path("copy"),
                    "--every",
                    "0.02",
                )
            ],
            stdout=subprocess.DEVNULL,
        )
        self.assertTrue(wait_until(lambda: self.copied() == len(files) + 1))
        lost, over = [], threading.Event()

        def look():
            while not over.is_set():
                count = self.copied()
                if count != len(files) + 1:
                    lost.append(count)

        looker = threading.Thread(target=look)
        looker.start()
        try:
            self.end()
            self.write("README.md", "two\n")
            self.begin("--empty")
            self.assertTrue(wait_until(lambda: self.text("copy/README.md") == b"two\n"))
        finally:
            over.set()
            looker.join()
        self.assertEqual(lost, [])
        self.assertIsNone(follow.poll())

    def copied(self):
        """How many files the copy has."""
        folders = [self.path("copy", "gen"), self.path("copy")]
        return sum(
            1
            for folder in folders
            if os.path.isdir(folder)
            for entry in os.scandir(folder)
            if entry.is_file()
        )


class OfNames(Mounted):
    def git(self, *words):
        done = subprocess.run(
            ["git", "-C", self.path("w"), "-c", "user.name=a", "-c", "user.email=a@a", *words],
            stdout=subprocess.PIPE,
            check=True,
        )
        return done.stdout.decode().strip()

    def text_of(self, name):
        status = os.lstat(self.path("w", name))
        return b"stat %d %d %d" % (status.st_size, status.st_mtime_ns, status.st_ino)

    def test_names(self):
        self.git("init", "-q")
        self.write("known", "text")
        self.write("edited", "text")
        self.git("add", "-A")
        # An index that is younger than its files is sure of them.
        time.sleep(1.1)
        self.git("update-index", "--force-write-index")
        self.write("edited", "other text")
        self.write("huge", "")
        os.truncate(self.path("w", "huge"), 9_000_000_000)
        os.symlink("known", self.path("w", "link"))
        os.chmod(self.path("w", "huge"), 0o755)
        self.begin("--names")
        self.at_least(self.control.sync())
        self.assertTrue(self.control.status()["names"])
        self.assertIsNotNone(self.mount.fetch(NAMES_MARK).file)
        held = {path: self.mount.fetch(path).file for path in self.mount.basis().paths}
        self.assertEqual(
            {path: (file.kind.name, file.content) for path, file in held.items()},
            {
                b"known": (
                    "PLAIN",
                    b"blob " + self.git("hash-object", self.path("w", "known")).encode(),
                ),
                b"edited": ("PLAIN", self.text_of("edited")),
                b"huge": ("EXEC", self.text_of("huge")),
                b"link": ("LINK", self.text_of("link")),
            },
        )
        # A file that nobody may read, and one that is written with the same bytes.
        os.chmod(self.path("w", "edited"), 0)
        self.write("known", "text")
        number = self.control.sync()
        self.at_least(number)
        self.assertEqual(self.mount.fetch(b"known").file.content, self.text_of("known"))
        self.write("known", "text")
        self.assertGreater(self.control.sync(), number)
        os.rename(self.path("w", "known"), self.path("w", "moved"))
        self.at_least(self.control.sync())
        self.assertEqual(self.mount.fetch(b"moved").file.content, self.text_of("moved"))
        self.assertIsNone(self.mount.fetch(b"known").file)
        self.assertEqual(self.control.status()["left_out"], {})

    def test_many_files(self):
        """They are reported before all has settled, and no bell rings before."""
        self.begin("--names", "--settle", "60")
        bell = self.peer()
        _, _, before = bell.ask(b"bell").split()
        for number in range(300):
            self.write(f"f{number}", "text")
        least = int(before) + 100
        self.assertTrue(wait_until(lambda: self.control.status()["number"] >= least, 30))
        bell.stream.settimeout(0.3)
        with self.assertRaises(socket.timeout):
            bell.stream.recv(1)
        bell.stream.settimeout(20)
        number = self.control.sync()
        self.assertEqual(int(bell.stream.recv(256).split()[2]), number)
        self.at_least(number)
        self.assertEqual(len(self.mount.basis().paths), 300)

    def test_without_git(self):
        self.write("a", "1")
        self.begin("--names")
        self.assertEqual(self.mount.basis().paths, [b"a"])
        self.assertIsNotNone(self.mount.fetch(NAMES_MARK).file)


if __name__ == "__main__":
    unittest.main()
