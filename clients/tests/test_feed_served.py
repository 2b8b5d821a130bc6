"""feed over the socket of a mount: each change is asked for there and answered."""
import contextlib
import os
import random
import shutil
import signal
import socket
import stat
import subprocess
import threading
import unittest

from kit import HERE, InFolder, change, client, frame_from, wait_until

import railburnet
import railburnet.control
from railburnet import Client, File, Kind, Mirror, Position, Remove, Write

MIB = 1 << 20
LARGEST = 8 * MIB
STAND_IN = os.path.join(HERE, "stand_in.py")


def bytes_of(seed, count):
    """Bytes that look like no others."""
    return random.Random(seed).randbytes(count)


class Fed(InFolder):
    """A directory `w`, its feed, and a mount at the socket `s` which the feed changes."""

    program = None
    """The program that serves, if it isn't the one that `socket_server` takes."""

    def setUp(self):
        super().setUp()
        os.mkdir(self.path("w"))
        self.mount = Client(self.path("s"), timeout=120)
        self.addCleanup(self.mount.close)

    def begin(self, *options, socket="s", serve=("--writable",), env=None):
        """Starts a feed and a server, and waits until the mount has all that the directory has."""
        words = [*client("feed"), "--control", self.path("control"), "--socket", self.path(socket)]
        self.feeder = self.started(
            [*words, *options, self.path("w")], stdout=subprocess.PIPE, env=env
        )
        self.edend = self.socket_server(*serve, source=self.feeder.stdout, program=self.program)
        self.feeder.stdout.close()

    def follows(self):
        self.assertTrue(wait_until(lambda: b"following" in self.said()), self.said())

    def said(self):
        return self.text("stderr")

    def write(self, name, data):
        path = self.path("w", name)
        os.makedirs(os.path.dirname(path), exist_ok=True)
        with open(path, "wb") as file:
            file.write(data)

    def sync(self):
        """The number that a sync is answered with, which is where the mount is."""
        generation, number = railburnet.control.sync(self.path("control"), 120)
        self.assertEqual(self.mount.position(), Position(generation, number), self.said())
        return number

    def held(self):
        """The files of the mount."""
        mirror = Mirror()
        while mirror.position is None:
            self.mount.round(mirror)
        return dict(mirror.files)

    def directory(self, most=LARGEST):
        """The files of the directory that a mount can hold."""
        files = {}
        top = os.fsencode(self.path("w"))
        for folder, folders, names in os.walk(top):
            if b".git" in folders:
                folders.remove(b".git")
            for name in names + [it for it in folders if os.path.islink(os.path.join(folder, it))]:
                full = os.path.join(folder, name)
                status = os.lstat(full)
                path = os.path.relpath(full, top)
                if stat.S_ISLNK(status.st_mode):
                    files[path] = File(Kind.LINK, os.readlink(full))
                elif status.st_size <= most:
                    with open(full, "rb") as file:
                        data = file.read()
                    files[path] = File(Kind.EXEC if status.st_mode & 0o100 else Kind.PLAIN, data)
        return files

    def equal(self):
        """Has the mount have all of the directory, and compares them; the number then."""
        number = self.sync()
        held, there = self.held(), self.directory()
        if held != there:
            unequal = {
                path: [it and (it.kind, len(it.content)) for it in (held.get(path), there.get(path))]
                for path in {*held, *there}
                if held.get(path) != there.get(path)
            }
            self.fail(f"{unequal!r:.1000}")
        return number


class LargeFiles(Fed):
    def test_files_up_to_the_limit(self):
        """A file of 1 MiB and one of 8 MiB: there at the start, and as they are changed."""
        large, largest = self.path("w", "large"), self.path("w", "d", "largest")
        self.write("large", bytes_of(1, MIB))
        self.write("d/largest", bytes_of(2, LARGEST))
        self.write("small", b"1")
        self.begin("--empty")
        self.follows()
        before = self.equal()
        self.assertEqual(len(self.mount.basis().paths), 3)
        for happens, marked in (
            (lambda: self.write("large", bytes_of(3, MIB)), [b"large"]),
            (lambda: self.write("d/largest", bytes_of(4, LARGEST)), [b"d/largest"]),
            (lambda: os.utime(largest, (1, 1)), [b"d/largest"]),
            (lambda: os.chmod(large, 0o755), [b"large"]),
            (lambda: os.truncate(largest, LARGEST - 1), [b"d/largest"]),
            (lambda: os.rename(large, self.path("w", "moved")), [b"large", b"moved"]),
            (lambda: os.rename(self.path("w", "d"), self.path("w", "e")), []),
            (lambda: shutil.copy(self.path("w", "moved"), self.path("w", "copy")), [b"copy"]),
            (lambda: os.unlink(self.path("w", "copy")), [b"copy"]),
        ):
            happens()
            after = self.equal()
            self.assertGreater(after, before)
            changes = self.mount.since(Position(self.mount.position().generation, before))
            self.assertEqual([path for _, path in changes.marked], marked)
            before = after
        self.assertEqual(railburnet.control.status(self.path("control"))["left_out"], {})
        self.assertEqual(railburnet.control.status(self.path("control"))["parked"], [])

    def test_one_byte_more(self):
        self.write("large", b"1")
        self.begin("--empty")
        self.follows()
        os.truncate(self.path("w", "large"), LARGEST + 1)
        self.equal()
        why = "8,388,609 bytes are too many for a mount; the mount has no file there"
        status = railburnet.control.status(self.path("control"))
        self.assertEqual(status["left_out"], {"large": why})
        os.truncate(self.path("w", "large"), LARGEST)
        self.equal()
        self.assertEqual(railburnet.control.status(self.path("control"))["left_out"], {})

    def test_bytes_that_a_line_would_escape(self):
        """A file that is short enough for a line, and isn't as a word of it."""
        for name in ("before", "after"):
            if name == "after":
                self.begin("--empty")
                self.follows()
            self.write(name, b"\n" * 40_000)
        self.equal()
        self.assertEqual(len(self.held()), 2)

    def test_listening_first(self):
        self.write("large", bytes_of(1, MIB))
        self.begin("--empty", "--listen-first")
        self.follows()
        self.equal()
        self.assertEqual(len(self.held()), 1)

    def test_by_looking(self):
        self.write("large", bytes_of(1, MIB))
        self.begin("--empty", "--scan", "--every", "0.1")
        self.follows()
        self.equal()
        self.write("large", bytes_of(2, MIB))
        self.equal()

    @unittest.skipUnless(shutil.which("git"), "no git here")
    def test_large_files_of_a_commit(self):
        """They were changed, moved and removed before the mount began, and are again; and another
        commit is checked out."""
        for name in ("changed", "moved", "gone", "stays", "d/moved"):
            self.write(name, bytes_of(name, MIB))
        self.git("init", "-q")
        self.git("add", "-A")
        self.git("commit", "-q", "-m", "one")
        first = self.git("rev-parse", "HEAD")
        self.write("stays", bytes_of("two", MIB))
        self.git("commit", "-q", "-a", "-m", "two")
        second = self.git("rev-parse", "HEAD")
        self.git("checkout", "-q", first)
        with open(self.path("objects"), "wb") as out:
            words = [*client("objects"), self.path("w"), first, second]
            subprocess.run(words, stdout=out, check=True)
        self.write("changed", bytes_of(1, MIB))
        os.rename(self.path("w", "moved"), self.path("w", "to"))
        os.rename(self.path("w", "d"), self.path("w", "e"))
        os.unlink(self.path("w", "gone"))
        os.mkdir(self.path("w", "gone"))
        self.write("gone/below", bytes_of(2, MIB))
        serve = ("--writable", "--objects", self.path("objects"))
        self.begin("--also", second, serve=serve)
        self.follows()
        self.equal()
        self.assertNotIn(b"too many", self.said())
        before = self.sync()
        self.git("checkout", "-q", "-f", second)
        self.assertTrue(wait_until(lambda: self.mount.position().sequence > before))
        self.equal()
        root = self.mount.basis().position.root
        self.assertEqual(root.hex(), second)

    def git(self, *words):
        names = ("-c", "user.name=a", "-c", "user.email=a@a")
        done = ["git", "-C", self.path("w"), *names, *words]
        return subprocess.run(done, stdout=subprocess.PIPE, check=True).stdout.decode().strip()


class Order(Fed):
    def test_generated_changes(self):
        """Of small files and large ones: after each sync the mount has the directory."""
        self.begin("--empty", "--settle", "0.005")
        self.follows()
        chance = random.Random(1)
        for seed in range(12):
            change(self.path("w"), seed, 60)
            for _ in range(5):
                name = chance.choice(("a", "b", "L", "c d/L", "a/L"))
                with contextlib.suppress(OSError):
                    self.write(name, bytes_of(seed, chance.randrange(200_000)))
            self.equal()

    def test_a_save_and_a_poll(self):
        """What was saved before a sync is in the first poll after it."""
        self.begin("--empty")
        self.follows()
        generation = self.mount.position().generation
        for n in range(20):
            before = self.sync()
            self.write("file", bytes_of(n, MIB if n % 2 else 10))
            self.sync()
            changes = self.mount.since(Position(generation, before))
            self.assertEqual([path for _, path in changes.marked], [b"file"])
            self.assertEqual(self.mount.fetch(b"file").file.content, bytes_of(n, MIB if n % 2 else 10))

    def test_more_files_than_are_asked_for_at_once(self):
        self.begin("--empty")
        self.follows()
        for n in range(1500):
            self.write(f"d{n % 7}/f{n}", bytes_of(n, 3_000))
        self.equal()
        shutil.rmtree(self.path("w", "d3"))
        self.equal()

    def test_names(self):
        self.write("a", b"1")
        self.begin("--names")
        self.follows()
        for n in range(300):
            self.write(f"f{n}", b"x")
        self.write("large", bytes_of(1, MIB))
        self.sync()
        self.assertEqual(len(self.mount.basis().paths), 302)
        status = os.lstat(self.path("w", "large"))
        text = b"stat %d %d %d" % (status.st_size, status.st_mtime_ns, status.st_ino)
        self.assertEqual(self.mount.fetch(b"large").file, File(Kind.PLAIN, text))


class Others(Fed):
    def test_what_others_change(self):
        """The number is right all the same, and what the mount refuses then is reported."""
        self.write("d/a", b"1")
        self.begin("--empty")
        self.follows()
        before = self.sync()
        self.mount.do(Write(b"other", File(Kind.PLAIN, b"2")))
        self.write("a", b"3")
        self.assertEqual(self.sync(), before + 2)
        self.mount.do(Remove(b"d/a"))
        os.unlink(self.path("w", "d", "a"))
        self.write("b", b"4")
        number = self.sync()
        self.assertEqual(number, before + 4)
        self.assertIn(b"feed: `remove d/a` was refused: NO_ENTRY\n", self.said())
        self.assertEqual(set(self.held()), {b"a", b"b", b"other"})

    def test_a_mount_that_is_not_writable(self):
        self.begin("--empty", serve=())
        self.assertEqual(self.feeder.wait(120), 1)
        self.assertIn(b"takes no change: edend needs the option --writable\n", self.said())

    def test_a_mount_that_is_too_old(self):
        """It ends the connection at a change, as at any frame that it doesn't know."""
        relay = Relay(self.path("r"), self.path("s"), ["before"])
        self.addCleanup(relay.close)
        self.begin("--empty", socket="r")
        self.assertEqual(self.feeder.wait(120), 1)
        why = b"takes no change: the mount ended the connection; edend may be too old\n"
        self.assertIn(why, self.said())

    def test_an_edend_that_ends_before_it_listens(self):
        words = [*client("feed"), "--empty", "--socket", self.path("s"), self.path("w")]
        feeder = self.started(words, stdout=subprocess.PIPE)
        self.assertTrue(feeder.stdout.readline().startswith(b"mount empty "))
        feeder.stdout.close()
        self.assertEqual(feeder.wait(120), 0)
        self.assertIn(b"nobody reads any more", self.said())

    def test_an_edend_that_ends(self):
        self.begin("--empty")
        self.follows()
        self.edend.kill()
        self.edend.wait()
        self.write("a", bytes_of(1, MIB))
        self.assertEqual(self.feeder.wait(120), 0)

    def test_another_mount_at_the_socket(self):
        """It isn't changed; edend finds that the socket is in use, and then feed ends."""
        self.program = STAND_IN
        self.socket_server("--writable", script=b"mount empty 7 1000\nwrite a plain 1\n", program=STAND_IN)
        words = [*client("feed"), "--empty", "--socket", self.path("s"), self.path("w")]
        feeder = self.started(words, stdout=subprocess.PIPE)
        self.assertTrue(wait_until(lambda: b"waiting for edend: another mount is at " in self.said()), self.said())
        feeder.stdout.close()
        self.assertEqual(feeder.wait(120), 0)
        self.assertEqual(self.mount.position(), Position(7, 2))


class Relay:
    """Hands a socket's connections on to another socket frame by frame, and ends each of the first
    ones at some frame: before the frame or its answer is handed on."""

    def __init__(self, path, service, cuts):
        self._service, self._cuts = service, list(cuts)
        self.queries = []
        """The queries of the changes that were answered or cut, in their order."""
        self._listener = socket.socket(socket.AF_UNIX)
        self._listener.bind(path)
        self._listener.listen()
        threading.Thread(target=self._accept, daemon=True).start()

    def close(self):
        self._listener.close()

    def _accept(self):
        with contextlib.suppress(OSError):
            while True:
                peer, _ = self._listener.accept()
                with peer, socket.socket(socket.AF_UNIX) as service:
                    with contextlib.suppress(OSError):
                        service.connect(self._service)
                        self._hand_on(peer, service)

    def _hand_on(self, peer, service):
        with peer.makefile("rb") as requests, service.makefile("rb") as replies:
            while request := frame_from(requests):
                is_change = request[5] == 6
                cut = self._cuts.pop(0) if is_change and self._cuts else None
                if cut == "before":
                    return
                service.sendall(request)
                reply = frame_from(replies)
                if is_change:
                    self.queries.append(request[6:30])
                if cut == "after":
                    return
                peer.sendall(reply)


class LostConnections(Fed):
    def begin_with(self, cuts):
        """Begins with a relay that cuts so at the changes after the first, which asks whether
        there may be any."""
        self.write("a", b"1")
        relay = Relay(self.path("r"), self.path("s"), [None, *cuts])
        self.addCleanup(relay.close)
        self.begin("--empty", socket="r")
        self.follows()
        self.assertEqual(len(relay.queries), 1)
        return relay

    def test_each_change_is_made_once(self):
        """Whether a connection ends before a change came or after it was made."""
        cuts = [None, "before", "after", None, None, "after", "before", "before", "after", "after"]
        relay = self.begin_with(cuts * 6)
        before = self.sync()
        changed = 0
        for n in range(12):
            for m in range(5):
                self.write(f"d/f{m}", bytes_of(n * m, 70_000 if m == n % 5 else 10))
            os.rename(self.path("w", "d"), self.path("w", f"e{n}"))
            changed = self.equal() - before
        self.assertEqual(len(relay.queries) - 1, changed)
        self.assertEqual(len(set(relay.queries)), len(relay.queries))
        self.assertNotIn(b"refused", self.said())

    def test_connections_that_never_answer(self):
        relay = self.begin_with(["before"] * 50)
        self.write("b", b"2")
        self.assertEqual(self.feeder.wait(120), 1)
        self.assertIn(b"the mount ends each connection: ", self.said())
        self.assertEqual(len(relay.queries), 1)

    def test_what_others_change_meanwhile(self):
        """Then nobody knows which changes were made."""
        self.begin_with(["after"])
        self.feeder.send_signal(signal.SIGSTOP)
        for n in range(3):
            self.mount.do(Write(b"other%d" % n, File(Kind.PLAIN, b"")))
        self.write("b", b"2")
        self.feeder.send_signal(signal.SIGCONT)
        self.assertEqual(self.feeder.wait(120), 1)
        self.assertIn(b"others changed the mount while the connection to it was lost", self.said())


if __name__ == "__main__":
    unittest.main()
