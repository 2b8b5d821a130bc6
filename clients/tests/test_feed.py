"""feed: the lines that it prints make of a mount what the directory holds, whatever happens
there."""
import os
import shutil
import signal
import stat
import subprocess
import sys
import threading
import time
import unittest

from kit import CLIENTS, InFolder, change, client, wait_until
from stand_in import Refusal, World, words_of

from railburnet.frames import OWN_PATHS


class Fed(InFolder):
    """A feeder of the folder `w`, and a mount that does what its lines say; a line that the
    mount refuses fails the test."""

    def feed(self, *options, commits=None, words=None, **how):
        """Starts a feeder."""
        self.commits = commits or {b"empty": (bytes(20), {})}
        self.world, self.lines_of, self.fault = None, [], None
        self.feeder = self.started(
            [*(words or client("feed")), *options, self.path("w")], stdout=subprocess.PIPE, **how
        )
        self.reader = threading.Thread(target=self.take, daemon=True)
        self.reader.start()

    def take(self):
        for line in self.feeder.stdout:
            try:
                self.lines_of.append(line)
                assert len(line) <= 65_537, "a line above the limit"
                words = words_of(line)
                if words[0] == b"mount":
                    self.world = World(self.commits, words[1], int(words[2]))
                elif words[0] != b"listen":
                    self.world.change(words)
            except (AssertionError, Refusal, KeyError, ValueError) as fault:
                self.fault = f"{line!r}: {fault!r}"
                return

    feeder = None

    def tearDown(self):
        if self.feeder is not None:
            self.feeder.kill()
            self.reader.join()
        super().tearDown()

    def directory(self, most=65_000):
        """The files of the directory that fit into a line, as a mount holds them."""
        files = {}
        for folder, folders, names in os.walk(os.fsencode(self.path("w"))):
            if b".git" in folders:
                folders.remove(b".git")
            for name in names + [
                name for name in folders if os.path.islink(os.path.join(folder, name))
            ]:
                full = os.path.join(folder, name)
                status = os.lstat(full)
                if stat.S_ISLNK(status.st_mode):
                    files[os.path.relpath(full, os.fsencode(self.path("w")))] = (
                        3,
                        os.readlink(full),
                    )
                elif stat.S_ISREG(status.st_mode) and status.st_size <= most:
                    with open(full, "rb") as file:
                        files[os.path.relpath(full, os.fsencode(self.path("w")))] = (
                            2 if status.st_mode & 0o100 else 1,
                            file.read(),
                        )
        return files

    def held(self):
        """The files of the mount, without those that feed keeps there for itself."""
        return {
            path: file
            for path, file in list(self.world.files.items())
            if not path.startswith(OWN_PATHS + b"/")
        }

    def equal(self):
        """Waits until the mount holds what the directory does."""

        def holds():
            self.assertIsNone(self.fault)
            return self.world is not None and self.held() == self.directory()

        if not wait_until(holds):
            held, there = self.held(), self.directory()
            unequal = {
                path: (held.get(path), there.get(path))
                for path in {*held, *there}
                if held.get(path) != there.get(path)
            }
            self.fail(f"{unequal!r:.1000}; {self.since(-10)!r:.1000}")

    def settled(self):
        """Waits until the feeder follows, and all that it prints was read."""
        self.assertTrue(
            wait_until(lambda: b"following" in self.text("stderr")), self.text("stderr")
        )
        self.equal()

    def follows(self, *names):
        """Waits until the feeder follows, and the mount holds just these files: what it printed
        may be read later than what it told."""
        self.assertTrue(
            wait_until(lambda: b"following" in self.text("stderr")), self.text("stderr")
        )
        self.assertTrue(
            wait_until(lambda: self.world is not None and set(self.world.files) == {*names}),
            self.lines_of,
        )

    def write(self, name, text):
        path = os.path.join(os.fsencode(self.path("w")), name)
        os.makedirs(os.path.dirname(path), exist_ok=True)
        with open(path, "wb") as file:
            file.write(text)

    def move(self, *moves):
        """Moves files or directories one after another, and counts the lines up to here."""
        self.count = len(self.lines_of)
        for old, new in moves:
            os.rename(self.path("w", old), self.path("w", new))

    def since(self, count):
        """The first words of the lines behind so many."""
        return [line.rstrip(b"\n") for line in self.lines_of[count:]]


class Following(Fed):
    def setUp(self):
        super().setUp()
        os.mkdir(self.path("w"))

    def test_names(self):
        for name in (
            b"with space",
            b"line\nfeed",
            b"\xff\xfe",
            b"back\\slash",
            b"cr\r",
            b"-rf",
            b"d\n/\\n/\xc3\xa9",
            b".h",
            b"\x01",
            b"x" * 255,
        ):
            self.write(name, name + b"\n\r")
            self.write(name + b"2" if len(name) < 255 else b"y", b"\r")
        os.symlink("/etc/passwd\r", self.path("w", "link"))
        self.feed("--empty")
        self.settled()
        os.rename(self.path("w", "with space"), self.path("w", "an other"))
        self.equal()
        self.assertIn(b"rename with\\sspace an\\sother\n", self.lines_of)

    def test_repository_below(self):
        """A directory becomes a repository of its own, and none again: each is told once."""
        for name in (b"a", b"sub/x"):
            self.write(name, b"1")
        self.feed("--empty")
        self.settled()
        told = b"write sub/.git plain \\e\n"
        for made in (True, False):
            count = len(self.lines_of)
            (os.mkdir if made else os.rmdir)(self.path("w", "sub", ".git"))
            both = [told, b"remove sub/.git\n"]
            wait_until(lambda: len(self.lines_of) >= count + len(both))
            self.assertEqual(self.lines_of[count:], both)
        count = len(self.lines_of)
        os.makedirs(self.path("w", "new", ".git"))
        self.assertTrue(wait_until(lambda: b"remove new/.git\n" in self.lines_of[count:]))
        self.equal()
        self.assertEqual(set(self.world.files), {b"a", b"sub/x"})

    def test_renames(self):
        for name in (b"a", b"d/x", b"d/e/y", b"d/z"):
            self.write(name, b"text of " + name)
        self.feed("--empty")
        self.settled()
        count = len(self.lines_of)
        os.rename(self.path("w", "a"), self.path("w", "b"))
        self.equal()
        self.assertEqual(self.since(count), [b"rename a b"])
        count = len(self.lines_of)
        os.rename(self.path("w", "d"), self.path("w", "moved"))
        self.equal()
        self.assertEqual(self.since(count), [b"renamedir d moved"])
        # What an editor does: a file beside, moved over the old one.
        count = len(self.lines_of)
        self.write(b"b.tmp", b"edited")
        os.rename(self.path("w", "b.tmp"), self.path("w", "b"))
        self.equal()
        self.assertEqual(self.since(count), [b"write b plain edited"])
        # Below its own old path, and a directory in the place of a file.
        os.rename(self.path("w", "b"), self.path("w", "t"))
        os.mkdir(self.path("w", "b"))
        os.rename(self.path("w", "t"), self.path("w", "b", "c"))
        self.equal()
        os.rename(self.path("w", "b", "c"), self.path("w", "t"))
        os.rmdir(self.path("w", "b"))
        os.rename(self.path("w", "t"), self.path("w", "b"))
        self.equal()

    def test_a_file_and_a_directory_change_places(self):
        """A path of the directory that is gone is looked at between the two."""
        for name in (b"a/x", b"b"):
            self.write(name, b"text of " + name)
        self.feed("--empty", "--settle", "0.3")
        self.settled()
        shutil.rmtree(self.path("w", "a"))
        os.unlink(self.path("w", "b"))
        for name in (b"a", b"b/y"):
            self.write(name, b"text of " + name)
        self.equal()
        self.assertEqual(set(self.world.files), {b"a", b"b/y"})

    def test_moved_directories(self):
        for name in (b"d/x", b"d/e/y", b"other/z", b"f"):
            self.write(name, b"text of " + name)
        os.mkdir(self.path("w", "empty"))
        self.feed("--empty", "--settle", "0.3")
        self.settled()
        self.move(("d", "m"), ("m", "empty"), ("other", "d"))
        self.equal()
        self.assertEqual(
            self.since(self.count), [b"renamedir d m", b"renamedir m empty", b"renamedir other d"]
        )
        # There and back, below another one, and out of a directory that moved just before.
        self.move(("d", "m"), ("m", "d"), ("d", "empty/e/d"))
        self.equal()
        self.assertEqual(
            self.since(self.count), [b"renamedir d m", b"renamedir m d", b"renamedir d empty/e/d"]
        )
        self.move(("empty", "m"), ("m/e", "e"))
        self.equal()
        self.assertEqual(self.since(self.count)[0], b"renamedir empty m")
        # What changed before it moved, and what came after that.
        self.write(b"m/x", b"other text")
        self.move(("m", "n"))
        self.write(b"n/new", b"new")
        self.equal()
        self.assertEqual(
            [self.since(self.count)[0], *sorted(self.since(self.count)[1:])],
            [b"renamedir m n", b"write n/new plain new", b"write n/x plain other\\stext"],
        )

    def test_directories_that_move_otherwise(self):
        """Out of what is followed and into it, to a name that is left out, in the place of
        files, and where paths get too long."""
        deep = b"/".join([b"deep"] + [b"n"] * 62)
        for name in (b"d/x", b"d/y", b"other/x", deep):
            self.write(name, b"text of " + name[:9])
        os.makedirs(self.path("w", "a", "b"))
        self.feed("--empty", "--settle", "0.3")
        self.settled()
        for old, new, lines in (
            ("d", "../d", [b"remove d/x", b"remove d/y"]),
            ("../d", "d", [b"write d/x plain text\\sof\\sd/x", b"write d/y plain text\\sof\\sd/y"]),
            ("d", ".git", [b"remove d/x", b"remove d/y"]),
            (".git", "d", [b"write d/x plain text\\sof\\sd/x", b"write d/y plain text\\sof\\sd/y"]),
        ):
            self.move((old, new))
            self.equal()
            self.assertEqual(sorted(self.since(self.count)), lines)
        # Each of the two stands for a while where the other one did.
        self.move(("d", "../t"), ("other", "d"), ("../t", "other"))
        self.equal()
        self.assertNotIn(b"renamedir other d", self.since(self.count))
        # One stands where a file was that is gone.
        self.write(b"f", b"1")
        self.equal()
        os.unlink(self.path("w", "f"))
        self.move(("d", "f"))
        self.equal()
        self.move(("deep", "a/b/c"))
        self.assertTrue(
            wait_until(lambda: self.since(self.count) == [b"remove " + deep]),
            self.since(self.count),
        )
        self.assertIn(b"64 names", self.text("stderr"))
        self.assertIsNone(self.fault)

    def test_a_moved_directory_with_more_than_lines_hold(self):
        for name in (b"d/large", b"d/x", b"e/large"):
            self.write(name, b"x" * (1 if name == b"d/x" else 70_000))
        self.feed("--empty")
        self.follows(b"d/x")
        self.move(("d", "m"))
        self.assertTrue(
            wait_until(lambda: self.world is not None and set(self.world.files) == {b"m/x"}),
            self.since(self.count),
        )
        self.assertTrue(
            wait_until(lambda: self.since(self.count)[-1] == b"remove m/large"),
            self.since(self.count),
        )
        self.assertEqual(
            [line for line in self.since(self.count) if not line.startswith(b"write")],
            [b"remove d/large", b"renamedir d m", b"remove m/large"],
        )
        self.assertIn(b"m/large: 70,000 bytes", self.text("stderr"))
        # No file of it is in the mount.
        self.move(("e", "n"))
        self.assertTrue(wait_until(lambda: b"n/large: 70,000 bytes" in self.text("stderr")))
        self.assertTrue(
            wait_until(lambda: self.since(self.count)[-1:] == [b"remove n/large"]),
            self.since(self.count),
        )
        self.assertNotIn(b"renamedir e n", self.since(self.count))
        self.assertIsNone(self.fault)

    def test_touched(self):
        self.write(b"a", b"1")
        os.utime(self.path("w", "a"), (1, 1))
        self.feed("--empty")
        self.settled()
        count = len(self.lines_of)
        os.utime(self.path("w", "a"))
        self.assertTrue(
            wait_until(lambda: self.since(count) == [b"write a plain 1"]), self.since(count)
        )
        os.chmod(self.path("w", "a"), 0o755)
        self.assertTrue(
            wait_until(lambda: self.since(count) == [b"write a plain 1", b"write a exec 1"]),
            self.since(count),
        )

    def test_larger_than_a_line(self):
        self.write(b"large", b"x" * 70_000)
        self.write(b"escaped", b"\n" * 40_000)
        self.write(b"fits", b"x" * (65_536 - len("write fits plain ")))
        self.write(b"huge", b"")
        os.truncate(self.path("w", "huge"), 9_000_000_000)
        self.feed("--empty")
        self.follows(b"fits")
        for name in (b"large", b"escaped", b"huge"):
            self.assertEqual(self.text("stderr").count(b"feed: " + name + b": "), 1)
        # Each change of it is one of its path.
        large, moved = self.path("w", "large"), self.path("w", "l")
        for happens in (
            lambda: os.utime(large),
            lambda: os.rename(large, moved),
            lambda: self.write(b"l", b"y" * 80_000),
        ):
            number = self.world.number
            happens()
            self.assertTrue(
                wait_until(
                    lambda: self.world.number > number
                    and {b"large", b"l"} & self.world.since(number).keys()
                )
            )
        self.write(b"l", b"small")
        self.assertTrue(wait_until(lambda: self.world.files.get(b"l") == (1, b"small")))
        self.write(b"l", b"z" * 80_000)
        self.assertTrue(wait_until(lambda: b"l" not in self.world.files))
        os.unlink(self.path("w", "huge"))
        number = self.world.number
        self.assertTrue(wait_until(lambda: b"huge" in self.world.since(number - 2)))
        self.assertIsNone(self.fault)

    def test_lost_notices(self):
        """More notices than the system keeps, while the feeder is stopped: it looks at
        everything again."""
        for n in range(10):
            os.mkdir(self.path("w", f"d{n}"))
        self.feed("--empty")
        self.settled()
        self.feeder.send_signal(signal.SIGSTOP)
        with open("/proc/sys/fs/inotify/max_queued_events", encoding="ascii") as file:
            count = int(file.read()) // 2
        for n in range(count):
            self.write(b"d%d/f%d" % (n % 10, n), b"%d" % n)
        self.feeder.send_signal(signal.SIGCONT)
        self.assertTrue(wait_until(lambda: b"lost some notices" in self.text("stderr")))
        self.equal()
        self.write(b"d3/later", b"1")
        self.equal()

    def test_vanishing_files(self):
        """Files that come, change and go while they are read."""
        self.feed("--empty")
        self.settled()
        for n in range(1500):
            self.write(b"f%d" % (n % 7), b"x" * (n % 5 * 10_000))
            if n % 3:
                os.unlink(self.path("w", "f%d" % (n % 7)))
        self.equal()
        self.assertIsNone(self.feeder.poll())

    def test_files_of_several_links(self):
        """A notice comes for one name of a file, and its bytes are those of all."""
        for name in (b"a/one", b"a/other", b"b/x"):
            self.write(name, b"text of " + name)
        os.link(self.path("w", "a", "one"), self.path("w", "b", "two"))
        self.feed("--empty")
        self.settled()
        with open(self.path("w", "b", "two"), "ab") as file:
            file.write(b", and more")
        self.equal()
        # Links that come later, in a directory that moves.
        os.link(self.path("w", "a", "other"), self.path("w", "b", "later"))
        self.equal()
        os.rename(self.path("w", "b"), self.path("w", "c"))
        self.equal()
        for name in ("c/later", "a/other", "c/two"):
            with open(self.path("w", name), "ab") as file:
                file.write(b"; by " + name.encode())
            self.equal()
        os.chmod(self.path("w", "a", "one"), 0o755)
        self.equal()
        # A link in a directory that is new, and so is looked at as a whole.
        os.mkdir(self.path("w", "new"))
        os.link(self.path("w", "a", "one"), self.path("w", "new", "link"))
        with open(self.path("w", "new", "link"), "ab") as file:
            file.write(b"; by the new one")
        self.equal()
        # A name that is written, and gone with its directory before feed looks.
        self.feeder.send_signal(signal.SIGSTOP)
        with open(self.path("w", "new", "link"), "wb") as file:
            file.write(b"by a name that is gone")
        shutil.rmtree(self.path("w", "new"))
        self.feeder.send_signal(signal.SIGCONT)
        self.equal()

    def test_copies_are_left_out(self):
        """What `railburnet follow --into` keeps below the directory would be fed to itself."""
        os.makedirs(self.path("w", "copy", ".railburnet"))
        os.makedirs(self.path("w", ".railburnet"))
        for name in (b"copy/f", b"copy/d/f", b".railburnet/made", b"f"):
            self.write(name, b"1")
        self.feed("--empty")
        self.follows(b"f")
        self.assertIn(b"copy: a copy that `railburnet follow --into` keeps", self.text("stderr"))
        # A directory becomes one while it is followed, and is none any more.
        self.write(b"d/e/f", b"2")
        self.assertTrue(wait_until(lambda: b"d/e/f" in self.world.files))
        os.mkdir(self.path("w", "d", ".railburnet"))
        self.follows(b"f")
        self.write(b"d/g", b"3")
        self.write(b"g", b"4")
        self.follows(b"f", b"g")
        os.rmdir(self.path("w", "d", ".railburnet"))
        self.follows(b"f", b"g", b"d/e/f", b"d/g")
        self.assertIsNone(self.fault)

    def test_a_moved_directory_file_by_file(self):
        for name in (b"d/x", b"d/e/y"):
            self.write(name, b"text of " + name)
        self.feed("--empty", "--each-file")
        self.settled()
        self.move(("d", "m"))
        self.equal()
        self.assertEqual(sorted(self.since(self.count)), [b"rename d/e/y m/e/y", b"rename d/x m/x"])

    def test_what_is_left_out_is_no_flood(self):
        for n in range(300):
            self.write(b"f%d" % n, b"x" * 70_000)
        self.feed("--empty")
        self.follows()
        said = self.text("stderr").splitlines()
        self.assertEqual(len([line for line in said if b"70,000 bytes" in line]), 20)
        self.assertIn(
            b"feed: and 280 more like these in a minute; 300 paths are left out now", said
        )

    def test_what_differs_comes_before_listen(self):
        self.write(b"a", b"1")
        self.feed("--empty")
        self.settled()
        self.write(b"b", b"2")
        self.equal()
        self.assertEqual(self.since(1), [b"write a plain 1", b"listen", b"write b plain 2"])

    def test_what_differs_comes_after_listen(self):
        self.write(b"a", b"1")
        self.feed("--empty", "--listen-first")
        self.settled()
        self.assertEqual(self.since(1), [b"listen", b"write a plain 1"])

    def test_generations(self):
        """None comes twice for a directory, whatever the clock says."""

        def generation(*options):
            done = subprocess.run(
                [*client("feed"), "--empty", "--once", *options, self.path("w")],
                stdout=subprocess.PIPE,
                stderr=subprocess.PIPE,
                check=False,
            )
            return (
                int(done.stdout.split()[2])
                if done.returncode == 0
                else (done.returncode, done.stderr.decode())
            )

        before = time.time_ns()
        first = generation()
        self.assertGreaterEqual(first, before)
        self.assertGreater(generation(), first)
        # An hour ahead, as before the clock was set back.
        later = time.time_ns() + 3600 * 10**9
        self.assertEqual(generation("--generation", str(later)), later)
        self.assertEqual(generation(), later + 1)
        for used in (7, later):
            status, said = generation("--generation", str(used))
            self.assertEqual(status, 1)
            self.assertIn(f"generation {used} isn't above", said)
        for wrong in ("-1", "x", "", "1.5", str(2**64)):
            status, said = generation("--generation=" + wrong)
            self.assertEqual(status, 2)
            self.assertIn("is no number from 0 to 18446744073709551615", said)

    def test_no_room_for_what_is_printed(self):
        self.write(b"a", b"1")
        with open("/dev/full", "wb") as full:
            done = subprocess.run(
                [*client("feed"), "--empty", "--once", self.path("w")],
                stdout=full,
                stderr=subprocess.PIPE,
                check=False,
            )
        self.assertEqual(
            (done.returncode, done.stderr),
            (1, b"feed: can't write what it prints: No space left on device\n"),
        )

    def test_what_is_no_file(self):
        os.mkfifo(self.path("w", "pipe"))
        self.write(b"a", b"1")
        self.feed("--empty")
        self.settled()
        self.assertIn(b"pipe: is no file", self.text("stderr"))
        os.unlink(self.path("w", "a"))
        os.mkfifo(self.path("w", "a"))
        self.equal()

    def test_no_permission(self):
        """Files and directories that can't be read, which are told; and again where they can be."""
        os.chmod(self.folder, 0o755)
        for name in (b"a", b"d/x", b"d/e/y"):
            self.write(name, b"1")
        # Nothing is forbidden to root, and not each python3 that root has is there for others.
        if os.geteuid() == 0:
            shutil.copytree(os.path.join(CLIENTS, "python"), self.path("python"))
            words = ["/usr/bin/python3", "-m", "railburnet", "feed"]
            self.feed("--empty", words=words, user=65_534, env={"PYTHONPATH": self.path("python")})
        else:
            self.feed("--empty")
        self.settled()
        os.chmod(self.path("w", "a"), 0o000)
        os.chmod(self.path("w", "d"), 0o000)
        self.assertTrue(wait_until(lambda: not self.world.files), self.world.files)
        self.assertTrue(
            wait_until(lambda: self.text("stderr").count(b"Permission denied") >= 2),
            self.text("stderr"),
        )
        os.chmod(self.path("w", "a"), 0o644)
        os.chmod(self.path("w", "d"), 0o755)
        self.equal()
        self.write(b"d/e/y", b"3")
        self.equal()

    def test_links_are_not_followed(self):
        """A directory gives way to a link to another one that has the same names."""
        self.write(b"d/x", b"1")
        os.mkdir(self.path("outside"))
        self.feed("--empty")
        self.settled()
        os.rename(self.path("w", "d"), self.path("outside", "d"))
        os.symlink(self.path("outside", "d"), self.path("w", "d"))
        self.equal()
        with open(self.path("outside", "d", "x"), "w", encoding="ascii") as file:
            file.write("changed outside")
        self.write(b"y", b"2")
        self.equal()
        self.assertEqual(set(self.world.files), {b"d", b"y"})
        self.assertNotIn(b"changed", b"".join(self.lines_of))

    def test_too_few_watches(self):
        """The system can't watch a fourth directory: everything is looked at again and again."""
        program = """
import sys
sys.path.insert(0, sys.argv.pop(1))
from railburnet import feed
add = feed.Inotify.add
def few(self, folder, path):
    if len(self.paths) >= 3:
        raise feed.NoNotices("no watch left")
    return add(self, folder, path)
feed.Inotify.add = few
sys.exit(feed.main(sys.argv[1:]))
"""
        for name in (b"a/x", b"b/x"):
            self.write(name, b"1")
        self.feed(
            "--empty",
            "--every",
            "0.1",
            words=[sys.executable, "-B", "-c", program, os.path.join(CLIENTS, "python")],
        )
        self.settled()
        self.write(b"c/d/e", b"2")
        self.equal()
        self.assertTrue(
            wait_until(
                lambda: b"no watch left; looking at everything every 0.1 seconds"
                in self.text("stderr")
            )
        )
        self.write(b"c/d/f", b"3")
        self.equal()

    def test_the_reader_ends(self):
        feeder = self.started([*client("feed"), "--empty", self.path("w")], stdout=subprocess.PIPE)
        self.assertTrue(wait_until(lambda: b"following" in self.text("stderr")))
        feeder.stdout.close()
        self.assertEqual(feeder.wait(120), 0)

    def test_interrupted(self):
        self.feed("--empty")
        self.settled()
        self.feeder.send_signal(signal.SIGINT)
        self.assertEqual(self.feeder.wait(120), 130)
        self.assertNotIn(b"Traceback", self.text("stderr"))

    def test_the_directory_goes(self):
        self.feed("--empty")
        self.settled()
        shutil.rmtree(self.path("w"))
        self.assertEqual(self.feeder.wait(120), 1)
        self.assertNotIn(b"remove", b"".join(self.lines_of))

    def test_many_changes(self):
        self.feed("--empty", "--settle", "0.005")
        self.settled()
        for seed in range(30):
            change(self.path("w"), seed, 60)
            self.equal()

    def test_many_changes_by_looking(self):
        self.feed("--empty", "--scan", "--every", "0.03", "--settle", "0.005")
        self.settled()
        for seed in range(15):
            change(self.path("w"), seed, 60)
            self.equal()


if __name__ == "__main__":
    unittest.main()
