"""A mirror in a real directory: what it makes equal, what it leaves alone, and that nothing
outside is touched."""
import errno
import os
import shutil
import stat
import subprocess
import unittest
from unittest import mock

from kit import InFolder, client, wait_until

from railburnet import Client, File, Folder, Kind


def read(path):
    with open(path, "rb") as file:
        return file.read()


def plain(text):
    return File(Kind.PLAIN, text)


class InCopy(InFolder):
    """A test of a copy in a directory."""

    def setUp(self):
        super().setUp()
        self.top = os.fsencode(self.path("m"))
        self.told = []
        self.folder_of = None

    def tearDown(self):
        self.closed()
        super().tearDown()

    def opened(self):
        self.folder_of = Folder(self.top, lambda path, why: self.told.append((path, why)))
        return self.folder_of

    def closed(self):
        """Ends the mirror as the end of its process does."""
        if self.folder_of is not None:
            self.folder_of.close()
            self.folder_of = None

    def placed(self, files, gone=()):
        folder = self.folder_of or self.opened()
        for path in gone:
            folder.put(path, None)
        for path, file in files.items():
            folder.put(path, file)
        return folder.place()

    def tree(self):
        """All that the directory holds but the mirror's own folder."""
        found = {}
        for folder, folders, files in os.walk(self.top):
            if folder == self.top:
                folders.remove(b".railburnet")
            for name in files + [
                name for name in folders if os.path.islink(os.path.join(folder, name))
            ]:
                full = os.path.join(folder, name)
                status = os.lstat(full)
                kind = (
                    Kind.LINK
                    if stat.S_ISLNK(status.st_mode)
                    else Kind.EXEC
                    if status.st_mode & 0o100
                    else Kind.PLAIN
                )
                text = os.readlink(full) if kind is Kind.LINK else read(full)
                found[os.path.relpath(full, self.top)] = File(kind, text)
        return found


class Placing(InCopy):
    def test_kinds_and_names(self):
        files = {
            b"a b/\xff\n/x": plain(b"1"),
            b"run": File(Kind.EXEC, b"2"),
            b"l": File(Kind.LINK, b"/etc/passwd"),
            b"-rf": plain(b""),
            b".h/.git": plain(b"3"),
        }
        self.assertEqual(self.placed(files), 0)
        self.assertEqual(self.tree(), files)
        # The same bytes become a file of another kind.
        files.update(
            {
                b"run": plain(b"2"),
                b"l": File(Kind.EXEC, b"/etc/passwd"),
                b"-rf": File(Kind.LINK, b"run"),
            }
        )
        self.assertEqual(self.placed(files), 0)
        self.assertEqual((self.tree(), self.told), (files, []))

    def test_files_and_directories_change_places(self):
        self.placed({b"a": plain(b"1"), b"b/c/d": plain(b"2"), b"b/c/e": plain(b"3")})
        self.assertEqual(
            self.placed({b"a/x": plain(b"4"), b"b": plain(b"5")}, gone=[b"a", b"b/c/d", b"b/c/e"]),
            0,
        )
        self.assertEqual(self.tree(), {b"a/x": plain(b"4"), b"b": plain(b"5")})
        self.placed({}, gone=[b"a/x", b"b"])
        self.assertEqual(os.listdir(self.top), [b".railburnet"])

    def test_replaced_as_a_whole(self):
        self.placed({b"a": plain(b"old")})
        with open(self.path("m", "a"), "rb") as before:
            self.placed({b"a": plain(b"new")})
            self.assertEqual(before.read(), b"old")

    def test_nothing_before_place(self):
        folder = self.opened()
        folder.put(b"a", plain(b"1"))
        self.assertEqual(self.tree(), {})
        folder.clear()
        folder.put(b"b", plain(b"2"))
        folder.place()
        self.assertEqual(self.tree(), {b"b": plain(b"2")})

    def test_a_list_of_all(self):
        self.placed({b"a": plain(b"1"), b"b": plain(b"2")})
        self.folder_of.clear()
        self.assertEqual(self.placed({b"b": plain(b"3")}), 0)
        self.assertEqual(self.tree(), {b"b": plain(b"3")})

    def test_what_is_listed_below_a_directory(self):
        self.placed(
            {
                b"d.x": plain(b"1"),
                b"d/a": plain(b"2"),
                b"d/b": plain(b"3"),
                b"d/e/c": plain(b"4"),
                b"e/a": plain(b"5"),
            }
        )
        self.folder_of.put(b"d/new", plain(b"6"))
        self.folder_of.keep_below(b"d", [b"d/b"])
        self.assertEqual(len(self.tree()), 5)
        self.assertEqual(self.placed({b"d/z": plain(b"7")}), 0)
        self.assertEqual(
            self.tree(),
            {b"d.x": plain(b"1"), b"d/b": plain(b"3"), b"d/z": plain(b"7"), b"e/a": plain(b"5")},
        )
        self.folder_of.keep_below(b"e", [])
        self.placed({b"e": plain(b"8")})
        self.assertEqual(self.tree()[b"e"], plain(b"8"))

    def test_files_of_others(self):
        os.makedirs(self.path("m", "d"))
        for name in ("mine", "d/mine"):
            with open(self.path("m", name), "w") as file:
                file.write("precious")
        self.assertEqual(
            self.placed(
                {
                    b"mine": plain(b"1"),
                    b"d/x": plain(b"2"),
                    b"d/mine/y": plain(b"3"),
                    b"same": plain(b"4"),
                }
            ),
            2,
        )
        self.assertEqual(sorted(path for path, _ in self.told), [b"d/mine/y", b"mine"])
        self.assertTrue(all("left alone" in why for _, why in self.told))
        # Gone from the mount: what others made stays.
        self.placed({}, gone=[b"mine", b"d/x", b"d/mine/y"])
        self.assertEqual(
            self.tree(),
            {b"mine": plain(b"precious"), b"d/mine": plain(b"precious"), b"same": plain(b"4")},
        )

    def test_a_file_that_somebody_changed(self):
        self.placed({b"a": plain(b"1"), b"b": plain(b"2")})
        for name in ("a", "b"):
            with open(self.path("m", name), "w") as file:
                file.write("edited")
        self.assertEqual(self.placed({b"a": plain(b"3")}, gone=[b"b"]), 1)
        self.assertEqual(self.tree(), {b"a": plain(b"edited"), b"b": plain(b"edited")})
        self.assertEqual([path for path, _ in self.told], [b"b", b"a"])
        # What stood in the way goes, and the file takes its place.
        os.unlink(self.path("m", "a"))
        self.assertEqual(self.placed({b"c": plain(b"4")}), 0)
        self.assertEqual(
            self.tree(), {b"a": plain(b"3"), b"b": plain(b"edited"), b"c": plain(b"4")}
        )

    def test_equal_files_of_others(self):
        os.mkdir(self.path("m"))
        with open(self.path("m", "a"), "w") as file:
            file.write("1")
        self.assertEqual((self.placed({b"a": plain(b"1")}), self.told), (0, []))
        self.assertEqual(self.placed({b"a": plain(b"2")}), 1)

    def test_links_are_not_followed(self):
        os.makedirs(self.path("outside", "below"))
        with open(self.path("outside", "x"), "w") as file:
            file.write("precious")
        os.mkdir(self.path("m"))
        os.symlink(self.path("outside"), self.path("m", "d"))
        os.symlink(self.path("outside", "x"), self.path("m", "x"))
        self.assertEqual(
            self.placed({b"d/new": plain(b"1"), b"d/below/new": plain(b"2"), b"x": plain(b"3")}), 3
        )
        self.assertEqual(len(self.told), 3)
        self.assertEqual(sorted(os.listdir(self.path("outside"))), ["below", "x"])
        self.assertEqual(os.listdir(self.path("outside", "below")), [])
        self.assertEqual(self.text("outside/x"), b"precious")

    def test_a_directory_becomes_a_link(self):
        """A directory of the mirror is replaced by a link to elsewhere, with the same names
        there."""
        self.placed({b"d/x": plain(b"1"), b"d/y": plain(b"2")})
        os.rename(self.path("m", "d"), self.path("outside"))
        os.symlink(self.path("outside"), self.path("m", "d"))
        self.assertEqual(self.placed({b"d/x": plain(b"3")}, gone=[b"d/y"]), 1)
        self.assertEqual((self.text("outside/x"), self.text("outside/y")), (b"1", b"2"))

    def test_a_link_of_the_mirror(self):
        """A link that the mount has leads nowhere for the mirror."""
        os.mkdir(self.path("outside"))
        self.placed({b"d": File(Kind.LINK, os.fsencode(self.path("outside")))})
        self.assertEqual(self.placed({b"d/x": plain(b"1")}, gone=[b"d"]), 0)
        self.assertEqual(
            (os.listdir(self.path("outside")), self.tree()), ([], {b"d/x": plain(b"1")})
        )

    def test_a_later_run(self):
        files = {
            b"a": plain(b"1"),
            b"d/b": File(Kind.EXEC, b"2"),
            b"d/c": File(Kind.LINK, b"a"),
            b"e/f": plain(b"3"),
        }
        self.placed(files)
        self.closed()
        with open(self.path("m", "e", "f"), "w") as file:
            file.write("edited")
        self.opened().clear()
        self.assertEqual(self.placed({b"a": plain(b"4")}), 0)
        self.assertEqual(self.tree(), {b"a": plain(b"4"), b"e/f": plain(b"edited")})
        self.assertEqual(sorted(os.listdir(self.path("m"))), [".railburnet", "a", "e"])

    def test_a_log_that_was_cut(self):
        self.placed({b"a": plain(b"1"), b"b": plain(b"2")})
        self.closed()
        log = self.text("m/.railburnet/made")
        for end in range(len(log)):
            with open(self.path("m", ".railburnet", "made"), "wb") as file:
                file.write(log[:end])
            folder = self.opened()
            folder.put(b"a", plain(b"1"))
            folder.put(b"b", plain(b"2"))
            self.assertEqual(folder.place(), 0)
            self.closed()

    def test_names_that_cannot_be(self):
        files = {
            b".railburnet/made": plain(b"1"),
            b"l": File(Kind.LINK, b""),
            b"n": File(Kind.LINK, b"a\0b"),
            b"ok": plain(b"2"),
        }
        self.assertEqual(self.placed(files), 1)
        self.assertEqual(self.tree(), {b"ok": plain(b"2")})
        self.assertEqual(len(self.told), 3)

    def test_one_mirror_at_a_time(self):
        self.opened()
        with self.assertRaisesRegex(OSError, "another mirror"):
            Folder(self.top, lambda path, why: None)


class SmallFolder(Folder):
    """A directory on a disk with room for so many bytes of files; what is staged takes room too."""

    room = 0

    def _write(self, name, file):
        used = sum(
            os.lstat(os.path.join(at, each)).st_size
            for at, _, names in os.walk(self.top)
            for each in names
            if each != b"made"
        )
        if used + len(file.content) > self.room:
            # As a system does it: the file is there, with what found room.
            super()._write(name, File(file.kind, file.content[: self.room - used]))
            raise OSError(errno.ENOSPC, os.strerror(errno.ENOSPC))
        super()._write(name, file)


class NoRoom(InCopy):
    """What becomes of a copy on a disk that is full."""

    def opened(self):
        SmallFolder.top, SmallFolder.room = self.top, 300
        self.folder_of = SmallFolder(self.top, lambda path, why: self.told.append((path, why)))
        return self.folder_of

    def own(self):
        return sorted(
            name
            for name in os.listdir(os.path.join(self.top, b".railburnet"))
            if not name.startswith(b"this-")
        )

    def test_what_finds_no_room(self):
        files = {b"f%d" % n: plain(b"%d" % n * 40) for n in range(9)}
        self.assertEqual(self.placed(files), 2)
        self.assertEqual(self.folder_of.retry(files.get), 2)
        self.assertEqual(self.tree(), {path: files[path] for path in sorted(files)[:7]})
        self.assertEqual(
            self.told,
            [
                (b"f7", "No space left on device; it is tried again"),
                (b"f8", "No space left on device; it is tried again"),
            ],
        )
        self.assertEqual(self.own(), [b"lock", b"made"])
        # Files that go make room, before what is new is asked for again.
        for path in (b"f0", b"f1"):
            del files[path]
        self.assertEqual(self.placed({}, gone=[b"f0", b"f1"]), 2)
        self.assertEqual(self.folder_of.retry(files.get), 0)
        self.assertEqual((self.tree(), len(self.told)), (files, 2))

    def test_once_more_in_a_later_run(self):
        """All that there was is as it is to be, and takes no room a second time."""
        files = {b"f%d" % n: plain(b"%d" % n * 40) for n in range(7)}
        self.assertEqual(self.placed(files), 0)
        self.closed()
        self.opened().clear()
        self.assertEqual((self.placed(files), self.tree(), self.told), (0, files, []))
        # As after four of the old ones are gone, and new ones are there.
        self.folder_of.clear()
        files = {b"f5": files[b"f5"], **{b"g%d" % n: plain(b"%d" % n * 40) for n in range(6)}}
        self.placed(files)
        self.assertEqual(self.folder_of.retry(files.get), 0)
        self.assertEqual((self.tree(), self.told), (files, []))

    def test_what_is_smaller_makes_room(self):
        self.placed({b"a": plain(b"a" * 140), b"b": plain(b"b" * 140)})
        files = {b"a": plain(b"a"), b"b": plain(b"b" * 200)}
        self.placed(files)
        self.assertEqual(
            (self.folder_of.retry(files.get), self.tree()),
            (1, {b"a": plain(b"a"), b"b": plain(b"b" * 140)}),
        )
        SmallFolder.room = 400
        self.folder_of._pause = 0
        self.assertEqual((self.folder_of.retry(files.get), self.tree()), (0, files))

    def test_a_fault_of_the_disk(self):
        """A file is tried again, with the system's words; a log that can't be written is no log."""
        fault = OSError(errno.EIO, os.strerror(errno.EIO))
        folder = self.opened()
        with mock.patch.object(Folder, "_write", side_effect=fault):
            self.assertEqual(self.placed({b"a": plain(b"1")}), 1)
            self.assertEqual(folder.retry(lambda path: plain(b"1")), 1)
        self.assertEqual(self.told, [(b"a", "Input/output error; it is tried again")])
        folder._pause = 0
        self.assertEqual(
            (folder.retry(lambda path: plain(b"1")), self.tree()), (0, {b"a": plain(b"1")})
        )
        with mock.patch.object(folder, "_log") as log:
            log.flush.side_effect = fault
            with self.assertRaisesRegex(OSError, "Input/output error"):
                folder._end_log()

    def test_an_equal_file_that_goes_meanwhile(self):
        self.placed({b"a": plain(b"1")})
        folder = self.folder_of
        folder.put(b"a", plain(b"1"))
        os.unlink(os.path.join(self.top, b"a"))
        self.assertEqual(folder.place(), 1)
        self.assertEqual(
            (folder.retry(lambda path: plain(b"1")), self.tree()), (0, {b"a": plain(b"1")})
        )

    def test_nothing_is_left_when_it_ends(self):
        folder = self.opened()
        folder.put(b"a", plain(b"1"))
        self.assertEqual(self.own(), [b"1", b"lock", b"made"])
        self.closed()
        self.assertEqual(self.own(), [b"lock", b"made"])

    def test_a_log_with_no_room(self):
        """The log is not begun again, and the one that is there goes on."""
        self.placed({b"a": plain(b"1")})
        self.closed()
        real = os.rename

        def full(*words, **more):
            if words[0] == b"made.new":
                raise OSError(errno.ENOSPC, os.strerror(errno.ENOSPC))
            return real(*words, **more)

        with mock.patch("os.rename", full):
            self.opened()
            self.placed({b"b": plain(b"2")})
            self.closed()
        self.assertEqual(self.own(), [b"lock", b"made"])
        self.opened().clear()
        self.placed({b"c": plain(b"3")})
        self.assertEqual((self.tree(), self.told), ({b"c": plain(b"3")}, []))


@unittest.skipUnless(
    os.geteuid() == 0 and shutil.which("mount"), "only root makes a small file system"
)
class SmallDisk(InFolder):
    def setUp(self):
        super().setUp()
        os.mkdir(self.path("small"))
        made = subprocess.run(
            ["mount", "-t", "tmpfs", "-o", "size=300k", "tmpfs", self.path("small")],
            stderr=subprocess.DEVNULL,
            check=False,
        )
        if made.returncode:
            super().tearDown()
            self.skipTest("no file system can be mounted here")

    def tearDown(self):
        subprocess.run(["umount", self.path("small")], check=False)
        super().tearDown()

    def test_a_full_disk(self):
        lines = [b"write f%d plain %s" % (n, b"%d" % n * 40_000) for n in range(9)]
        port, server = self.server(
            b"".join(line + b"\n" for line in (b"mount empty 7 1000000", *lines))
        )
        words = client(
            "--port", str(port), "follow", "--once", "--into", self.path("small", "copy")
        )
        done = subprocess.run(words, stdout=subprocess.PIPE, stderr=subprocess.PIPE, check=False)
        self.assertEqual((done.returncode, done.stdout.split(b"\n")[1]), (1, b"paths 9 unequal 2"))
        self.assertEqual(
            done.stderr,
            b"railburnet: f7: No space left on device; it is tried again\n"
            b"railburnet: f8: No space left on device; it is tried again\n",
        )
        self.lines(server, *(b"remove f%d" % n for n in range(4)))
        with Client(port) as asks:
            self.assertTrue(wait_until(lambda: asks.position().sequence == 14))
        done = subprocess.run(words, stdout=subprocess.PIPE, stderr=subprocess.PIPE, check=False)
        self.assertEqual(
            (done.returncode, done.stdout.split(b"\n")[1], done.stderr),
            (0, b"paths 5 unequal 0", b""),
        )
        self.assertEqual(
            sorted(os.listdir(self.path("small", "copy"))),
            [".railburnet", *(f"f{n}" for n in range(4, 9))],
        )
        self.assertEqual(
            sorted(os.listdir(self.path("small", "copy", ".railburnet"))), ["lock", "made"]
        )


class Following(InFolder):
    def test_follow_into(self):
        port, server = self.server(b"mount empty 7 1000000\n")
        self.lines(server, b"write a plain 1", b"write d/b exec 2", b"write l link a")
        words = ["--port", str(port), "follow", "--into", self.path("m"), "--every", "0.02"]
        follow = self.started([*client(), *words], stdout=subprocess.DEVNULL)

        def holds(*names):
            found = sorted(
                os.path.relpath(os.path.join(at, name), self.path("m"))
                for at, _, files in os.walk(self.path("m"))
                for name in files
            )
            return [name for name in found if not name.startswith(".railburnet")] == list(names)

        self.assertTrue(wait_until(lambda: holds("a", "d/b", "l")))
        self.assertTrue(os.access(self.path("m", "d", "b"), os.X_OK))
        self.assertEqual(os.readlink(self.path("m", "l")), "a")
        self.lines(server, b"rename a d/a", b"remove l", b"remount 9", b"write n plain 3")
        self.assertTrue(wait_until(lambda: holds("d/a", "d/b", "n")))
        follow.send_signal(2)
        self.assertEqual(follow.wait(120), 130)

    def test_a_copy_without_what_is_excluded(self):
        port, _ = self.server(
            b"mount empty 7 1000000\nwrite a plain 1\nwrite d/b.o plain 2\nwrite d/b plain 2\n"
        )
        words = ["--port", str(port), "follow", "--once", "--into", self.path("m"), "!**/*.o"]
        done = subprocess.run(client(*words), stdout=subprocess.PIPE, check=True)
        self.assertEqual(done.stdout.split(b"\n")[1], b"paths 2 unequal 0")
        self.assertEqual(sorted(os.listdir(self.path("m"))), [".railburnet", "a", "d"])
        self.assertEqual(os.listdir(self.path("m", "d")), ["b"])


if __name__ == "__main__":
    unittest.main()
