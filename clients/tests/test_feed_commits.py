"""feed, over the commits of a repository."""
import io
import os
import shutil
import subprocess
import unittest

from kit import client, wait_until
from stand_in import read_commits
from test_feed import Fed


@unittest.skipUnless(shutil.which("git"), "no git here")
class OfARepository(Fed):
    def git(self, *words):
        done = subprocess.run(
            ["git", "-C", self.path("w"), "-c", "user.name=a", "-c", "user.email=a@a", *words],
            stdout=subprocess.PIPE,
            check=True,
        )
        return done.stdout.decode().strip()

    def setUp(self):
        super().setUp()
        os.mkdir(self.path("w"))
        self.git("init", "-q")
        for n in range(200):
            self.write(b"d%d/f%d" % (n % 10, n), b"%d\n" % n)
        self.write(b"large", b"x" * 100_000)
        self.git("add", "-A")
        self.git("commit", "-q", "-m", "one")
        self.first = self.git("rev-parse", "HEAD")
        for n in range(0, 200, 3):
            self.write(b"d%d/f%d" % (n % 10, n), b"changed\n")
        shutil.rmtree(self.path("w", "d5"))
        self.write(b"d5", b"a file")
        self.write(b"large", b"y" * 100_000)
        self.git("add", "-A")
        self.git("commit", "-q", "-m", "two")
        self.second = self.git("rev-parse", "HEAD")
        self.git("checkout", "-q", self.first)

    def commit(self, id):
        """A commit's files, as a mount holds them."""
        files = {}
        for line in self.git("ls-tree", "-r", id).splitlines():
            head, path = line.split("\t")
            blob = subprocess.run(
                ["git", "-C", self.path("w"), "cat-file", "blob", head.split()[2]],
                stdout=subprocess.PIPE,
                check=True,
            ).stdout
            files[path.encode()] = ({"100644": 1, "100755": 2, "120000": 3}[head.split()[0]], blob)
        return id[:32].encode(), (bytes.fromhex(id), files)

    most = 10**6

    def directory(self, most=None):
        return super().directory(most or self.most)

    def test_nothing_differs(self):
        self.feed("--once", commits=dict([self.commit(self.first)]))
        self.assertEqual(self.feeder.wait(20), 0)
        self.reader.join()
        self.assertEqual(len(self.lines_of), 1)
        self.assertRegex(
            self.lines_of[0], rb"^mount %s [0-9]+ 100000000\n$" % self.first[:32].encode()
        )

    def test_a_checkout_by_files(self):
        self.write(b"untracked", b"1")
        os.unlink(self.path("w", "d1", "f1"))
        self.feed(commits=dict([self.commit(self.first)]))
        self.settled()
        self.git("checkout", "-q", "-f", self.second)
        self.assertTrue(wait_until(lambda: b"large" not in self.world.files))
        self.assertTrue(
            wait_until(lambda: {**self.held(), b"large": (1, b"y" * 100_000)} == self.directory())
        )
        self.assertEqual(
            {line.split()[0] for line in self.lines_of if not line.startswith(b"rename large")},
            {b"mount", b"write", b"remove", b"listen"},
        )

    def test_a_checkout_by_its_commit(self):
        self.write(b"untracked", b"1")
        self.write(b"d2/f2", b"edited")
        self.feed(
            "--also", self.second, commits=dict([self.commit(self.first), self.commit(self.second)])
        )
        self.settled()
        count = len(self.lines_of)
        self.git("checkout", "-q", self.second)
        self.equal()
        self.assertEqual(self.since(count)[0], b"checkout %s force" % self.second[:32].encode())
        self.assertLessEqual(len(self.since(count)), 2)
        self.git("checkout", "-q", self.first)
        self.equal()

    def test_large_files_of_the_commit(self):
        """A file that no line can write is in the mount whenever it is as the commit has it."""
        self.write(b"bin/tool", b"t" * 300_000)
        os.chmod(self.path("w", "bin", "tool"), 0o755)
        self.write(b"at the limit", b"l" * 8_388_608)
        self.git("add", "-A")
        self.git("commit", "-q", "-m", "three")
        self.feed(commits=dict([self.commit(self.git("rev-parse", "HEAD"))]))
        self.most = 10**7
        self.settled()
        large, kept = self.path("w", "large"), self.path("kept")

        def lost(*names):
            """Waits until the mount hasn't these files, and all others of the directory."""

            def holds():
                self.assertIsNone(self.fault)
                return self.held() == {
                    path: file for path, file in self.directory().items() if path not in names
                }

            self.assertTrue(wait_until(holds), (sorted(self.held()), names))

        for gone, back in (
            (lambda: os.unlink(large), lambda: self.git("checkout", "-q", "--", "large")),
            (
                lambda: self.write(b"large", b"small"),
                lambda: self.git("checkout", "-q", "--", "large"),
            ),
            (lambda: os.rename(large, kept), lambda: os.rename(kept, large)),
            (
                lambda: os.rename(large, kept),
                lambda: shutil.copy(kept, self.path("w", "elsewhere")),
            ),
        ):
            gone()
            self.equal()
            back()
            self.equal()
        os.rename(self.path("w", "elsewhere"), large)
        self.equal()
        # Another kind, and other bytes that no line can write either.
        os.chmod(large, 0o755)
        lost(b"large")
        os.chmod(large, 0o644)
        self.equal()
        self.write(b"large", b"z" * 100_000)
        lost(b"large")
        self.git("stash", "-q")
        self.equal()
        self.git("stash", "pop", "-q")
        lost(b"large")
        # Of two copies one is there, whichever is left.
        self.git("checkout", "-q", "--", "large")
        self.equal()
        shutil.copy(large, self.path("w", "copy"))
        lost(b"copy")
        os.unlink(large)
        self.equal()
        # A directory that leaves, and comes back under another name.
        os.rename(self.path("w", "bin"), self.path("away"))
        self.equal()
        os.rename(self.path("away"), self.path("w", "b"))
        self.equal()
        os.unlink(self.path("w", "at the limit"))
        self.equal()
        # Another commit, and back: the commit's own paths have the files, and not their copies.
        self.git("checkout", "-q", "-f", self.second)
        lost(b"large")
        self.git("checkout", "-q", "-f", "-")
        lost(b"copy", b"b/tool")

    def test_large_files_that_moved_meanwhile(self):
        """Nobody has seen that a file moved: its bytes are found again."""
        commits = dict([self.commit(self.first)])
        os.mkdir(self.path("w", "new"))
        os.rename(self.path("w", "large"), self.path("w", "new", "name"))
        self.feed(commits=commits)
        self.settled()
        self.assertEqual(self.world.files[b"new/name"], (1, b"x" * 100_000))

    def test_a_commit_written_anew(self):
        """A commit with a submodule and a file above the limit of a mount, as git-objects writes
        it anew."""
        with open(self.path("w", "huge"), "wb") as file:
            file.truncate(9_000_000)
        self.git("add", "-A")
        self.git("update-index", "--add", "--cacheinfo", f"160000,{self.first},module")
        self.git("commit", "-q", "-m", "odd")
        odd = self.git("rev-parse", "HEAD")
        done = subprocess.run(
            [*client("objects"), "--leave-out", self.path("w"), odd],
            stdout=subprocess.PIPE,
            stderr=subprocess.PIPE,
            check=True,
        )
        new = done.stderr.decode().split(f"{odd} is written anew as ")[1][:40]
        commits = read_commits(io.BytesIO(done.stdout))
        self.feed("--once", "--commit", f"HEAD={new}", commits=commits)
        self.assertEqual(self.feeder.wait(20), 0)
        self.reader.join()
        self.assertEqual(
            [line.split()[:2] for line in self.lines_of],
            [[b"mount", new[:32].encode()], [b"write", b"huge"], [b"remove", b"huge"]],
        )
        self.assertEqual(
            {**self.world.files, b"huge": (1, bytes(9_000_000))}, self.directory(10**7)
        )

    def test_a_deeper_directory(self):
        done = subprocess.run(
            [*client("feed"), self.path("w", "d1")],
            stderr=subprocess.PIPE,
            stdout=subprocess.PIPE,
            check=False,
        )
        self.assertEqual((done.returncode, done.stdout), (1, b""))
        self.assertIn(b"isn't the top of a checkout", done.stderr)


if __name__ == "__main__":
    unittest.main()
