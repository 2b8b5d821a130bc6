"""git-objects: what it prints is what git does, each object once and behind those that it names;
and what a mount has no kind for is told."""
import hashlib
import io
import os
import shutil
import subprocess
import unittest

from kit import InFolder, client, wait_until

import railburnet
from railburnet import FileStat, Kind, Mark
from stand_in import read_commits


def objects_of(text):
    """The objects of a file: of each its id, its kind and what it names. Fails where one has
    another id than its bytes."""
    file, found = io.BytesIO(text), []
    while head := file.readline():
        id, kind, size = head.decode().split()
        payload = file.read(int(size))
        assert (
            file.read(1) == b"\n"
            and hashlib.sha1(f"{kind} {size}\0".encode() + payload).hexdigest() == id
        )
        found.append((id, kind, named(kind, payload)))
    return found


def named(kind, payload):
    if kind == "commit":
        return [payload[5:45].decode()]
    ids = []
    while kind == "tree" and payload:
        end = payload.index(b"\0")
        ids.append(payload[end + 1 : end + 21].hex())
        payload = payload[end + 21 :]
    return ids


@unittest.skipUnless(shutil.which("git"), "no git here")
class Objects(InFolder):
    def git(self, *words, text=None):
        words = ["git", "-C", self.path("r"), "-c", "user.name=a", "-c", "user.email=a@a", *words]
        return (
            subprocess.run(words, input=text, stdout=subprocess.PIPE, check=True)
            .stdout.decode("utf-8", "replace")
            .strip()
        )

    def setUp(self):
        super().setUp()
        os.makedirs(self.path("r", "d", "e f"))
        self.git("init", "-q")
        for name, text in (
            ("a", b"1"),
            ("d/b", b"1"),
            ("d/e f/\n", b"2"),
            ("d/\udcff", b"3"),
            ("empty", b""),
        ):
            with open(self.path("r", name), "wb") as file:
                file.write(text)
        os.symlink("a", self.path("r", "link"))
        os.chmod(self.path("r", "a"), 0o755)
        self.commit("one")

    def commit(self, message):
        self.git("add", "-A")
        self.git("commit", "-q", "-m", message)
        return self.git("rev-parse", "HEAD")

    def printed(self, *words, status=0):
        """What the program prints and tells."""
        done = subprocess.run(
            [*client("objects"), *words],
            stdout=subprocess.PIPE,
            stderr=subprocess.PIPE,
            check=False,
        )
        told = done.stderr.decode()
        self.assertEqual(done.returncode, status, told)
        return done.stdout, told

    def test_two_commits(self):
        os.makedirs(self.path("r", "a b"))
        os.rename(self.path("r", "d"), self.path("r", "a b", "d"))
        second = self.commit("two")
        text, told = self.printed(self.path("r"), "HEAD~1", "HEAD", second)
        objects = objects_of(text)
        seen = set()
        for id, _, names in objects:
            self.assertTrue(seen.issuperset(names))
            self.assertNotIn(id, seen)
            seen.add(id)
        by_git = {
            line.split()[0] for line in self.git("rev-list", "--objects", "--all").splitlines()
        }
        self.assertEqual(seen, by_git)
        self.assertIn(f"{len(objects)} objects", told)
        self.assertEqual(
            set(read_commits(io.BytesIO(text))),
            {b"empty", second[:32].encode(), self.git("rev-parse", "HEAD~1")[:32].encode()},
        )

    def work_and_mount(self):
        """Changes the working tree and a mount of its commit alike; a client of the mount."""
        text, _ = self.printed(self.path("r"), "HEAD")
        with open(self.path("objects"), "wb") as file:
            file.write(text)
        label = self.git("rev-parse", "HEAD")[:32].encode()
        port, server = self.server(
            b"mount %b 7 1000000\n" % label, objects=self.path("objects")
        )
        for name, content in (("a", b"9"), ("new", b"5"), ("empty", b"")):
            with open(self.path("r", name), "wb") as file:
                file.write(content)
        os.remove(self.path("r", "d", "b"))
        self.lines(
            server,
            b"write a exec 9",
            b"write new plain 5",
            b"write empty plain \\e",
            b"remove d/b",
        )
        mount = railburnet.Client(port)
        self.assertTrue(wait_until(lambda: mount.position().sequence >= 4))
        self.assertTrue(wait_until(lambda: mount.fetch(b"d/b").file is None))
        return mount

    def test_a_status_is_what_git_says(self):
        with self.work_and_mount() as mount:
            status = mount.status()
        self.assertEqual(status.position.root.hex(), self.git("rev-parse", "HEAD"))
        words = ["git", "-C", self.path("r"), "status", "--porcelain", "-z", "-uall"]
        said = subprocess.run(words, stdout=subprocess.PIPE, check=True).stdout.split(b"\0")[:-1]
        marks = {b" M": Mark.CHANGED, b" D": Mark.REMOVED, b"??": Mark.CREATED}
        by_git = sorted((line[3:], marks[line[:2]]) for line in said)
        self.assertEqual([(path, mark) for mark, path in status.marked], by_git)

    def test_attributes_are_what_git_says(self):
        with self.work_and_mount() as mount:
            files = mount.attributes().files
        self.git("add", "-A")
        words = ["git", "-C", self.path("r"), "ls-files", "-s", "-z"]
        said = subprocess.run(words, stdout=subprocess.PIPE, check=True).stdout.split(b"\0")[:-1]
        kinds = {b"100644": Kind.PLAIN, b"100755": Kind.EXEC, b"120000": Kind.LINK}
        by_git = []
        for line in said:
            head, _, path = line.partition(b"\t")
            mode, id, _ = head.split()
            length = os.lstat(os.path.join(os.fsencode(self.path("r")), path)).st_size
            by_git.append((path, FileStat(kinds[mode], length, bytes.fromhex(id.decode()))))
        self.assertEqual(files, by_git)

    def test_what_a_mount_has_no_kind_for(self):
        os.mkdir(self.path("r", "sub"))
        os.mkdir(self.path("r", "many"))
        for name in ("large", "many/large"):
            with open(self.path("r", name), "wb") as file:
                file.truncate(8_388_609)
        with open(self.path("r", "fits"), "wb") as file:
            file.truncate(8_388_608)
        self.git("add", "-A")
        self.git(
            "update-index",
            "--add",
            "--cacheinfo",
            f"160000,{self.git('rev-parse', 'HEAD')},sub/module",
        )
        self.git("commit", "-q", "-m", "odd")
        tree = self.git(
            "mktree",
            text=self.git("ls-tree", "HEAD").replace("100755 blob", "100664 blob").encode() + b"\n",
        )
        odd = self.git("commit-tree", tree, "-m", "odd")
        text, told = self.printed(self.path("r"), odd, status=1)
        self.assertEqual(text, b"")
        for word in (
            "sub/module: a submodule",
            "a: a file of mode 100664",
            "large: a file of 8,388,609 bytes",
            "--leave-out",
        ):
            self.assertIn(word, told)
        text, told = self.printed("--leave-out", self.path("r"), "HEAD~1", odd)
        objects_of(text)
        commits = read_commits(io.BytesIO(text))
        new = told.split(f"{odd} is written anew as ")[1][:32].encode()
        before = commits[self.git("rev-parse", "HEAD~1")[:32].encode()][1]
        self.assertEqual(before[b"a"], (2, b"1"))
        self.assertEqual(
            commits[new][1], {**before, b"a": (1, b"1"), b"fits": (1, bytes(8_388_608))}
        )

    def test_nothing_left(self):
        id = self.git("rev-parse", "HEAD")
        tree = self.git("mktree", "--missing", text=f"160000 commit {id}\tmodule\n".encode())
        odd = self.git("commit-tree", tree, "-m", "odd")
        text, told = self.printed("--leave-out", self.path("r"), odd)
        self.assertEqual(
            read_commits(io.BytesIO(text))[told.split("written anew as ")[1][:32].encode()][1], {}
        )

    def test_too_deep(self):
        tree = self.git("mktree", text=b"")
        blob = self.git("hash-object", "-w", "--stdin", text=b"1")
        tree = self.git("mktree", text=f"100644 blob {blob}\tf\n".encode())
        for depth in range(2, 66):
            tree = self.git("mktree", text=f"040000 tree {tree}\td\n".encode())
            if depth in (64, 65):
                commit = self.git("commit-tree", tree, "-m", "deep")
                _, told = self.printed(
                    "--leave-out", self.path("r"), commit, status=0 if depth == 64 else 1
                )
        self.assertIn("65 names below it", told)

    def test_faults(self):
        self.assertIn("nothing is no commit", self.printed(self.path("r"), "nothing", status=1)[1])
        self.assertIn("not a git repository", self.printed(self.folder, "HEAD", status=1)[1])
        self.assertIn(
            "--output is no commit", self.printed(self.path("r"), "--", "--output", status=1)[1]
        )
        self.printed(self.path("r"), status=2)


if __name__ == "__main__":
    unittest.main()
