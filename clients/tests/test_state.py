"""The state folder: who may enter it, what it notes, and generations that never come twice."""
import contextlib
import json
import os
import subprocess
import sys
import time
import unittest
from unittest import mock

from kit import CLIENTS, InFolder

from railburnet import state
from railburnet.control import short_name
from railburnet.state import Mount, Process, StateFault

NEXT = """import sys
from railburnet.state import next_generation
for _ in range(25): print(next_generation(sys.argv[1]))
"""


class States(InFolder):
    def mount(self, root, feed=None):
        """A mount of a directory, noted, whose processes are this one and another."""
        here = Process.of(os.getpid())
        mount = Mount(os.fsencode(root), 7, 1, here, feed or here, False, self.path("control"))
        folder = state.folder_of(os.fsencode(root))
        state.make_folder(folder)
        state.note(folder, mount)
        return mount

    def test_the_folder_of_a_directory(self):
        os.mkdir(self.path("d"))
        os.symlink("d", self.path("l"))
        folder = state.folder_of(os.fsencode(self.path("l")))
        # By hand: printf %s /tmp/x | sha1sum | cut -c 1-16
        self.assertEqual(os.path.basename(state.folder_of(b"/tmp/x")), "e7ad2368a9224d8b")
        self.assertEqual(folder, state.folder_of(os.fsencode(self.path("d"))))
        self.assertFalse(os.path.exists(folder))
        state.make_folder(folder)
        for each in (folder, self.path("state")):
            self.assertEqual(os.stat(each).st_mode & 0o777, 0o700)

    def test_where_the_state_folder_is(self):
        with mock.patch.dict(os.environ, {"HOME": "/h", "XDG_STATE_HOME": "/x"}):
            del os.environ["RAILBURNET_STATE"]
            self.assertEqual(state.state_folder(), "/x/railburnet")
            del os.environ["XDG_STATE_HOME"]
            self.assertEqual(state.state_folder(), "/h/.local/state/railburnet")

    def test_a_folder_that_others_may_enter(self):
        folder = state.folder_of(b"/")
        state.make_folder(folder)
        for open_one in (self.path("state"), folder):
            os.chmod(open_one, 0o750)
            for use in (state.make_folder, state.next_generation, state.noted):
                with self.assertRaisesRegex(StateFault, "others may enter"):
                    use(folder)
            os.chmod(open_one, 0o700)
        os.rename(self.path("state"), self.path("moved"))
        os.symlink("moved", self.path("state"))
        with self.assertRaisesRegex(StateFault, "not a directory"):
            state.find(b"/")

    def test_what_is_noted_is_found(self):
        os.makedirs(self.path("a", "b", "c"))
        outer = self.mount(self.path("a"))
        self.assertEqual(state.find(os.fsencode(self.path("a"))), outer)
        self.assertEqual(state.find_above(os.fsencode(self.path("a", "b", "c"))), outer)
        inner = self.mount(self.path("a", "b"))
        self.assertEqual(state.find_above(os.fsencode(self.path("a", "b", "c"))), inner)
        self.assertIsNone(state.find(os.fsencode(self.path("a", "b", "c"))))
        self.assertIsNone(state.find_above(os.fsencode(self.folder)))
        self.assertEqual(set(state.all_noted()), {inner, outer})

    def test_a_name_that_is_no_text(self):
        root = os.fsencode(self.folder) + b"/\xff\n"
        os.mkdir(root)
        self.assertEqual(state.find(self.mount(root).root).root, root)

    def test_a_process_that_ended(self):
        os.makedirs(self.path("a", "b"))
        outer = self.mount(self.path("a"))
        child = subprocess.Popen(["sleep", "60"])
        dead = Process.of(child.pid)
        mount = self.mount(self.path("a", "b"), dead)
        self.assertEqual(state.find(mount.root), mount)
        child.kill()
        # Not waited for yet, it is there as one that has ended.
        while dead.lives:
            time.sleep(0.01)
        self.assertIsNone(state.find(mount.root))
        self.assertEqual(state.find_above(mount.root), outer)
        self.assertEqual(state.noted(state.folder_of(mount.root)), mount)
        child.wait()
        # The id of a process that runs, with another time of its start.
        self.mount(self.path("a"), Process(os.getpid(), Process.of(os.getpid()).started + 1))
        self.assertIsNone(state.find(os.fsencode(self.path("a"))))

    def test_a_note_that_cannot_be_read(self):
        mount = self.mount(self.folder)
        for text in ("", "[]", "{}", json.dumps({**mount.as_json(), "more": 1})):
            with open(
                os.path.join(state.folder_of(mount.root), "mount.json"), "w", encoding="ascii"
            ) as file:
                file.write(text)
            with self.assertRaisesRegex(StateFault, "can't be read"):
                state.find(mount.root)

    def test_generations(self):
        folder = state.folder_of(b"/")
        first = state.next_generation(folder)
        self.assertLess(abs(first - time.time_ns()), 60_000_000_000)
        # Clocks that stand still, or were set back.
        with mock.patch("time.time_ns", return_value=first):
            self.assertEqual(state.next_generation(folder), first + 1)
        with mock.patch("time.time_ns", return_value=5):
            self.assertEqual(state.next_generation(folder), first + 2)
        self.assertEqual(state.next_generation(folder, 7), first + 3)
        self.assertEqual(state.next_generation(folder, first + 1000), first + 1000)
        self.assertEqual(state.next_generation(folder, 2**64 - 1), 2**64 - 1)
        with self.assertRaisesRegex(StateFault, "no generation is left"):
            state.next_generation(folder)
        with open(os.path.join(folder, "generation"), encoding="ascii") as file:
            self.assertEqual(file.read(), f"{2**64 - 1}\n")

    def test_many_ask_for_generations(self):
        folder = state.folder_of(b"/")
        words = [sys.executable, "-c", NEXT, folder]
        environment = {**os.environ, "PYTHONPATH": os.path.join(CLIENTS, "python")}
        asked = [subprocess.Popen(words, stdout=subprocess.PIPE, env=environment) for _ in range(4)]
        told = [list(map(int, process.communicate()[0].split())) for process in asked]
        self.assertEqual([each == sorted(each) and len(each) == 25 for each in told], [True] * 4)
        self.assertEqual(len({number for each in told for number in each}), 100)

    def test_names_of_sockets(self):
        with short_name("/tmp/control") as name:
            self.assertEqual(name, "/tmp/control")
        deep = self.path(*["d" * 50] * 3)
        os.makedirs(deep)
        with open(os.path.join(deep, "control"), "w", encoding="ascii") as file:
            file.write("1")
        with short_name(os.path.join(deep, "control")) as name, contextlib.ExitStack() as stack:
            self.assertLess(len(name), 107)
            self.assertEqual(stack.enter_context(open(name, encoding="ascii")).read(), "1")


if __name__ == "__main__":
    unittest.main()
