"""watch: the command runs once for what changed, with its paths, never beside itself; and what
feed, edend serve and a mirror do together."""
import contextlib
import os
import signal
import subprocess
import time
import unittest

from kit import InFolder, Relay, change, client, wait_until

from railburnet import frames

COMMAND = """#!/bin/bash
echo "begun $(date +%s%N)" >> "$LOG"
for path; do printf 'path %s\\0' "$path" >> "$LOG"; done
if [ -n "$STDIN" ]; then tr '\\0' '\\n' | sed 's/^/path /' | tr '\\n' '\\0' >> "$LOG"; fi
sleep "${PAUSE:-0}"
echo "ended $(date +%s%N)" >> "$LOG"
"""


class Watching(InFolder):
    def setUp(self):
        super().setUp()
        with open(self.path("command"), "w", encoding="ascii") as file:
            file.write(COMMAND)
        os.chmod(self.path("command"), 0o755)
        open(self.path("log"), "w", encoding="ascii").close()

    def watch(self, port, *words, before=(), **more):
        environment = {**os.environ, "LOG": self.path("log"), **more}
        at = words.index("--") if "--" in words else len(words)
        words = [
            *client("watch"),
            "--port",
            str(port),
            *words[:at],
            "--",
            self.path("command"),
            *words[at + 1 :],
        ]
        process = self.started([*before, *words], env=environment, start_new_session=True)
        self.assertTrue(wait_until(lambda: b"watching" in self.text("stderr")), self.text("stderr"))
        return process

    def runs(self, count):
        """Waits for so many whole runs: of each its times and paths."""
        self.assertTrue(
            wait_until(lambda: self.text("log").count(b"ended ") >= count),
            self.text("log") + self.text("stderr"),
        )
        runs = []
        for text in self.text("log").split(b"begun ")[1:]:
            begun, _, rest = text.partition(b"\n")
            paths, ended, at = rest.rpartition(b"ended ")
            if ended:
                runs.append((int(begun), int(at), [path[5:] for path in paths.split(b"\0")[:-1]]))
        return runs

    def test_changes(self):
        port, server = self.server(b"mount empty 7 1000000\nwrite d/old plain 1\n")
        self.watch(port, "d/**", "--", "word")
        self.lines(
            server,
            b"write d/a plain 1",
            b"write other plain 1",
            b"write d/b\\sc plain 2",
            b"remove d/old",
        )
        self.assertEqual(self.runs(1)[0][2], [b"word", b"d/a", b"d/b c", b"d/old"])
        self.lines(server, b"rename d/a d/z")
        self.assertEqual(self.runs(2)[1][2], [b"word", b"d/a", b"d/z"])
        self.assertIn(b"watch: 2 paths changed: d/a, d/z; running ", self.text("stderr"))

    def test_waiting(self):
        """The mount is asked once and waits, for what the patterns admit."""
        port, server = self.server(b"mount empty 7 1000000\n")
        with Relay(port) as relay:
            self.watch(relay.port, "d/*")
            self.lines(server, *(b"write f%d plain 1" % n for n in range(100)))
            time.sleep(1)
            self.assertLessEqual(len(relay.tags), 2)
            self.lines(server, b"write d/a plain 1")
            self.assertEqual(self.runs(1)[0][2], [b"d/a"])
            self.assertLess(len(relay.tags), 10)

    def test_what_is_excluded(self):
        """It runs nothing, wherever it is, and the mount isn't asked again for it."""
        port, server = self.server(b"mount empty 7 1000000\nwrite d/x.o plain 1\n")
        with Relay(port) as relay:
            self.watch(relay.port, "!**/*.o", "d/**")
            self.assertIn(b"watching 0 paths", self.text("stderr"))
            self.lines(server, *(b"write d/f%d.o plain 1" % n for n in range(100)))
            time.sleep(1)
            self.assertEqual(relay.tags[0], frames.EXCLUSIONS_TAG)
            self.assertLessEqual(len(relay.tags), 2)
            self.lines(server, b"write d/x.o plain 2", b"write d/a plain 1", b"write b plain 1")
            self.assertEqual(self.runs(1)[0][2], [b"d/a"])

    def test_a_mount_that_knows_no_exclusions(self):
        port, _ = self.server(b"mount empty 7 1000000\n")
        with Relay(port, refused=[frames.EXCLUSIONS_TAG]) as relay:
            self.started([*client("watch"), "--port", str(relay.port), "!a", "--", "true"])
            said = (
                b"watch: the mount ended the connection "
                b"(the mount may be too old for patterns with `!`); trying again\n"
            )
            self.assertTrue(wait_until(lambda: self.text("stderr") == said), self.text("stderr"))

    def test_a_mount_that_cannot_wait(self):
        port, server = self.server(b"mount empty 7 1000000\n")
        with Relay(port, refused=[frames.PATIENCE_TAG]) as relay:
            self.watch(relay.port, "d/*")
            self.lines(server, b"write d/a plain 1")
            self.assertEqual(self.runs(1)[0][2], [b"d/a"])
            self.lines(server, b"write d/b plain 1")
            self.assertEqual(self.runs(2)[1][2], [b"d/b"])
            self.assertEqual(relay.tags.count(frames.PATIENCE_TAG), 2)
        self.assertNotIn(b"trying again", self.text("stderr"))

    def test_a_moved_directory(self):
        port, server = self.server(
            b"mount empty 7 1000000\nwrite d/x.c plain 1\nwrite d/x.h plain 1\n"
        )
        self.watch(port, "**/*.c")
        self.lines(server, b"write d/y.c plain 2", b"renamedir d e")
        moved = {b"d/x.c", b"d/y.c", b"e/x.c", b"e/y.c"}
        self.assertTrue(
            wait_until(lambda: moved == {path for run in self.runs(1) for path in run[2]})
        )

    def test_never_two_at_once(self):
        port, server = self.server(b"mount empty 7 1000000\n")
        self.watch(port, "**", "--settle", "0.05", PAUSE="0.4")
        for n in range(12):
            self.lines(server, b"write f%d plain 1" % n)
            wait_until(lambda: False, 0.1)
        self.assertTrue(
            wait_until(
                lambda: {b"f%d" % n for n in range(12)}
                == {path for run in self.runs(1) for path in run[2]}
            )
        )
        runs = self.runs(2)
        self.assertLess(len(runs), 12)
        for before, after in zip(runs, runs[1:]):
            self.assertLess(before[1], after[0])

    def test_a_refused_position(self):
        port, server = self.server(
            b"mount empty 7 1000000\nwrite kept plain 1\nwrite gone plain 1\n"
        )
        self.watch(port, "*")
        self.lines(server, b"remove gone", b"write new plain 1", b"remount 8")
        self.assertEqual(self.runs(1)[0][2], [b"gone", b"kept", b"new"])
        self.assertIn(b"can't tell what changed", self.text("stderr"))
        self.lines(server, b"write kept plain 2")
        self.assertEqual(self.runs(2)[1][2], [b"kept"])

    def test_a_new_server(self):
        port, server = self.server(b"mount empty 7 1000000\nwrite a plain 1\n")
        self.watch(port, "*")
        server.kill()
        server.wait()
        self.assertTrue(wait_until(lambda: b"trying again" in self.text("stderr")))
        _, server = self.server(b"mount empty 8 1000000\nwrite b plain 1\n", port=port)
        self.assertEqual(self.runs(1)[0][2], [b"a", b"b"])

    def test_paths_of_all_kinds(self):
        port, server = self.server(b"mount empty 7 1000000\n")
        self.watch(port, "**")
        self.lines(server, b"write -rf plain 1", b"write \xff plain 1", b"write a\\nb plain 1")
        self.assertEqual(self.runs(1)[0][2], [b"./-rf", b"a\nb", b"\xff"])

    def test_many_paths(self):
        port, server = self.server(b"mount empty 7 1000000\n")
        # The smaller the stack, the fewer bytes a command line may have.
        self.watch(
            port, "**", "--settle", "1", before=["bash", "-c", 'ulimit -s 512; exec "$@"', "-"]
        )
        paths = [b"d/%0100d" % n for n in range(1500)]
        self.lines(server, *(b"write %s plain 1" % path for path in paths))
        self.assertTrue(wait_until(lambda: b"runs after" in self.text("stderr")))
        self.assertEqual(sorted(path for run in self.runs(2) for path in run[2]), paths)

    def test_paths_on_standard_input(self):
        port, server = self.server(b"mount empty 7 1000000\n")
        self.watch(port, "--null", "**", STDIN="1")
        self.lines(server, *(b"write f%04d plain 1" % n for n in range(1000)))
        self.assertTrue(
            wait_until(
                lambda: {b"f%04d" % n for n in range(1000)}
                == {path for run in self.runs(1) for path in run[2]}
            )
        )

    def test_interrupted(self):
        port, server = self.server(b"mount empty 7 1000000\n")
        watch = self.watch(port, "**", PAUSE="0.5")
        self.lines(server, b"write a plain 1")
        self.assertTrue(wait_until(lambda: b"begun" in self.text("log")))
        watch.send_signal(signal.SIGINT)
        self.assertEqual(watch.wait(120), 130)
        # It has waited for the command.
        self.assertIn(b"ended", self.text("log"))
        self.assertNotIn(b"Traceback", self.text("stderr"))

    def test_a_command_that_is_not_there(self):
        port, server = self.server(b"mount empty 7 1000000\n")
        watch = self.started(
            [*client("watch"), "--port", str(port), "--once", "**", "--", self.path("nothing")]
        )
        self.assertTrue(wait_until(lambda: b"watching" in self.text("stderr")))
        self.lines(server, b"write a plain 1")
        self.assertEqual(watch.wait(120), 0)
        self.assertIn(b"nothing: No such file or directory", self.text("stderr"))
        self.assertIn(b"status 127", self.text("stderr"))

    def test_command_lines(self):
        for words, told, status in (
            (["--port", "1", "a[", "--", "true"], b"no pattern", 2),
            (["--port", "1", "a", "!", "--", "true"], b"no pattern: !", 2),
            (["--port", "1", "a"], b"a command is needed", 2),
            (["a", "--", "true"], b"`railburnet up` begins one, and --port or --socket names another", 3),
            (["--port", "0", "a", "--", "true"], b"--port", 2),
            (["--port", "1", "--", "true"], b"required: PATTERN", 2),
        ):
            environment = {
                name: text for name, text in os.environ.items() if name != "RAILBURNET_PORT"
            }
            done = subprocess.run(
                [*client("watch"), *words], stderr=subprocess.PIPE, env=environment, check=False
            )
            self.assertEqual(done.returncode, status)
            self.assertIn(told, done.stderr)


class Together(InFolder):
    """feed, a server, and a mirror: a directory becomes equal to another."""

    def setUp(self):
        super().setUp()
        os.makedirs(self.path("w", "d"))
        for name in ("a", "d/b"):
            with open(self.path("w", name), "w", encoding="ascii") as file:
                file.write(name)
        feeder = self.started([*client("feed"), "--empty", self.path("w")], stdout=subprocess.PIPE)
        port, _ = self.server(b"", source=feeder.stdout)
        words = ["--port", str(port), "follow", "--every", "0.02", "--into", self.path("m")]
        self.started([*client(), *words], stdout=subprocess.DEVNULL)

    def held(self, name):
        """The files below a directory, with their modes and what they hold."""
        top = os.fsencode(self.path(name))
        found = {}
        for at, folders, names in os.walk(top):
            folders[:] = [folder for folder in folders if folder != b".railburnet"]
            for full in (os.path.join(at, name) for name in names + folders):
                if os.path.islink(full):
                    found[full[len(top) :]] = os.readlink(full)
                elif not os.path.isdir(full):
                    with open(full, "rb") as file:
                        found[full[len(top) :]] = (os.stat(full).st_mode & 0o100, file.read())
        return found

    def equal(self):
        """Waits until the mirror holds what the directory does."""

        def holds():
            # The mirror may be at work in between.
            with contextlib.suppress(FileNotFoundError, NotADirectoryError):
                return self.held("w") == self.held("m")
            return False

        self.assertTrue(wait_until(holds), self.text("stderr"))

    def test_a_directory_to_a_directory(self):
        self.equal()
        os.rename(self.path("w", "d"), self.path("w", "e"))
        os.symlink("e", self.path("w", "d"))
        os.unlink(self.path("w", "a"))
        os.mkdir(self.path("w", "a"))
        for n in range(500):
            with open(self.path("w", "a", str(n)), "w", encoding="ascii") as file:
                file.write(str(n))
        self.equal()

    def test_many_changes(self):
        for seed in range(20):
            change(self.path("w"), seed, 60)
            self.equal()


if __name__ == "__main__":
    unittest.main()
