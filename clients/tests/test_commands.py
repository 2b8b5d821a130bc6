"""The command line: options before and after a subcommand, what messages name, and mounts that
are silent."""
import email
import os
import re
import socket
import subprocess
import sys
import tempfile
import unittest

from kit import CLIENTS, InFolder, Relay, client, wait_until

from railburnet import Client, ConnectionLost, Position, control, frames
from railburnet.cli import COMMANDS

sys.path.insert(0, os.path.join(CLIENTS, "packaging"))
SCRIPT = b"mount empty 7 1000000\nwrite src/a plain 1\nwrite src/d/b plain 2\nwrite c plain 3\n"


class Lines(InFolder):
    def run_it(self, *words, **how):
        environment = {name: text for name, text in os.environ.items() if name != "RAILBURNET_PORT"}
        environment.update(how.pop("environment", {}))
        done = subprocess.run(
            client(*words),
            stdout=how.pop("stdout", subprocess.PIPE),
            stderr=subprocess.PIPE,
            cwd=self.folder,
            env=environment,
            check=False,
            timeout=60,
            **how,
        )
        self.assertNotIn(b"Traceback", done.stderr)
        return done.returncode, (done.stdout or b"").decode(), done.stderr.decode()

    def test_options_before_and_after(self):
        port, _ = self.server(SCRIPT)
        wanted = (0, "at 7 4 " + "0" * 40 + "\nfiles 1\nc\n", "")
        for words in (
            ["--port", str(port), "list", "c"],
            ["list", "--port", str(port), "c"],
            ["list", "c", "--port", str(port)],
            [f"--port={port}", "--host", "127.0.0.1", "list", "c"],
        ):
            self.assertEqual(self.run_it(*words), wanted, words)
        self.assertEqual(
            self.run_it("list", "c", environment={"RAILBURNET_PORT": str(port)}), wanted
        )
        # A port of the command line is the one that counts.
        self.assertEqual(
            self.run_it("list", "c", "--port", str(port), environment={"RAILBURNET_PORT": "1"}),
            wanted,
        )
        as_module = [sys.executable, "-m", "railburnet", "--port", str(port), "list", "c"]
        done = subprocess.run(
            as_module, cwd=os.path.join(CLIENTS, "python"), stdout=subprocess.PIPE, check=True
        )
        self.assertEqual(done.stdout.decode(), wanted[1])

    def test_stat(self):
        port, _ = self.server(SCRIPT)
        # As `printf 1 | git hash-object --stdin` has it.
        one = "56a6051ca2b02b04ef92d5150c9ef600403cb1de"
        status, printed, said = self.run_it("--port", str(port), "stat", "./src/a", "none")
        self.assertEqual((status, printed), (1, f"plain 1 {one} src/a\n"))
        self.assertIn("no file at none", said)
        self.assertEqual(self.run_it("--port", str(port), "stat", "/a")[0], 2)

    def test_dirty(self):
        port, _ = self.server(SCRIPT)
        status, printed, _ = self.run_it("--port", str(port), "dirty", "src/*", "c")
        lines = printed.splitlines()
        self.assertEqual((status, lines[1:]), (0, ["dirty 2", "Created c", "Created src/a"]))
        self.assertTrue(lines[0].startswith("at 7 "))
        status, printed, _ = self.run_it("--port", str(port), "dirty", "--null", "!src/**")
        self.assertEqual((status, printed), (0, "c\0"))

    def test_patterns_that_begin_here(self):
        port, _ = self.server(SCRIPT)
        for patterns, files in (
            (["./src/**"], ["src/a", "src/d/b"]),
            (["././src/*"], ["src/a"]),
            (["./c", "src/*"], ["c", "src/a"]),
            (["."], ["c", "src/a", "src/d/b"]),
            ([".//c"], ["c"]),
        ):
            status, printed, _ = self.run_it("--port", str(port), "list", "--null", *patterns)
            self.assertEqual((status, printed.split("\0")[:-1]), (0, files))
        self.assertEqual(self.run_it("--port", str(port), "cat", "./src/a")[:2], (0, "1"))

    def test_patterns_that_exclude(self):
        port, _ = self.server(SCRIPT + b"write !x plain 4\n")
        for patterns, files in (
            (["!src/**"], ["!x", "c"]),
            (["!./src/**"], ["!x", "c"]),
            (["src/**", "!src/d/**"], ["src/a"]),
            (["!src/d/**", "src/**"], ["src/a"]),
            (["!c", "!src/*"], ["!x", "src/d/b"]),
            (["!."], []),
            (["\\!x"], ["!x"]),
            (["!\\!x", "!c"], ["src/a", "src/d/b"]),
        ):
            for words in (["list", "--null"], ["since", "--null", "7", "1"]):
                status, printed, _ = self.run_it("--port", str(port), *words, *patterns)
                self.assertEqual((status, printed.split("\0")[:-1]), (0, files), (words, patterns))
        # What isn't a pattern keeps its `!`.
        self.assertEqual(self.run_it("--port", str(port), "cat", "!x")[:2], (0, "4"))

    def test_a_mount_that_knows_no_exclusions(self):
        port, _ = self.server(SCRIPT)
        with Relay(port, refused=[frames.EXCLUSIONS_TAG]) as relay:
            self.assertEqual(
                self.run_it("--port", str(relay.port), "list", "!c"),
                (
                    3,
                    "",
                    "railburnet: the mount ended the connection (the mount may be too old for "
                    "patterns with `!`)\n",
                ),
            )
            status, printed, _ = self.run_it("--port", str(relay.port), "list", "--null", "c")
            self.assertEqual((status, printed), (0, "c\0"))

    def test_what_messages_name(self):
        port, _ = self.server(SCRIPT)
        at = ["--port", str(port)]
        for words, status, said in (
            (
                [],
                2,
                "a command is missing: up, down, status, sync, list, since, dirty, stat, cat, "
                "follow, watch, watchman, objects, feed, git-setup, git-fsmonitor",
            ),
            (["lst"], 2, "no command 'lst'; is 'list' meant?"),
            (["--port", "x", "list"], 2, "'x' is not a port from 1 to 65535"),
            (["list", "--port", "65536"], 2, "'65536' is not a port from 1 to 65535"),
            ([*at, "since", "7"], 2, "the following arguments are required: SEQUENCE\n"),
            ([*at, "since"], 2, "the following arguments are required: GENERATION, SEQUENCE\n"),
            ([*at, "since", "7", "-1"], 2, ""),
            ([*at, "since", "a", "1"], 2, "'a' is not a number from 0 to 18446744073709551615"),
            ([*at, "since", "7", str(2**64)], 2, "is not a number from 0 to"),
            ([*at, "since", "7", "9"], 1, "refused: AHEAD 4\n"),
            ([*at, "list", "/src"], 2, "no pattern: /src\n"),
            ([*at, "list", ""], 2, "no pattern: an empty word\n"),
            ([*at, "list", *"a" * 33], 2, "more than 32 patterns\n"),
            ([*at, "list", "a", "!"], 2, "no pattern: !\n"),
            ([*at, "list", "!/src"], 2, "no pattern: !/src\n"),
            ([*at, "list", *["!a"] * 33], 2, "more than 32 patterns with `!`\n"),
            ([*at, "cat", "../x"], 2, "no path of a mount, BadComponent: ../x\n"),
            ([*at, "cat", "x"], 1, "no file at x\n"),
            ([*at, "list", "-C", "."], 2, "--port and --root both name a mount"),
            ([*at, "objects", ".", "HEAD"], 2, "objects takes no --port"),
            ([*at, "watch", "a"], 2, "a command is needed"),
            ([*at, "follow", "--every", "x"], 2, "'x' is not a number of seconds"),
            (
                ["list"],
                3,
                "no mount of "
                + os.path.realpath(self.folder)
                + " or of a directory above it; `railburnet up` begins one",
            ),
            (["--port", "1", "list"], 3, "no connection to 127.0.0.1 port 1: Connection refused\n"),
            (["sync", *at], 3, f"no mount of this machine is at port {port}\n"),
            (["status"], 1, "no mount; `railburnet up` begins one"),
        ):
            came = self.run_it(*words)
            self.assertEqual((came[0], came[1]), (status, ""), (words, came))
            self.assertIn(said, came[2], words)
        self.assertEqual(self.run_it("list", environment={"RAILBURNET_PORT": "x"})[0], 2)

    def test_output_that_cannot_be_written(self):
        port, _ = self.server(SCRIPT)
        repository = self.path("r")
        for words in (
            ["init", "-q", repository],
            [
                "-C",
                repository,
                "-c",
                "user.name=a",
                "-c",
                "user.email=a@a",
                "commit",
                "-q",
                "--allow-empty",
                "-m",
                "m",
            ],
        ):
            subprocess.run(["git", *words], check=True)
        for words in (["list"], ["cat", "c"], ["since", "7", "1"], ["follow", "--once"]):
            with open("/dev/full", "wb") as full:
                self.assertEqual(
                    self.run_it("--port", str(port), *words, stdout=full),
                    (
                        3,
                        "",
                        "railburnet: standard output can't be written: No space left on device\n",
                    ),
                    words,
                )
        with open("/dev/full", "wb") as full:
            self.assertEqual(
                self.run_it("objects", repository, "HEAD", stdout=full),
                (3, "", "railburnet: standard output can't be written: No space left on device\n"),
            )
        read, write = os.pipe()
        os.close(read)
        with open(write, "wb") as nobody:
            self.assertEqual(self.run_it("--port", str(port), "list", stdout=nobody), (3, "", ""))

    def test_a_file_in_the_place_of_the_copy(self):
        port, _ = self.server(SCRIPT)
        with open(self.path("file"), "w", encoding="ascii"):
            pass
        came = self.run_it("--port", str(port), "follow", "--into", "file")
        self.assertEqual(came[0], 2)
        self.assertIn("--into file: that is a file, not a directory", came[2])

    def test_help(self):
        for name in ("", *COMMANDS):
            status, printed, _ = self.run_it(*[name] if name else [], "--help")
            self.assertEqual(status, 0)
            self.assertTrue(printed.startswith("usage: railburnet"), printed)

    def test_nothing_more_than_needed_is_loaded(self):
        """`list` loads no module of another subcommand."""
        port, _ = self.server(SCRIPT)
        program = (
            "import sys; from railburnet.cli import main; main(sys.argv[1:]); "
            "print(*sys.modules, file=sys.stderr)"
        )
        environment = {**os.environ, "PYTHONPATH": os.path.join(CLIENTS, "python")}
        done = subprocess.run(
            [sys.executable, "-c", program, "--port", str(port), "list"],
            env=environment,
            stdout=subprocess.PIPE,
            stderr=subprocess.PIPE,
            check=True,
        )
        loaded = set(done.stderr.decode().split())
        self.assertIn("railburnet.commands.list", loaded)
        self.assertEqual(
            {name for name in loaded if name.startswith("railburnet.")},
            {
                f"railburnet.{name}"
                for name in (
                    "cli",
                    "client",
                    "commands",
                    "commands.list",
                    "control",
                    "frames",
                    "mirror",
                    "options",
                    "output",
                    "place",
                    "state",
                )
            },
        )


class Silence(InFolder):
    def test_a_mount_that_is_silent(self):
        """A service that takes a connection and answers nothing: it is said once, and asked on."""
        with socket.create_server(("127.0.0.1", 0)) as listener:
            port = listener.getsockname()[1]
            process = self.started(client("--port", str(port), "list"))
            said = (
                f"railburnet: connected to port {port}, no answer for 5 s: "
                "are all connections taken?\n"
            ).encode()
            self.assertTrue(
                wait_until(lambda: self.text("stderr") == said, 12), self.text("stderr")
            )
            self.assertFalse(
                wait_until(lambda: self.text("stderr") != said or process.poll() is not None, 1)
            )

    def test_once_until_an_answer_comes(self):
        said = []
        asks = Client(1, waits=said.append)
        for _ in range(3):
            asks._silent(1)
        self.assertEqual(len(said), 1)
        with self.assertRaises(ConnectionLost):
            asks.position()
        asks.close()


class Positions(InFolder):
    def test_positions(self):
        """The position is asked for without a list, whatever generation was known, and its root
        is zero."""
        port, server = self.server(SCRIPT)
        asked = []
        with Client(port) as asks:
            real = asks._ask
            asks._ask = lambda request: asked.append(request) or real(request)
            self.assertEqual(asks.position(), Position(7, 4))
            self.assertEqual(asks.position(), Position(7, 4))
            self.lines(server, b"remount 9")
            self.assertTrue(wait_until(lambda: asks.position() == Position(9, 1)))
        self.assertEqual({type(request).__name__ for request in asked}, {"Poll"})

    def test_sync_waits_for_the_mount(self):
        """What the feed says at its control socket, and a mount that comes to it later."""
        port, server = self.server(SCRIPT)
        path = self.path("control")
        with socket.socket(socket.AF_UNIX) as listener, Client(port) as asks:
            listener.bind(path)
            listener.listen()
            with self.assertRaisesRegex(control.ControlFault, "no answer for 0.1 seconds"):
                asks.sync(path, 0.1)
            listener.accept()[0].close()

            def answer(line):
                peer, _ = listener.accept()
                with peer:
                    self.assertEqual(peer.recv(100), b"sync\n")
                    peer.sendall(line)

            import concurrent.futures

            with concurrent.futures.ThreadPoolExecutor(2) as pool:
                for line, fault in (
                    (b"error unknown request\n", "refuses 'sync': unknown request"),
                    (b"at 7\n", "answers 'at 7'"),
                    (b"at 7 4", "ended before"),
                    (b"at 7 x\n", "answers"),
                ):
                    pool.submit(answer, line)
                    with self.assertRaisesRegex(control.ControlFault, fault):
                        asks.sync(path)
                pool.submit(answer, b"at 7 6\n")
                synced = pool.submit(asks.sync, path)
                self.assertFalse(wait_until(synced.done, 0.3))
                self.lines(server, b"write x plain 1", b"write y plain 1")
                self.assertEqual(synced.result(120), Position(7, 6))
                pool.submit(answer, b"at 7 9\n")
                with self.assertRaisesRegex(
                    control.ControlFault, "the mount is at 7 6, and not at 7 9 after 0.2 seconds"
                ):
                    asks.sync(path, 0.2)


class Packaging(unittest.TestCase):
    def test_a_wheel(self):
        import zipfile

        import backend

        with tempfile.TemporaryDirectory() as folder:
            first = os.path.join(folder, backend.build_wheel(folder))
            with zipfile.ZipFile(first) as wheel:
                names = set(wheel.namelist())
                record = wheel.read(f"{backend.NAME}.dist-info/RECORD").decode()
                metadata = wheel.read(f"{backend.NAME}.dist-info/METADATA").decode()
                scripts = wheel.read(f"{backend.NAME}.dist-info/entry_points.txt").decode()
            with open(first, "rb") as file:
                text = file.read()
            backend.build_wheel(folder)
            with open(first, "rb") as file:
                self.assertEqual(file.read(), text)
            with tempfile.TemporaryDirectory() as other:
                self.assertTrue(os.path.getsize(os.path.join(other, backend.build_sdist(other))))
        self.assertEqual({line.split(",")[0] for line in record.splitlines()}, names)
        fields = email.message_from_string(metadata)
        self.assertEqual((fields["Name"], fields["Requires-Python"]), ("railburnet", ">=3.9"))
        self.assertRegex(fields["Version"], r"\A[0-9]+(\.[0-9]+)*\Z")
        self.assertEqual(re.findall(r"^(\S+) =", scripts, re.M), ["railburnet"])
        for name in (
            "railburnet/cli.py",
            "railburnet/commands/watch.py",
            "railburnet/feed/__init__.py",
            f"{backend.NAME}.data/data/share/man/man1/railburnet-up.1",
        ):
            self.assertIn(name, names)

    def test_man_pages(self):
        """A page for each subcommand, with each of its options."""
        import man
        from railburnet.cli import parser_of

        pages = man.pages()
        self.assertEqual(
            set(pages), {"railburnet.1", *(f"railburnet-{name}.1" for name in COMMANDS)}
        )
        for name in COMMANDS:
            for action in parser_of(name)[0]._actions:
                for option in action.option_strings:
                    self.assertIn(option.replace("-", "\\-"), pages[f"railburnet-{name}.1"])


@unittest.skipUnless(os.path.exists("/bin/bash"), "no bash here")
class Completion(InFolder):
    def completed(self, *words, **variables):
        """What the last of some words may become."""
        script = os.path.join(CLIENTS, "packaging", "railburnet.bash")
        program = (
            f'. {script}; PATH={CLIENTS}:$PATH; COMP_WORDS=("$@"); COMP_CWORD=$(($# - 1)); '
            '_railburnet; printf "%s\\n" "${COMPREPLY[@]}"'
        )
        done = subprocess.run(
            ["bash", "-c", program, "-", "railburnet", *words],
            env={**os.environ, **variables},
            stdout=subprocess.PIPE,
            check=True,
        )
        return done.stdout.decode().split()

    def test_commands_and_options(self):
        self.assertEqual(self.completed("s"), ["status", "sync", "since", "stat"])
        self.assertEqual(self.completed("--port", "7", "fo"), ["follow"])
        self.assertEqual(self.completed("follow", "--in"), ["--into"])
        self.assertEqual(set(self.completed("")), set(COMMANDS))

    def test_files(self):
        port, _ = self.server(SCRIPT + b"write !x plain 4\n")
        for words, names in (
            (("list", "sr"), ["src/a", "src/d/b"]),
            (("list", "!sr"), ["!src/a", "!src/d/b"]),
            (("list", "!"), ["!!x", "!c", "!src/a", "!src/d/b"]),
            (("cat", "!"), ["!x"]),
        ):
            self.assertEqual(self.completed(*words, RAILBURNET_PORT=str(port)), names, words)


if __name__ == "__main__":
    unittest.main()
