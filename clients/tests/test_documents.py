"""The commands of README.md and docs/, run as they are there."""
from __future__ import annotations

import os
import re
import shutil
import subprocess
import unittest
from typing import List

from kit import CLIENTS, HERE, InFolder, wait_until

ROOT = os.path.dirname(CLIENTS)
EDEND = os.environ.get("EDEND")
FOLLOW = os.path.join(os.path.dirname(EDEND), "follow") if EDEND else ""


def commands_of(document: str) -> List[str]:
    """Returns the commands of a document, in its order."""
    with open(os.path.join(ROOT, document), encoding="utf-8") as file:
        return re.findall(r"^    \$ (.*?) *(?:    # .*| # .*)?$", file.read(), re.MULTILINE)


def command_of(document: str, begin: str) -> str:
    """Returns the first command of a document that begins so."""
    return next(it for it in commands_of(document) if it.startswith(begin))


def text_of(name: str) -> str:
    """Returns the text of a file, or none if there is no file."""
    try:
        with open(name, encoding="utf-8") as file:
            return file.read()
    except FileNotFoundError:
        return ""


@unittest.skipUnless(shutil.which("git"), "no git here")
class Documents(InFolder):
    """A checkout `REPOSITORY` of two commits, and a shell with the programs on its path."""

    def setUp(self) -> None:
        super().setUp()
        self.top = self.path("REPOSITORY")
        for name in ("src/main.c", "crates/eden_ids/lib.rt", "CHANGELOG.md", "CONTRIBUTING.md"):
            self.write(name, f"{name}\n")
        self.git("init", "-q")
        self.commit("one")
        self.write("README.md", "one\n")
        self.commit("two")
        os.mkdir(self.path("bin"))
        os.symlink(EDEND or os.path.join(HERE, "stand_in.py"), self.path("bin", "edend"))
        if os.path.exists(FOLLOW):
            os.symlink(FOLLOW, self.path("bin", "follow"))
        os.symlink(os.path.join(ROOT, "tests-with-git"), self.path("tests-with-git"))
        self.environment = {
            **os.environ,
            "EDEND": self.path("bin", "edend"),
            "PATH": ":".join((self.path("bin"), CLIENTS, os.environ["PATH"])),
        }
        self.environment.pop("RAILBURNET_PORT", None)

    def tearDown(self) -> None:
        self.shell("railburnet down --all")
        super().tearDown()

    def write(self, name: str, text: str) -> None:
        path = os.path.join(self.top, name)
        os.makedirs(os.path.dirname(path), exist_ok=True)
        with open(path, "w", encoding="utf-8") as file:
            file.write(text)

    def git(self, *words: str) -> str:
        names = ("-c", "user.name=a", "-c", "user.email=a@a")
        done = ["git", "-C", self.top, *names, *words]
        return subprocess.run(done, stdout=subprocess.PIPE, check=True).stdout.decode().strip()

    def commit(self, message: str) -> None:
        self.git("add", "-A")
        self.git("commit", "-q", "-m", message)

    def shell(self, command: str, at: str = "") -> str:
        """Runs a command of a document, and returns what it printed."""
        done = subprocess.run(
            ["bash", "-c", command],
            cwd=at or self.top,
            env=self.environment,
            stdin=subprocess.DEVNULL,
            stdout=subprocess.PIPE,
            stderr=subprocess.STDOUT,
            check=False,
        )
        text = done.stdout.decode()
        self.assertEqual(done.returncode, 0, f"{command}: {text}")
        return text

    def runs(self, command: str) -> subprocess.Popen[bytes]:
        """Starts a command of a document that goes on."""
        words = ["bash", "-c", f"exec {command}"]
        how = {"env": self.environment, "stdin": subprocess.DEVNULL, "stdout": subprocess.PIPE}
        return self.started(words, cwd=self.top, **how)

    def watches(self, command: str) -> None:
        """Runs a `watch` of a document until README.md is saved and the command has ended."""
        watch = self.runs(command)
        self.assertTrue(wait_until(lambda: b"watch: watching" in self.text("stderr")))
        self.write("README.md", "two words\n")
        said = b"watch: 1 path changed: README.md; running wc -c\n"
        self.assertTrue(wait_until(lambda: said in self.text("stderr")), self.text("stderr"))
        self.assertEqual(watch.stdout.readline(), b"10 README.md\n")
        ended = b"watch: ended with status 0 after "
        self.assertTrue(wait_until(lambda: ended in self.text("stderr")), self.text("stderr"))

    def test_readme(self) -> None:
        up, watch = (command_of("README.md", f"railburnet {it}") for it in ("up", "watch"))
        self.assertRegex(self.shell(up), r"\Aup: \S+ at socket \S+, 5 files, \d+\.\d s\n\Z")
        self.watches(watch)

    def test_clients(self) -> None:
        up, status, sync, listing, since, watch = (
            command_of("docs/clients.md", f"railburnet {it}")
            for it in ("up", "status", "sync", "list '*", "since", "watch 'crates")
        )
        self.assertRegex(self.shell(up), r"\Aup: \S+ at socket \S+, 5 files, \d+\.\d s\n\Z")
        at, head = rf"at (\d+ )(\d+)", self.git("rev-parse", "HEAD")
        self.assertRegex(self.shell(status), rf"\A\S+ at socket \S+\n  {at}, 5 files\n  memory: ")
        self.write("README.md", "more\n")
        self.shell("railburnet sync")
        names = "CHANGELOG.md\nCONTRIBUTING.md\nREADME.md\n"
        listed = re.fullmatch(rf"{at} {head}\nfiles 3\n{names}", self.shell(listing))
        self.assertIsNotNone(listed)
        before = listed[1] + str(int(listed[2]) - 1)
        text = f"changes 1 to {listed[1]}{listed[2]} {head}\nChanged README.md\n"
        self.assertEqual(self.shell(re.sub(r"\d+ \d+$", before, since)), text)
        self.assertIn(text, self.shell(re.sub(r"\d+ \d+$", before, sync)))
        self.watches(watch)

    @unittest.skipUnless(shutil.which("make"), "no make here")
    def test_five_minutes(self) -> None:
        """The first commands of docs/clients.md: `make` runs on a save, and a copy follows."""
        self.write("Makefile", "all:\n\tcp src/main.c made\n")
        up, watch, follow = (
            command_of("docs/clients.md", f"railburnet {it}")
            for it in ("up", "watch --null", "follow --into")
        )
        self.shell(up)
        copy = self.path("copy")
        self.runs(follow.replace("/tmp/copy", copy))
        self.assertTrue(wait_until(lambda: os.path.exists(os.path.join(copy, "src/main.c"))))
        self.runs(watch)
        self.assertTrue(wait_until(lambda: b"watch: watching" in self.text("stderr")))
        self.write("src/main.c", "saved\n")
        for made in (os.path.join(self.top, "made"), os.path.join(copy, "src/main.c")):
            self.assertTrue(wait_until(lambda made=made: text_of(made) == "saved\n"), made)

    @unittest.skipUnless(shutil.which("make"), "no make here")
    def test_exclusions(self) -> None:
        """`make` runs on a save of a source, and not on what it makes, nor on what is excluded."""
        up, listing, watch = (
            command_of("docs/clients.md", f"railburnet {it}")
            for it in ("up", "list '!", "watch --null '!")
        )
        self.write("Makefile", "all:\n\tmkdir -p dist && cp src/main.c dist/made\n")
        self.shell(up)
        listed = self.shell(listing).split("\n")[1:]
        self.assertEqual(listed, ["files 2", "CHANGELOG.md", "CONTRIBUTING.md", ""])
        self.runs(watch)
        self.assertTrue(wait_until(lambda: b"watch: watching 6 paths" in self.text("stderr")))
        made = os.path.join(self.top, "dist", "made")
        for count, text in enumerate(("one\n", "two\n"), 1):
            self.write("d/node_modules/x", text)
            self.write("src/main.c", text)
            self.assertTrue(wait_until(lambda text=text: text_of(made) == text))
            ended = b"watch: ended with status 0"
            self.assertTrue(wait_until(lambda count=count: self.text("stderr").count(ended) == count))
        self.assertEqual(self.text("stderr").count(b"1 path changed: src/main.c;"), 2)

    def test_git(self) -> None:
        up = command_of("docs/clients.md", "railburnet up")
        setup, undo, down = (it for it in commands_of("docs/git.md") if it.startswith("railburnet"))
        self.shell(up)
        self.assertIn("set: core.fsmonitor = ", self.shell(setup))
        self.write("README.md", "more\n")
        self.assertEqual(self.git("status", "--short"), "M README.md")
        self.assertIn("unset: core.fsmonitor", self.shell(undo))
        self.shell(down)
        self.assertIn("no mount", self.shell("! railburnet status"))

    def test_watchman(self) -> None:
        serve, export = commands_of("docs/watchman.md")
        server = self.runs(serve[: -len(" &")])
        socket = self.path("state", "watchman", "sock")
        self.assertEqual(server.stdout.readline().decode(), f"watchman: serving {socket}\n")
        printed = export.replace("~/.local/state/railburnet", self.path("state"))
        self.assertEqual(server.stdout.readline().decode(), f"{printed}\n")

    @unittest.skipUnless(EDEND, "EDEND names no program that runs scripts")
    def test_scripts(self) -> None:
        commands = [it for it in commands_of("docs/script.md") if "REPOSITORY" in it or "batch" in it]
        printed = self.shell("\n".join(commands), self.folder)
        head = self.git("rev-parse", "HEAD")[:32]
        self.assertIn(f"at 7 1 {head}\n", printed)
        self.assertIn("files 5\n", printed)

    @unittest.skipUnless(EDEND, "EDEND names no program that runs scripts")
    def test_a_repository_of_your_own(self) -> None:
        commands = [it for it in commands_of("docs/sessions.md") if "40711" not in it]
        printed = self.shell("\n".join(commands), self.folder)
        one, two = (self.git("rev-parse", it)[:32] for it in ("HEAD~1", "HEAD"))
        at = f"at 7 1 {one}\nat 7 2 {two}\nconflicts 0\n"
        self.assertEqual(printed, f"{at}changes 1 to 7 2 {two}\nRoot README.md\n")

    @unittest.skipUnless(os.path.exists(FOLLOW), "beside EDEND is no program follow")
    def test_two_terminals(self) -> None:
        sessions = (it for it in commands_of("docs/sessions.md") if "40711" in it)
        serve, first, second, third = sessions
        how = {"env": self.environment, "stdin": subprocess.PIPE, "stdout": subprocess.PIPE}
        daemon = self.started(["bash", "-c", f"exec {serve}"], **how)
        self.lines(daemon, b"mount empty 7 1000", b"write a plain 1", b"listen")
        printed = [daemon.stdout.readline() for _ in range(3)]
        self.assertEqual(printed, [b"at 7 1 empty\n", b"at 7 2 empty\n", b"listening 40711\n"])
        placed = f"placed 7 2 {'0' * 40}\nfiles 1\nplain 1 a\n"
        self.assertEqual(self.shell(first), placed)
        self.lines(daemon, b"write b exec 22")
        placed = f"placed 7 3 {'0' * 40}\nfiles 1\nexec 2 b\n"
        self.assertTrue(wait_until(lambda: self.shell(second) == placed))
        self.assertEqual(self.shell(third), f"placed 7 3 {'0' * 40}\nfiles 1\nplain 1 a\n")
        daemon.stdin.close()
        self.assertEqual(daemon.wait(120), 0)


if __name__ == "__main__":
    unittest.main()
