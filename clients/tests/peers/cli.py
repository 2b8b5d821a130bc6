#!/usr/bin/env python3
"""The commands `watchman`, `watchman-wait` and `watchman-make` over Railburnet's server: cli.py"""
import contextlib
import json
import os
import subprocess
import sys
import time

from peer import folder, need, railburnet, tree

need("command -v watchman", "watchman")
need("command -v watchman-wait && command -v watchman-make", "watchman")


class Trial:
    """A directory, the server, and what was tried."""

    def __init__(self, at, path):
        self.top, self.path, self.tried, self.wrong = at + "/w", path, 0, 0
        self.environment = {**os.environ, "WATCHMAN_SOCK": path, "PYTHONUNBUFFERED": "1"}

    def check(self, name, true, *beside):
        self.tried += 1
        if not true:
            self.wrong += 1
            print("wrong:", name, *beside)

    def run(self, *words, given=None):
        """The command watchman with these words; its answer."""
        done = subprocess.run(
            ["watchman", "-U", self.path, "--no-spawn", *words],
            input=given,
            stdout=subprocess.PIPE,
            stderr=subprocess.PIPE,
            timeout=60,
            check=False,
        )
        try:
            return json.loads(done.stdout)
        except ValueError:
            return {"error": done.stdout + done.stderr}

    def started(self, *words):
        return subprocess.Popen(
            words,
            env=self.environment,
            cwd=self.top,
            stdout=subprocess.PIPE,
            stderr=subprocess.STDOUT,
        )

    def write(self, name, text="x"):
        with open(f"{self.top}/{name}", "a", encoding="utf-8") as file:
            file.write(text)


def commands(trial):
    """Each command of the CLI."""
    run, top = trial.run, trial.top
    trial.check("version", run("version").get("version") == "4.9.0")
    trial.check("get-sockname", run("get-sockname").get("sockname") == trial.path)
    told = run("watch-project", top + "/d1")
    trial.check(
        "watch-project", (told.get("watch"), told.get("relative_path")) == (top, "d1"), told
    )
    trial.check("watch-list", run("watch-list").get("roots") == [top])
    clock = run("clock", top).get("clock", "")
    trial.check("clock", clock.startswith("c:"))
    trial.write("new.c")
    told = run("since", top, clock, "*.c")
    trial.check("since", [row["name"] for row in told.get("files", [])] == ["new.c"], told)
    told = run("find", top, "*.c")
    trial.check("find", [row["name"] for row in told.get("files", [])] == ["new.c"], told)
    for form in ([], ["--output-encoding=bser"], ["--server-encoding=json"]):
        with contextlib.suppress(KeyError):
            told = run(
                "-j",
                *form[1:] if form[:1] == ["--output-encoding=bser"] else form,
                given=json.dumps(["query", top, {"suffix": "py", "fields": ["name"]}]).encode(),
            )
            trial.check(f"query {form}", len(told.get("files", [])) == 20, told)
    trial.check(
        "trigger",
        run("--", "trigger", top, "t", "*.c", "--", "touch", "ran").get("triggerid") == "t",
    )
    trial.check(
        "trigger-list",
        [one["name"] for one in run("trigger-list", top).get("triggers", [])] == ["t"],
    )
    end = time.monotonic() + 20
    while not os.path.exists(top + "/ran") and time.monotonic() < end:
        time.sleep(0.1)
    trial.check("the trigger runs", os.path.exists(top + "/ran"))
    trial.check("trigger-del", run("trigger-del", top, "t").get("deleted"))
    trial.check("state-enter", run("state-enter", top, "s").get("state-enter") == "s")
    told = subprocess.Popen(
        ["watchman", "-U", trial.path, "--no-spawn", "-j", "-p", "--server-encoding=json"],
        stdin=subprocess.PIPE,
        stdout=subprocess.PIPE,
    )
    told.stdin.write(
        json.dumps(
            ["subscribe", top, "x", {"fields": ["name"], "since": run("clock", top)["clock"]}]
        ).encode()
        + b"\n"
    )
    told.stdin.close()
    time.sleep(1)
    trial.write("pushed.c")
    seen = b""
    end = time.monotonic() + 20
    os.set_blocking(told.stdout.fileno(), False)
    while b"pushed.c" not in seen and time.monotonic() < end:
        time.sleep(0.1)
        seen += told.stdout.read() or b""
    trial.check("subscribe -p", b"pushed.c" in seen, seen)
    told.kill()
    told.wait()
    told.stdout.close()


def waiting(trial):
    """watchman-wait and watchman-make."""
    with trial.started(
        "watchman-wait", ".", "-m", "2", "-t", "30", "--fields", "name,size", "-p", "*.txt"
    ) as wait:
        time.sleep(4)
        trial.write("a.txt", "12345")
        time.sleep(1)
        trial.write("other.md")
        trial.write("b.txt", "1")
        printed = wait.communicate(timeout=60)[0].decode()
        trial.check(
            "watchman-wait", sorted(printed.split("\n")[:-1]) == ["a.txt 5", "b.txt 1"], printed
        )
    with trial.started("watchman-wait", "d2", "-m", "1", "-t", "30") as wait:
        time.sleep(4)
        trial.write("d2/e2/below.c")
        printed = wait.communicate(timeout=60)[0].decode()
        trial.check("watchman-wait of a directory below", "e2/below.c" in printed, printed)
    with trial.started(
        "watchman-make", "-p", "*.mk", "-s", "0.2", "--make", "touch", "-t", "made"
    ) as make:
        time.sleep(4)
        trial.write("x.mk")
        end = time.monotonic() + 30
        while not os.path.exists(trial.top + "/made") and time.monotonic() < end:
            time.sleep(0.1)
        make.terminate()
        printed = make.communicate(timeout=60)[0]
        trial.check("watchman-make", os.path.exists(trial.top + "/made"), printed)


def main():
    with folder() as at:
        os.makedirs(at + "/w/.git")
        tree(at + "/w", 60)
        with railburnet(at) as (path, _):
            trial = Trial(at, path)
            commands(trial)
            waiting(trial)
            trial.check("watch-del", trial.run("watch-del", trial.top).get("watch-del"))
            trial.check("watch-list after it", trial.run("watch-list").get("roots") == [])
    print(f"watchman, watchman-wait, watchman-make: {trial.tried} tried, {trial.wrong} wrong")
    return trial.wrong != 0


if __name__ == "__main__":
    sys.exit(main())
