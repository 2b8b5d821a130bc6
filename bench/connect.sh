#!/bin/sh
# Measures polls and a basis over sockets of this machine; beside the polls Watchman over its own socket, where it is installed, and beside the
# basis `cp -r` of as many files with as many bytes. README.md says what is measured, and how. It needs the kit and python3.
#
# usage: bench/connect.sh
set -e
most=0
. "$(dirname "$0")/begin.sh"

needs python3
build rig_connect rig_connect run
python3 - "$root/crates/rig_connect/out/rig_connect" <<'END'
import json, os, re, shutil, socket, subprocess, sys, tempfile, time

TRIES, CHANGED, POLLS = 3, (0, 100, 1_000, 10_000), 50


def rig(program):
    """The figures of the rig: of each line its name, and milliseconds."""
    said = subprocess.run([program], stdout=subprocess.DEVNULL, stderr=subprocess.PIPE, text=True, check=True).stderr
    return {name: float(time) for name, time in re.findall(r"^(.*): ([\d.]+) ms", said, re.M)}


def ask(stream, *words):
    """What Watchman answers to a command."""
    stream.write(json.dumps(words).encode() + b"\n")
    stream.flush()
    return json.loads(stream.readline())


def watchman(room):
    """The least milliseconds of a poll of Watchman over so many changed files."""
    name = json.loads(subprocess.run(["watchman", "get-sockname"], stdout=subprocess.PIPE, check=True).stdout)["sockname"]
    found = {}
    for changed in CHANGED:
        root = os.path.join(room, f"watched{changed}")
        os.mkdir(root)
        with socket.socket(socket.AF_UNIX) as it:
            it.connect(name)
            stream = it.makefile("rwb")
            ask(stream, "watch", root)
            clock = ask(stream, "clock", root, {"sync_timeout": 10_000})["clock"]
            for number in range(changed):
                with open(os.path.join(root, f"file{number:05}"), "wb") as file:
                    file.write(b"x")
            ask(stream, "clock", root, {"sync_timeout": 10_000})
            times = []
            for _ in range(POLLS):
                start = time.perf_counter()
                reply = ask(stream, "query", root, {"since": clock, "fields": ["name"], "expression": ["type", "f"], "sync_timeout": 0})
                times.append((time.perf_counter() - start) * 1_000)
            assert len(reply["files"]) == changed, reply
            found[changed] = min(times)
            ask(stream, "watch-del", root)
    return found


def copies(room):
    """Milliseconds of `cp -r` of as many files as the rig's basis has."""
    at = os.path.join(room, "files")
    for directory in range(1_000):
        os.makedirs(f"{at}/directory{directory:04}")
        for file in range(100):
            with open(f"{at}/directory{directory:04}/file{file:02}", "wb") as it:
                it.write(b"x" * 500)
    times = []
    for _ in range(TRIES):
        start = time.perf_counter()
        subprocess.run(["cp", "-r", at, os.path.join(room, "copy")], check=True)
        times.append((time.perf_counter() - start) * 1_000)
        shutil.rmtree(os.path.join(room, "copy"))
    return times


def row(name, ours, theirs):
    show = lambda times: ", ".join(f"{it:,.3f}" for it in times) or "not here"
    print(f"| {name} | {show(ours)} | {show(theirs)} |")


def main():
    with tempfile.TemporaryDirectory() as room:
        tries = [rig(sys.argv[1]) for _ in range(TRIES)]
        polls = [watchman(room) for _ in range(1)] if shutil.which("watchman") else []
        print("| milliseconds | `edend` | Watchman |\n|---|---|---|")
        for changed in CHANGED:
            row(f"poll over {changed:,} changed files", [it[f"a poll, files told of {changed}"] for it in tries], [it[changed] for it in polls])
        print("\n| milliseconds | `edend` | `cp -r` |\n|---|---|---|")
        row("100,000 files of 500 bytes", [it["a basis and its contents, files"] for it in tries], copies(room))
        print("\n| connections at once | polls a second, with a writer |\n|---|---|")
        for connections in (1, 8, 64):
            rates = [32_000_000 / it[f"polls over {connections} connections at once"] for it in tries]
            print(f"| {connections} | {', '.join(f'{it:,.0f}' for it in rates)} |")


main()
END
