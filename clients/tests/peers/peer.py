"""What the trials with real clients share: servers in folders of their own, and packages of
Debian."""
import contextlib
import glob
import json
import os
import shutil
import signal
import socket
import subprocess
import sys
import tempfile
import time

HERE = os.path.dirname(os.path.realpath(__file__))
RAILBURNET = os.path.join(os.path.dirname(os.path.dirname(HERE)), "railburnet")
PYTHON = "/usr/bin/python3"
"""Debian's, which has Debian's modules."""
SAMPLE = "/usr/share/git-core/templates/hooks/fsmonitor-watchman.sample"
"""The hook that comes with Git, which runs the command `watchman`."""


def _runs(*words):
    """Returns whether a command ends well. What it prints is lost."""
    with contextlib.suppress(OSError):
        ran = subprocess.run(
            words, stdout=subprocess.DEVNULL, stderr=subprocess.DEVNULL, check=False
        )
        return ran.returncode == 0
    return False


def need(command, package):
    """Installs what isn't here, or ends the trial."""
    install = ("apt-get", "install", "-y", "--no-install-recommends", package)
    # A new machine knows no packages before the update.
    if (
        _runs("sh", "-c", command)
        or (_runs(*install) and _runs("sh", "-c", command))
        or (_runs("apt-get", "update") and _runs(*install) and _runs("sh", "-c", command))
    ):
        return
    print(f"{os.path.basename(sys.argv[0])}: not run: no {package}")
    sys.exit(0)


@contextlib.contextmanager
def folder():
    """A folder that is gone afterwards."""
    made = os.path.realpath(tempfile.mkdtemp(prefix="railburnet-peer-"))
    try:
        yield made
    finally:
        shutil.rmtree(made, ignore_errors=True)


@contextlib.contextmanager
def railburnet(at, *words):
    """The server of Railburnet: its socket, and its process."""
    environment = {**os.environ, "RAILBURNET_STATE": os.path.join(at, "state")}
    with open(os.path.join(at, "railburnet.log"), "wb") as log:
        server = subprocess.Popen(
            [sys.executable, RAILBURNET, "watchman", *words],
            stdout=subprocess.PIPE,
            stderr=log,
            env=environment,
        )
    try:
        line = server.stdout.readline().decode()
        assert line.startswith("watchman: serving "), open(
            os.path.join(at, "railburnet.log"), encoding="utf-8"
        ).read()
        yield line[len("watchman: serving ") :].strip(), server
    except BaseException:
        for log in ("railburnet.log", *glob.glob(os.path.join(at, "state", "*-watchman", "log"))):
            with open(os.path.join(at, log), encoding="utf-8", errors="replace") as file:
                print(f"{log}: {file.read()[-2000:]}", file=sys.stderr)
        raise
    finally:
        server.terminate()
        server.wait(60)
        server.stdout.close()


@contextlib.contextmanager
def watchman(at):
    """A server of the real Watchman: its socket, and its process."""
    need("command -v watchman", "watchman")
    path = os.path.join(at, "watchman")
    server = subprocess.Popen(
        [
            "watchman",
            "--foreground",
            f"--sockname={path}.sock",
            f"--statefile={path}.state",
            f"--logfile={path}.log",
            f"--pidfile={path}.pid",
            "--no-save-state",
        ],
        stdout=subprocess.DEVNULL,
        stderr=subprocess.DEVNULL,
    )
    try:
        end = time.monotonic() + 20
        while not os.path.exists(f"{path}.sock") and time.monotonic() < end:
            time.sleep(0.05)
        yield f"{path}.sock", server
    finally:
        server.terminate()
        server.wait(60)


class Peer:
    """A connection in JSON."""

    def __init__(self, path, seconds=60):
        self.socket = socket.socket(socket.AF_UNIX)
        self.socket.settimeout(seconds)
        self.socket.connect(path)
        self._lines = self.socket.makefile("rb")
        self.pushes = []

    def ask(self, *words):
        """The answer to a command; pushes before it are kept."""
        self.socket.sendall(json.dumps(words).encode() + b"\n")
        while True:
            told = self.next()
            if not told.get("unilateral"):
                return told
            self.pushes.append(told)

    def next(self):
        """The next message."""
        line = self._lines.readline()
        assert line, "the server ended the connection"
        return json.loads(line)


def mounts(at):
    """What is noted of the mounts of the server."""
    noted = []
    for path in glob.glob(f"{at}/state/*-watchman/mount.json"):
        with open(path, encoding="utf-8") as file:
            noted.append(json.load(file))
    return noted


def kill(at, chance):
    """Kills the feed or the daemon of the server's mounts."""
    for mount in mounts(at):
        with contextlib.suppress(ProcessLookupError):
            os.kill(mount[chance.choice(("feed", "edend"))]["id"], signal.SIGKILL)


def files_of(top, without=(".git", ".hg", ".svn")):
    """All files of a directory."""
    found = []
    for at, folders, files in os.walk(top):
        folders[:] = [
            name
            for name in folders
            if name not in without and not os.path.islink(os.path.join(at, name))
        ]
        found += [os.path.join(at, name) for name in files]
    return sorted(found)


def folders_of(top, without=(".git", ".hg", ".svn")):
    """All directories of a directory, without itself."""
    return sorted(
        at
        for at, _, _ in os.walk(top)
        if at != top and not set(os.path.relpath(at, top).split(os.sep)) & set(without)
    )


def step(top, chance, name, replaces=True):
    """One random change of the files of a directory, of which some replace a file by a link."""
    files, folders = files_of(top), folders_of(top)
    kind = chance.randrange(8)
    if kind == 5 or not files:
        os.makedirs(f"{top}/k{name}/l")
        with open(f"{top}/k{name}/l/m.py", "w", encoding="utf-8") as file:
            file.write("1")
        return
    one = chance.choice(files)
    if kind < 2 and not os.path.islink(one):
        with open(one, "a", encoding="utf-8") as file:
            file.write("x")
    elif kind == 2:
        os.unlink(one)
    elif kind == 3:
        os.rename(one, f"{chance.choice(folders or [top])}/n{name}.c")
    elif kind == 4 and folders:
        os.rename(chance.choice(folders), f"{top}/m{name}")
    elif kind == 6 and replaces:
        os.unlink(one)
        os.symlink("x", one)
    elif len(files) > 150 and folders:
        shutil.rmtree(chance.choice(folders))


def tree(top, files):
    """Makes a directory of files."""
    for number in range(files):
        at = f"{top}/d{number % 9}/e{number % 4}"
        os.makedirs(at, exist_ok=True)
        with open(f"{at}/f{number}.{('c', 'h', 'py')[number % 3]}", "w", encoding="utf-8") as file:
            file.write(str(number))


def number(at, otherwise):
    """A number of the command line."""
    return int(sys.argv[at]) if len(sys.argv) > at else otherwise
