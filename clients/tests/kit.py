"""What the tests of the clients share."""
import contextlib
import os
import random
import shutil
import signal
import socket
import subprocess
import sys
import tempfile
import threading
import time
import unittest

HERE = os.path.dirname(os.path.realpath(__file__))
CLIENTS = os.path.dirname(HERE)
sys.path.insert(0, os.path.join(CLIENTS, "python"))
# A shell that runs the tests in the background has them ignore interrupts, and what they start
# would ignore them too.
signal.signal(signal.SIGINT, signal.default_int_handler)


def free_port():
    """A port that nobody listens on."""
    with socket.create_server(("127.0.0.1", 0)) as server:
        return server.getsockname()[1]


def client(*words):
    """The command `railburnet` with these words, as a command line."""
    return [sys.executable, os.path.join(CLIENTS, "railburnet"), *words]


def writable_edend():
    """The edend that EDEND names, if its mounts can be changed over their sockets; else nothing."""
    named = os.environ.get("EDEND")
    if not named:
        return None
    done = subprocess.run(
        [named, "serve", "--help"],
        stdin=subprocess.DEVNULL,
        stdout=subprocess.PIPE,
        stderr=subprocess.STDOUT,
        check=False,
    )
    return named if b"--writable" in done.stdout else None


def wait_until(true, seconds=120.0):
    """Waits until something holds, and returns whether it does. A busy machine takes long."""
    end = time.monotonic() + seconds
    while not true():
        if time.monotonic() > end:
            return False
        time.sleep(0.02)
    return True


def change(top, seed, count):
    """Random changes of a directory."""
    chance = random.Random(seed)
    names = ["a", "b", "c d", "\n", "é"]

    def path():
        return os.path.join(
            top, *(chance.choice(names) for _ in range(chance.choice((1, 2, 2, 3))))
        )

    for _ in range(count):
        with contextlib.suppress(OSError):
            change_one(chance.randrange(10), path(), path(), b"%d " % chance.randrange(100))


def change_one(how, one, other, text):
    """One change, if it can be made."""
    if how < 5:
        os.makedirs(os.path.dirname(one), exist_ok=True)
        with open(one, "ab" if how < 2 else "wb") as file:
            file.write(text)
    elif how == 5:
        os.makedirs(os.path.dirname(other), exist_ok=True)
        os.rename(one, other)
    elif how == 6 and os.path.isdir(one) and not os.path.islink(one):
        shutil.rmtree(one)
    elif how == 6:
        os.unlink(one)
    elif how == 7:
        os.symlink(other, one)
    elif how == 8:
        os.chmod(one, 0o755 if text < b"5" else 0o644)
    else:
        os.makedirs(one, exist_ok=True)


class Relay:
    """A port whose connections are handed on to another port frame by frame, and end at a request
    with a refused tag. It has the tags of all requests that came."""

    def __init__(self, port, refused=()):
        self._port, self._refused = port, refused
        self.tags = []
        self._listener = socket.create_server(("127.0.0.1", 0))
        self.port = self._listener.getsockname()[1]

    def __enter__(self):
        threading.Thread(target=self._accept, daemon=True).start()
        return self

    def __exit__(self, *_):
        self._listener.close()

    def _accept(self):
        with contextlib.suppress(OSError):
            while True:
                peer, _ = self._listener.accept()
                threading.Thread(target=self._hand_on, args=(peer,), daemon=True).start()

    def _hand_on(self, peer):
        with peer, socket.create_connection(("127.0.0.1", self._port)) as service:
            with peer.makefile("rb") as requests, service.makefile("rb") as replies:
                while request := frame_from(requests):
                    self.tags.append(request[5])
                    if request[5] in self._refused:
                        return
                    service.sendall(request)
                    peer.sendall(frame_from(replies))


def frame_from(stream):
    """The next frame of a stream, or nothing at its end."""
    head = stream.read(4)
    return head + stream.read(int.from_bytes(head, "big")) if len(head) == 4 else b""


class InFolder(unittest.TestCase):
    """A test in an empty folder, in which processes are started that end with it."""

    def setUp(self):
        self.folder = tempfile.mkdtemp(prefix="railburnet-")
        os.chmod(self.folder, 0o755)
        self._started = []
        # What is kept of directories for good is the test's own.
        self._state = os.environ.get("RAILBURNET_STATE")
        os.environ["RAILBURNET_STATE"] = self.path("state")

    def tearDown(self):
        for process in self._started:
            # A thread may read a stream, and closing that waits for the thread.
            process.kill()
            process.wait()
            for stream in (process.stdin, process.stdout):
                if stream is not None:
                    stream.close()
        del os.environ["RAILBURNET_STATE"]
        if self._state is not None:
            os.environ["RAILBURNET_STATE"] = self._state
        shutil.rmtree(self.folder, ignore_errors=True)

    def path(self, *names):
        """A path in the folder."""
        return os.path.join(self.folder, *names)

    def started(self, words, **how):
        """A process, with its standard error in a file."""
        with open(self.path("stderr"), "ab") as errors:
            process = subprocess.Popen(words, stderr=errors, **how)
        self._started.append(process)
        return process

    def text(self, name):
        """What a file of the folder holds."""
        with open(self.path(name), "rb") as file:
            return file.read()

    def server(self, script, port=None, objects=None, source=None):
        """`edend serve` as EDEND names it, or the stand-in, behind a script up to `listen`; its
        port, and where more lines go."""
        port = port or free_port()
        program = (
            [os.environ["EDEND"]]
            if os.environ.get("EDEND")
            else [sys.executable, os.path.join(HERE, "stand_in.py")]
        )
        words = [
            *program,
            "serve",
            "--port",
            str(port),
            "--connections",
            "8",
            "--stay",
            *(["--objects", objects] if objects else []),
        ]
        server = self.started(words, stdin=source or subprocess.PIPE, stdout=subprocess.PIPE)
        if source is None:
            server.stdin.write(script + b"listen\n")
            server.stdin.flush()
        while True:
            line = server.stdout.readline()
            self.assertTrue(line, self.text("stderr"))
            if line == b"listening %d\n" % port:
                return port, server

    def socket_server(self, *options, script=b"", source=None, program=None):
        """A server at the socket `s` of the folder, which waits for connections once its script has
        come: the edend that EDEND names if it is one that can be changed, or the stand-in."""
        program = program or writable_edend() or os.path.join(HERE, "stand_in.py")
        words = [program, "serve", "--socket", self.path("s"), "--connections", "8", "--stay"]
        server = self.started(
            [*words, *options], stdin=source or subprocess.PIPE, stdout=subprocess.PIPE
        )
        if source is None:
            server.stdin.write(script + b"listen\n")
            server.stdin.flush()
        for line in server.stdout:
            if line.startswith(b"listening "):
                return server
        raise AssertionError(self.text("stderr"))

    def lines(self, server, *lines):
        """Gives lines to a server."""
        server.stdin.write(b"".join(line + b"\n" for line in lines))
        server.stdin.flush()
