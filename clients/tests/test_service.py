"""Tests of `edend serve` over real sockets: many that wait, peers that are slow or gone, and what
becomes of a socket's file. They need a real edend, which EDEND names."""
import contextlib
import os
import pwd
import resource
import socket
import stat
import subprocess
import time
import unittest

from kit import InFolder, wait_until

from railburnet import Client, Position
from railburnet.frames import Basis, FrameReader, Poll, Query, decode_reply, encode_request

EDEND = os.environ.get("EDEND")
MOUNTED = b"mount empty 7 1000000000\n"
MANY = 500
SECONDS = 30.0
"""Far longer than any answer takes, so that a busy machine fails no test."""


def poll(number, sequence, patience=0.0):
    """The frame of a poll for all paths, which may wait for some seconds."""
    asked = Poll(Query(1, 1, number), Position(7, sequence), ())
    return encode_request(asked, round(patience * 1000))


def reply_from(peer):
    """The next reply of a connection."""
    reader = FrameReader()
    while data := peer.recv(65536):
        for body in reader.feed(data):
            return decode_reply(body)
    raise AssertionError("the connection has ended")


@unittest.skipUnless(EDEND, "EDEND names no program that serves")
class Services(InFolder):
    def setUp(self):
        super().setUp()
        self.place = self.path("s")

    def serve(self, *options, script=MOUNTED, place=None):
        """Starts a daemon that stays, at the socket of the test, and waits until it listens."""
        words = [EDEND, "serve", "--socket", place or self.place, "--stay", *options]
        server = self.started(words, stdin=subprocess.PIPE, stdout=subprocess.PIPE)
        self.lines(server, *script.splitlines(), b"listen")
        for line in server.stdout:
            if line.startswith(b"listening "):
                return server
        raise AssertionError(self.text("stderr"))

    def connect(self):
        peer = socket.socket(socket.AF_UNIX)
        self.addCleanup(peer.close)
        peer.settimeout(SECONDS)
        peer.connect(self.place)
        return peer

    def end(self, server):
        """Ends the input of a daemon, and returns its status and how long it took to end."""
        begun = time.monotonic()
        server.stdin.close()
        status = server.wait(SECONDS)
        server.stdin = None
        return status, time.monotonic() - begun

    def asked(self, sequence):
        """What another client is told in a connection of its own."""
        with Client(self.place, timeout=SECONDS, connections=1) as client:
            return client.since(Position(7, sequence))

    def test_many_that_wait(self):
        """500 wait while others are served, and each is told of the change that comes then."""
        soft, hard = resource.getrlimit(resource.RLIMIT_NOFILE)
        if hard < 2 * MANY:
            self.skipTest("no process may open as many sockets")
        resource.setrlimit(resource.RLIMIT_NOFILE, (max(soft, 2 * MANY), hard))
        self.addCleanup(resource.setrlimit, resource.RLIMIT_NOFILE, (soft, hard))
        server = self.serve("--connections", str(MANY + 4))
        waiting = [self.connect() for _ in range(MANY)]
        for number, peer in enumerate(waiting):
            peer.sendall(poll(number, 1, 60.0))
        for _ in range(20):
            self.assertEqual(self.asked(1).marked, [])
        self.lines(server, b"write a plain 1")
        for peer in waiting:
            reply = reply_from(peer)
            self.assertEqual([path for _, path in reply.marked], [b"a"])
            self.assertEqual(reply.position, Position(7, 2))

    def test_the_end_with_all_waiting(self):
        server = self.serve("--connections", "64")
        waiting = [self.connect() for _ in range(64)]
        for number, peer in enumerate(waiting):
            peer.sendall(poll(number, 1, 60.0))
        self.assertEqual(self.end(server)[0], 0)
        for peer in waiting:
            # One whose poll was not read yet is reset.
            with contextlib.suppress(ConnectionResetError):
                self.assertEqual(peer.recv(1), b"")

    def test_a_peer_that_is_gone_while_it_waits(self):
        """It gives its place back long before its patience is up."""
        self.serve("--connections", "1")
        gone = self.connect()
        gone.sendall(poll(1, 1, 60.0))
        time.sleep(0.2)
        gone.close()
        begun = time.monotonic()
        self.assertEqual(self.asked(1).marked, [])
        self.assertLess(time.monotonic() - begun, SECONDS)

    def test_half_a_frame(self):
        """It ends its connection after the limit, and an idle one stays."""
        self.serve("--connections", "2", "--limit", "1", "--verbose")
        idle, half = self.connect(), self.connect()
        idle.sendall(poll(1, 1))
        self.assertEqual(reply_from(idle).marked, [])
        for sent in (poll(1, 1)[:2], poll(1, 1)[:40], poll(1, 1) + poll(2, 1)[:7]):
            half.sendall(sent)
            begun = time.monotonic()
            while half.recv(65536):
                pass
            self.assertGreater(time.monotonic() - begun, 0.9)
            half = self.connect()
        said = b"a connection has ended: its peer took longer than the limit"
        self.assertTrue(wait_until(lambda: self.text("stderr").count(said) == 3))
        time.sleep(1.5)
        idle.sendall(poll(2, 1))
        self.assertEqual(reply_from(idle).marked, [])

    def test_a_frame_by_the_byte(self):
        """Each byte comes soon after the last, and the frame doesn't come within the limit."""
        self.serve("--connections", "1", "--limit", "1")
        slow, ended = self.connect(), 0
        for ended, byte in enumerate(poll(1, 1)):
            try:
                slow.sendall(bytes([byte]))
            except BrokenPipeError:
                break
            time.sleep(0.1)
        self.assertIn(ended, range(8, 40))

    def test_a_slow_reader(self):
        """It ends its own connection, and others have its place then."""
        server = self.serve("--connections", "1", "--limit", "1")
        self.lines(server, *(b"write %07d%s plain 1" % (n, b"x" * 200) for n in range(5000)))
        self.assertTrue(wait_until(lambda: self.asked(1).position.sequence == 5001))
        slow = self.connect()
        asked = encode_request(Basis(Query(1, 1, 1), ()))
        slow.sendall(asked * 32)
        # Who waits for the place waits no longer than the limit, too.
        time.sleep(0.5)
        begun = time.monotonic()
        self.assertEqual(self.asked(5001).marked, [])
        self.assertLess(time.monotonic() - begun, SECONDS)

    def test_a_socket_that_was_left(self):
        """A daemon that was killed leaves its files, and the next one takes them over."""
        killed = self.serve("--connections", "1")
        killed.kill()
        killed.wait()
        self.assertTrue(stat.S_ISSOCK(os.lstat(self.place).st_mode))
        server = self.serve("--connections", "1", script=MOUNTED + b"write a plain 1\n")
        self.assertEqual([path for _, path in self.asked(1).marked], [b"a"])
        self.assertEqual(self.end(server)[0], 0)
        self.assertFalse([name for name in os.listdir(self.folder) if name.startswith("s.")])
        self.assertFalse(os.path.lexists(self.place))

    def test_two_daemons(self):
        """The second one is refused, and the first one is served as before."""
        self.serve("--connections", "2")
        words = [EDEND, "serve", "--socket", self.place, "--connections", "1"]
        second = subprocess.run(
            words, input=MOUNTED + b"listen\n", capture_output=True, timeout=SECONDS
        )
        self.assertEqual((second.returncode, second.stdout), (3, b""))
        self.assertIn(b"NoConnection: socket ", second.stderr)
        self.assertIn(b"Address already in use", second.stderr)
        self.assertEqual(self.asked(1).marked, [])

    def test_another_user(self):
        """The socket has mode 0600, and another user can't connect to it."""
        self.serve("--connections", "2")
        self.assertEqual(stat.S_IMODE(os.lstat(self.place).st_mode), 0o600)
        self.assertEqual(self.asked(1).marked, [])
        if os.geteuid() != 0:
            self.skipTest("only root can be another user")
        nobody = pwd.getpwnam("nobody").pw_uid
        child = os.fork()
        if child == 0:
            status = 1
            try:
                os.setuid(nobody)
                with socket.socket(socket.AF_UNIX) as peer:
                    peer.connect(self.place)
            except PermissionError:
                status = 0
            finally:
                os._exit(status)
        self.assertEqual(os.waitstatus_to_exitcode(os.waitpid(child, 0)[1]), 0)

    def test_places_that_are_all_taken(self):
        """Who finds no place is served once one is free."""
        self.serve("--connections", "1")
        first = self.connect()
        first.sendall(poll(1, 1))
        reply_from(first)
        second = self.connect()
        second.sendall(poll(2, 1))
        second.settimeout(0.3)
        with self.assertRaises(socket.timeout):
            reply_from(second)
        second.settimeout(SECONDS)
        first.close()
        self.assertEqual(reply_from(second).marked, [])

    def test_no_place_within_the_limit(self):
        """Its connection ends, and the next one is served once a place is free."""
        self.serve("--connections", "1", "--limit", "1")
        first = self.connect()
        first.sendall(poll(1, 1))
        reply_from(first)
        second = self.connect()
        second.sendall(poll(2, 1))
        begun = time.monotonic()
        with contextlib.suppress(ConnectionResetError):
            self.assertEqual(second.recv(1), b"")
        self.assertGreater(time.monotonic() - begun, 0.9)
        third = self.connect()
        third.sendall(poll(3, 1))
        first.close()
        self.assertEqual(reply_from(third).marked, [])


if __name__ == "__main__":
    unittest.main()
