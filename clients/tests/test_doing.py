"""Changes that the library asks for and their answers, by docs/formats.md."""
import hashlib
import os
import re
import socket
import struct
import threading
import unittest

from kit import CLIENTS, InFolder, writable_edend

import railburnet
from railburnet import (
    ChangeFault,
    ChangeRefused,
    Checkout,
    Client,
    ConnectionLost,
    Do,
    Done,
    File,
    Flush,
    FrameFault,
    Import,
    Kind,
    Mode,
    NotDone,
    NotWritable,
    Object,
    ObjectFault,
    ObjectType,
    Position,
    Query,
    ReadOnly,
    Remount,
    Remove,
    Rename,
    RenameDir,
    Reset,
    Write,
)

ONE = Query(1, 1, 1)
QUERY = "000000000000000100000000000000010000000000000001"
ID = "0102030405060708090a0b0c0d0e0f1011121314"
HERE_NOW = f"0000000000000007 0000000000000009 {ID}"
NOW = Position(7, 9, bytes.fromhex(ID))
with open(os.path.join(CLIENTS, "..", "docs", "formats.md"), encoding="utf-8") as file:
    FORMATS = file.read()
CHANGING = "\n## Changing the mount\n"
MOUNTED = b"mount empty 7 1000000\nwrite a plain 1\n"


class Frames(unittest.TestCase):
    def test_changes(self):
        for change, length, fields in (
            (Write(b"a", File(Kind.PLAIN, b"hi")), "25", "01 0001 61 01 00000002 6869"),
            (Write(b"d/x", File(Kind.EXEC, b"")), "25", "01 0003 642f78 02 00000000"),
            (Write(b"l", File(Kind.LINK, b"to")), "25", "01 0001 6c 03 00000002 746f"),
            (Remove(b"a"), "1f", "01 0001 61 00"),
            (Rename(b"a", b"bc"), "22", "02 0001 61 0002 6263"),
            (RenameDir(b"d", b"e"), "21", "03 0001 64 0001 65"),
            (Checkout(bytes.fromhex(ID)), "30", f"04 {ID} 01"),
            (Checkout(bytes.fromhex(ID), Mode.NORMAL), "30", f"04 {ID} 01"),
            (Checkout(bytes.fromhex(ID), Mode.DRY), "30", f"04 {ID} 02"),
            (Checkout(bytes(20), Mode.FORCE), "30", f"04 {'00' * 20} 03"),
            (Reset(bytes.fromhex(ID)), "2f", f"05 {ID}"),
            (Flush(), "1b", "06"),
            (Remount(2**64 - 1), "23", "07 ffffffffffffffff"),
            (Import(()), "1f", "08 00000000"),
            (
                Import((Object(ObjectType.BLOB, b"hi"), Object(ObjectType.TREE, b""))),
                "2b",
                "08 00000002 01 00000002 6869 02 00000000",
            ),
            (Import((Object(ObjectType.COMMIT, b"t"),)), "25", "08 00000001 03 00000001 74"),
        ):
            frame = f"000000{length} 02 06 {QUERY} {fields}".replace(" ", "")
            self.assertEqual(railburnet.encode_do(Do(ONE, change)).hex(), frame, change)
            self.assertEqual(int(length, 16), len(frame) // 2 - 4, change)

    def test_known_frames(self):
        """A flush and its answer, as docs/formats.md has them."""
        section = FORMATS.split(CHANGING)[1].split("\n## ")[0]
        known = re.findall(r"^ {4}(Do|Done) +((?:[0-9a-f ]+\n)+)", section, re.MULTILINE)
        self.assertEqual([name for name, _ in known], ["Do", "Done"])
        flush, done = (bytes.fromhex(digits) for _, digits in known)
        self.assertEqual(railburnet.encode_do(Do(ONE, Flush())), flush)
        self.assertEqual(done[:4], struct.pack(">I", len(done) - 4))
        self.assertEqual(railburnet.decode_done(done[4:]), Done(ONE, Position(7, 2)))

    def test_the_largest_file(self):
        most = Write(b"a", File(Kind.PLAIN, bytes(8_388_608)))
        frame = railburnet.encode_do(Do(ONE, most))
        self.assertEqual(frame[:4], struct.pack(">I", 26 + 1 + 3 + 5 + 8_388_608))

    def test_changes_that_have_no_frame(self):
        more = bytes(8_388_609)
        for change in (
            Write(b"", File(Kind.PLAIN, b"")),
            Write(b"a//b", File(Kind.PLAIN, b"")),
            Write(b"a", File(Kind.PLAIN, more)),
            Remove(b"a/../b"),
            Rename(b"a", b"/a"),
            Rename(b"x" * 256, b"a"),
            RenameDir(b"a/", b"a"),
            Checkout(b"1" * 19),
            Checkout(b"1" * 40, Mode.DRY),
            Checkout(bytes(20), 4),
            Reset(b""),
            Remount(-1),
            Remount(2**64),
            Import((Object(ObjectType.BLOB, more),)),
            Import((Object(4, b""),)),
            # Each of them fits, and both together don't.
            Import((Object(ObjectType.BLOB, more[1:]),) * 2),
        ):
            with self.assertRaises(ValueError):
                railburnet.encode_do(Do(ONE, change))

    def answers(self):
        """Answers, each with what its body has after the query."""
        yield ReadOnly(ONE), "00"
        yield Done(ONE, NOW), f"01 {HERE_NOW}"
        yield Done(ONE, NOW), f"02 {HERE_NOW} 00000000"
        two = f"02 {HERE_NOW} 00000002 0001 61 0003 642f78"
        yield Done(ONE, NOW, [b"a", b"d/x"], 2), two
        yield Done(ONE, NOW, [], 2**32 - 1), f"04 {HERE_NOW} ffffffff"
        for number, fault in enumerate(
            (
                ChangeFault.NOT_A_DIRECTORY,
                ChangeFault.IS_A_DIRECTORY,
                ChangeFault.NO_ENTRY,
                ChangeFault.TOO_LARGE,
                ChangeFault.INTO_ITSELF,
                ChangeFault.PATH_TOO_LONG,
                ChangeFault.NO_COMMIT,
                ChangeFault.SEQUENCE_EXHAUSTED,
                ChangeFault.GENERATION_NOT_NEW,
                None,
                ChangeFault.NO_MEMORY,
            ),
            1,
        ):
            if fault is not None:
                yield NotDone(ONE, fault), f"03 {number:02x} 0000000000000000 00"
        for number, fault in enumerate(
            (
                ObjectFault.TOO_LARGE,
                ObjectFault.ID_TAKEN,
                ObjectFault.ZERO_ID,
                ObjectFault.BAD_MODE,
                ObjectFault.BAD_NAME,
                ObjectFault.OUT_OF_ORDER,
                ObjectFault.DUPLICATE,
                ObjectFault.MISSING_CHILD,
                ObjectFault.WRONG_CHILD_KIND,
                ObjectFault.TOO_DEEP,
                ObjectFault.PATH_TOO_LONG,
                ObjectFault.CUT_SHORT,
                ObjectFault.BAD_COMMIT,
                ObjectFault.NO_MEMORY,
            ),
            1,
        ):
            refused = NotDone(ONE, ChangeFault.BAD_OBJECT, 258, fault)
            yield refused, f"03 0a 0000000000000102 {number:02x}"

    def test_answers(self):
        for answer, fields in self.answers():
            body = bytes.fromhex(f"02 86 {QUERY} {fields}")
            self.assertEqual(railburnet.decode_done(body), answer, fields)

    def test_every_cut(self):
        for _, fields in self.answers():
            body = bytes.fromhex(f"02 86 {QUERY} {fields}")
            for end in range(len(body)):
                with self.assertRaises(FrameFault) as raised:
                    railburnet.decode_done(body[:end])
                self.assertEqual(str(raised.exception), "CutShort", (fields, end))
            with self.assertRaisesRegex(FrameFault, "Trailing"):
                railburnet.decode_done(body + b"\0")

    def test_faults(self):
        for body, fault in (
            (f"01 86 {QUERY} 00", "Version"),
            ("01", "Version"),
            (f"02 85 {QUERY} 00", "BadTag"),
            (f"02 87 {QUERY} 00", "BadTag"),
            (f"02 06 {QUERY} 00", "BadTag"),
            (f"02 86 {QUERY} 05", "BadField"),
            (f"02 86 {QUERY} ff", "BadField"),
            (f"02 86 {QUERY} 02 {HERE_NOW} 00000002 0001 62 0001 61", "BadField"),
            (f"02 86 {QUERY} 02 {HERE_NOW} 00000002 0001 61 0001 61", "BadField"),
            (f"02 86 {QUERY} 02 {HERE_NOW} 00000001 0000", "BadField"),
            (f"02 86 {QUERY} 02 {HERE_NOW} 00000001 0002 2e2e", "BadField"),
            (f"02 86 {QUERY} 02 {HERE_NOW} ffffffff 0001 61", "CutShort"),
            (f"02 86 {QUERY} 03 00 0000000000000000 00", "BadField"),
            (f"02 86 {QUERY} 03 0c 0000000000000000 00", "BadField"),
            # The first fault counts: what comes after it may be cut.
            (f"02 86 {QUERY} 03 0c", "BadField"),
            (f"02 86 {QUERY} 03 01 0000000000000001", "BadField"),
            (f"02 86 {QUERY} 03 03 0000000000000000 01", "BadField"),
            (f"02 86 {QUERY} 03 0a 0000000000000000 00", "BadField"),
            (f"02 86 {QUERY} 03 0a 0000000000000000 0f", "BadField"),
        ):
            with self.assertRaises(FrameFault) as raised:
                railburnet.decode_done(bytes.fromhex(body))
            self.assertEqual(str(raised.exception), fault, body)
        with self.assertRaisesRegex(FrameFault, "TooLarge"):
            railburnet.decode_done(bytes(16_777_217))
        # The answer to a change is no reply to a request, nor the other way round.
        with self.assertRaisesRegex(FrameFault, "BadTag"):
            railburnet.decode_reply(bytes.fromhex(f"02 86 {QUERY} 00"))

    def test_refusals_in_words(self):
        self.assertEqual(str(ChangeRefused(NotDone(ONE, ChangeFault.NO_ENTRY))), "NO_ENTRY")
        bad = NotDone(ONE, ChangeFault.BAD_OBJECT, 3, ObjectFault.MISSING_CHILD)
        self.assertEqual(str(ChangeRefused(bad)), "BAD_OBJECT 3 MISSING_CHILD")


class Mounts(InFolder):
    def test_changes(self):
        """Each change is answered with the position after it."""
        self.socket_server("--writable", script=MOUNTED)
        with Client(self.path("s"), connections=1) as client:
            for number, change in enumerate(
                (
                    Write(b"d/large", File(Kind.EXEC, bytes(range(256)) * 32_768)),
                    Write(b"l", File(Kind.LINK, b"d/large")),
                    Rename(b"a", b"b c"),
                    RenameDir(b"d", b"e/f"),
                    Remove(b"l"),
                    Reset(bytes(20)),
                ),
                3,
            ):
                self.assertEqual(client.do(change).position, Position(7, number), change)
            self.assertEqual(client.basis().paths, [b"b c", b"e/f/large"])
            large = client.fetch(b"e/f/large").file
            self.assertEqual(large, File(Kind.EXEC, bytes(range(256)) * 32_768))
            marked = client.since(Position(7, 2)).marked
            self.assertEqual([path for _, path in marked], [b"a", b"b c", b"d/large", b"l"])
            # Nothing is to be done, and nothing is.
            self.assertEqual(client.do(Rename(b"b c", b"b c")).position, Position(7, 8))
            self.assertEqual(client.do(Flush()).position, Position(7, 9))
            self.assertEqual(client.do(Remount(8)).position, Position(8, 1))
            self.assertEqual(client.position(), Position(8, 1))

    def test_refusals(self):
        self.socket_server("--writable", script=MOUNTED)
        with Client(self.path("s"), connections=1) as client:
            for change, fault in (
                (Remove(b"b"), ChangeFault.NO_ENTRY),
                (Rename(b"b", b"c"), ChangeFault.NO_ENTRY),
                (Write(b"a/b", File(Kind.PLAIN, b"")), ChangeFault.NOT_A_DIRECTORY),
                (RenameDir(b"d", b"e"), ChangeFault.NO_ENTRY),
                (Remount(7), ChangeFault.GENERATION_NOT_NEW),
            ):
                with self.assertRaises(ChangeRefused) as raised:
                    client.do(change)
                self.assertIs(raised.exception.answer.fault, fault, change)
            with self.assertRaises(ValueError):
                client.do(Write(b"a//b", File(Kind.PLAIN, b"")))
            self.assertEqual(client.position(), Position(7, 2))

    def test_a_mount_that_is_not_writable(self):
        self.socket_server(script=MOUNTED)
        with Client(self.path("s"), connections=1) as client:
            with self.assertRaises(NotWritable):
                client.do(Remove(b"a"))
            self.assertEqual(client.basis().paths, [b"a"])

    def serve_once(self, *actions):
        """A service at the socket `t` that has an action for each connection."""
        listener = socket.socket(socket.AF_UNIX)
        self.addCleanup(listener.close)
        listener.bind(self.path("t"))
        listener.listen()

        def serve():
            for action in actions:
                peer, _ = listener.accept()
                with peer, peer.makefile("rb") as requests:
                    action(peer, requests)

        thread = threading.Thread(target=serve, daemon=True)
        thread.start()
        return thread

    def test_an_exchange(self):
        """A change and its answer, byte by byte."""
        came = []

        def answer(peer, requests):
            came.append(requests.read(0x29))
            query = came[0][6:30].hex()
            peer.sendall(bytes.fromhex(f"0000003f 02 86 {query} 01 {HERE_NOW}"))

        thread = self.serve_once(answer)
        with Client(self.path("t"), connections=1) as client:
            done = client.do(Write(b"a", File(Kind.PLAIN, b"hi")))
        thread.join()
        query = done.query
        self.assertEqual(done, Done(query, NOW))
        spelled = struct.pack(">QQQ", query.mirror, query.life, query.number).hex()
        frame = f"00000025 02 06 {spelled} 01 0001 61 01 00000002 6869"
        self.assertEqual(came[0].hex(), frame.replace(" ", ""))

    def test_a_connection_that_is_lost(self):
        """A change is never asked for twice: whoever asked can't know whether it was made."""
        came = []

        def lose(_, requests):
            came.append(requests.read(0x1F + 4))

        thread = self.serve_once(lose, lose)
        with Client(self.path("t")) as client:
            fault = "the mount ended the connection; the change may have been made, unless"
            for count in (1, 2):
                with self.assertRaisesRegex(ConnectionLost, re.escape(fault)):
                    client.do(Remove(b"a"))
                self.assertEqual(len(came), count)
        thread.join()

    def test_a_connection_that_ended_before(self):
        """Nothing was asked over it, so another one is made."""
        ended = threading.Event()

        def end(peer, requests):
            requests.read(0x1F + 4)
            peer.sendall(bytes.fromhex(f"0000003f 02 86 {self.query(1)} 01 {HERE_NOW}"))
            peer.shutdown(socket.SHUT_RDWR)
            ended.set()

        def answer(peer, requests):
            requests.read(0x1F + 4)
            peer.sendall(bytes.fromhex(f"0000003f 02 86 {self.query(2)} 01 {HERE_NOW}"))

        thread = self.serve_once(end, answer)
        with Client(self.path("t")) as self.client:
            self.client.do(Remove(b"a"))
            self.assertTrue(ended.wait(60))
            self.assertEqual(self.client.do(Remove(b"b")).position, NOW)
        thread.join()

    def query(self, number):
        """The query of a client's question, as a frame has it."""
        client = self.client
        return struct.pack(">QQQ", client._mirror, client._life, number).hex()

    def test_an_answer_to_another_question(self):
        def answer(peer, requests):
            requests.read(0x1F + 4)
            peer.sendall(bytes.fromhex(f"0000001b 02 86 {QUERY} 00"))

        thread = self.serve_once(answer)
        with Client(self.path("t")) as client, self.assertRaises(FrameFault):
            client.do(Remove(b"a"))
        thread.join()


def object_of(type, payload):
    """An object, and the id that Git gives it."""
    head = b"%s %d\0" % (type.name.lower().encode(), len(payload))
    return Object(type, payload), hashlib.sha1(head + payload).digest()


@unittest.skipUnless(writable_edend(), "EDEND names no edend whose `serve` has --writable")
class OverEdend(InFolder):
    """What the stand-in doesn't do."""

    def test_a_commit_that_is_put(self):
        blob, id = object_of(ObjectType.BLOB, b"hi\n")
        self.assertEqual(id.hex(), "45b983be36b73c0788dc9cbcb76cbb80fc7bb057")
        tree, id = object_of(ObjectType.TREE, b"100644 a\0" + id + b"100755 b\0" + id)
        commit, id = object_of(ObjectType.COMMIT, b"tree %s\n" % id.hex().encode())
        self.socket_server("--writable", script=MOUNTED)
        with Client(self.path("s"), connections=1) as client:
            with self.assertRaises(ChangeRefused) as raised:
                client.do(Import((blob, commit)))
            answer = raised.exception.answer
            self.assertIs(answer.fault, ChangeFault.BAD_OBJECT)
            self.assertEqual((answer.place, answer.object_fault), (1, ObjectFault.MISSING_CHILD))
            with self.assertRaises(ChangeRefused) as raised:
                client.do(Checkout(id))
            self.assertIs(raised.exception.answer.fault, ChangeFault.NO_COMMIT)
            client.do(Import((blob, tree, commit)))
            for mode in (Mode.DRY, Mode.NORMAL):
                done = client.do(Checkout(id, mode))
                self.assertEqual((done.conflicts, done.count), ([b"a"], 1), mode)
            self.assertEqual(client.basis().paths, [b"a", b"b"])
            self.assertEqual(client.fetch(b"a").file, File(Kind.PLAIN, b"1"))
            self.assertEqual(client.fetch(b"b").file, File(Kind.EXEC, b"hi\n"))
            done = client.do(Checkout(id, Mode.FORCE))
            self.assertEqual(done.position.root, id)
            self.assertEqual(client.fetch(b"a").file, File(Kind.PLAIN, b"hi\n"))


if __name__ == "__main__":
    unittest.main()
