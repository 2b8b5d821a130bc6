"""Frames, paths, patterns and mirrors of the library, by docs/formats.md."""
import collections
import hashlib
import os
import random
import re
import socket
import struct
import threading
import time
import unittest

from kit import CLIENTS, InFolder, Relay, wait_until

import railburnet
import slow_frames
import stand_in
from railburnet import frames
from railburnet import (
    Attributes,
    AttributesAre,
    Basis,
    BasisIs,
    Below,
    Cause,
    ChangesAre,
    ContentIs,
    Fetch,
    File,
    FileStat,
    FrameFault,
    Kind,
    ListIs,
    Mark,
    Mirror,
    Outcome,
    Poll,
    Position,
    Query,
    Refused,
    Stat,
    StatIs,
    Status,
    StatusIs,
)

ONE = Query(1, 1, 1)
QUESTIONS = ("Basis", "Poll", "Fetch", "Stat", "List", "Attributes", "Status")


def blob_id(content):
    """The id that `git hash-object` prints for a file with these bytes, as bytes."""
    return hashlib.sha1(b"blob %d\0" % len(content) + content).digest()


def stat_of(file):
    """A file without its bytes, or None."""
    return file and FileStat(file.kind, len(file.content), blob_id(file.content))


def known_frames():
    """The frames of docs/formats.md, in their order, each with its name."""
    with open(os.path.join(CLIENTS, "..", "docs", "formats.md"), encoding="utf-8") as file:
        text = file.read().split("## Known frames")[1].split("## Faults")[0]
    frames = []
    for line in text.splitlines():
        # A frame goes on in lines that are indented further.
        if not re.match(r" {4}(?:[A-Z].*[0-9a-f]{8}| {12}[0-9a-f])", line):
            continue
        name, digits = re.fullmatch(
            r" {4}([A-Z]\w*(?: of [ad])?)? *((?:[0-9a-f]{2}| )+)", line
        ).groups()
        if name:
            frames.append([name, ""])
        frames[-1][1] += digits.replace(" ", "")
    return [(name, bytes.fromhex(digits)) for name, digits in frames]


def kind_of(name):
    """The kind of message of a frame's name, which may say first what comes before a request."""
    return re.sub("^(Patient|Excluding)*", "", name).split()[0]


class Frames(unittest.TestCase):
    def test_known_frames(self):
        first, second, third, fourth = (Position(7, number) for number in (1, 2, 3, 4))
        wanted = [
            Basis(ONE),
            BasisIs(ONE, first, []),
            Poll(ONE, first),
            Poll(ONE, first),
            Poll(ONE, first, (b"!.git/**",)),
            Poll(ONE, first, (b"!.git/**",)),
            ChangesAre(ONE, first, [], []),
            Fetch(ONE, b"a"),
            ContentIs(ONE, first, b"a", None),
            Below(ONE, b"d"),
            ListIs(ONE, first, b"d", []),
            Refused(ONE, Cause.AHEAD, 1),
            Basis(ONE, (b"a*",)),
            BasisIs(ONE, second, [b"a"]),
            ChangesAre(ONE, second, [(Mark.CREATED, b"a")], []),
            ContentIs(ONE, second, b"a", File(Kind.PLAIN, b"hi")),
            Stat(ONE, b"a"),
            StatIs(ONE, first, b"a", None),
            StatIs(ONE, second, b"a", FileStat(Kind.PLAIN, 2, blob_id(b"hi"))),
            Attributes(ONE),
            AttributesAre(ONE, second, None, [(b"a", FileStat(Kind.PLAIN, 2, blob_id(b"hi")))]),
            Attributes(ONE, b"d"),
            AttributesAre(ONE, second, b"d", []),
            Status(ONE),
            StatusIs(ONE, first, []),
            StatusIs(ONE, second, [(Mark.CREATED, b"a")]),
            Below(ONE, b"d", (b"d/*",)),
            ListIs(ONE, third, b"d", [b"d/x"]),
            ChangesAre(ONE, fourth, [], [b"d", b"e"]),
        ]
        frames = known_frames()
        names = [type(message).__name__.replace("Below", "List") for message in wanted]
        self.assertEqual([kind_of(name) for name, _ in frames], names)
        for (name, frame), message in zip(frames, wanted):
            if isinstance(message, (Basis, Poll, Fetch, Stat, Below, Attributes, Status)):
                patience = 10_000 if "Patient" in name else 0
                self.assertEqual(railburnet.encode_request(message, patience), frame)
            else:
                self.assertEqual(struct.unpack(">I", frame[:4])[0], len(frame) - 4)
                self.assertEqual(railburnet.decode_reply(frame[4:]), message)

    def test_exclusions(self):
        """By the text of docs/formats.md: the patterns that exclude, each without its `!`, and then
        the request as it is without them. The order of both kinds among each other is gone."""
        query, first = "000000000000000100000000000000010000000000000001", "07".rjust(16, "0")
        first += "01".rjust(16, "0") + "00" * 20
        of_objects = "0207 01 0006 2a2a2f2a2e6f"
        for request, patience, spelled in (
            (Basis(ONE, (b"!a",)), 0, f"00000021 0207 01 0001 61 0201 {query} 00"),
            (
                Poll(ONE, Position(7, 1), (b"src/**", b"!**/*.o")),
                0,
                f"00000052 {of_objects} 0202 {query} {first} 01 0006 7372632f2a2a",
            ),
            (
                Poll(ONE, Position(7, 1), (b"!**/*.o", b"src/**")),
                10_000,
                f"00000058 0205 00002710 {of_objects} 0202 {query} {first} 01 0006 7372632f2a2a",
            ),
            (
                Below(ONE, b"d", (b"!b", b"d/*", b"!a")),
                0,
                f"0000002c 0207 02 0001 62 0001 61 0204 {query} 0001 64 01 0003 642f2a",
            ),
            # Only the first `!` says that it excludes, and `\\!` never does.
            (Basis(ONE, (b"!!a",)), 0, f"00000022 0207 01 0002 2161 0201 {query} 00"),
            (Basis(ONE, (rb"\!a",)), 0, f"00000020 0201 {query} 01 0003 5c2161"),
            (Basis(ONE, (b"a!",)), 0, f"0000001f 0201 {query} 01 0002 6121"),
        ):
            frame = railburnet.encode_request(request, patience)
            self.assertEqual(frame.hex(), spelled.replace(" ", ""), request)

    def test_every_cut(self):
        for name, frame in known_frames():
            if kind_of(name) in QUESTIONS:
                continue
            for end in range(4, len(frame)):
                with self.assertRaises(FrameFault) as raised:
                    railburnet.decode_reply(frame[4:end])
                self.assertEqual(str(raised.exception), "CutShort")
            with self.assertRaisesRegex(FrameFault, "Trailing"):
                railburnet.decode_reply(frame[4:] + b"\0")

    def test_faults(self):
        head = bytes.fromhex("02") + b"%c" + bytes(24)
        here = bytes(36)

        def tagged(tag, fields):
            return head.replace(b"%c", bytes([tag])) + fields

        for body, fault in (
            (b"\x01" + tagged(0x84, b"\1" + bytes(8))[1:], "Version"),
            (b"\x01", "Version"),
            (b"\x02", "CutShort"),
            (tagged(0x86, b""), "BadTag"),
            (tagged(0x04, b"\0\1d\0"), "BadTag"),
            (tagged(0x03, b"\0\1a"), "BadTag"),
            (tagged(0x84, b"\0" + bytes(8)), "BadField"),
            (tagged(0x84, b"\5" + bytes(8)), "BadField"),
            (tagged(0x84, b"\4" + bytes(7) + b"\1"), "BadField"),
            (tagged(0x81, here + b"\0\0\0\1\0\0"), "BadField"),
            (tagged(0x81, here + b"\0\0\0\1\4\1"), "BadField"),
            (tagged(0x81, here + b"\0\0\0\2\0\1b\0\1a"), "BadField"),
            (tagged(0x81, here + b"\0\0\0\2\0\1a\0\1a"), "BadField"),
            (tagged(0x81, here + b"\0\0\0\1\0\2.."), "BadField"),
            (tagged(0x81, here + b"\xff\xff\xff\xff\0\1a"), "CutShort"),
            (tagged(0x82, here + b"\0\0\0\1\0\0\1a"), "BadField"),
            (tagged(0x82, here + b"\0\0\0\1\5\0\1a"), "BadField"),
            (tagged(0x82, here + b"\0\0\0\0"), "CutShort"),
            (tagged(0x82, here + b"\0\0\0\0\0\0\0\2\0\1e\0\1d"), "BadField"),
            (tagged(0x82, here + b"\0\0\0\0\0\0\0\2\0\1d\0\1d"), "BadField"),
            (tagged(0x85, here + b"\0\0"), "BadField"),
            (tagged(0x85, here + b"\0\1d\0\0\0\1\0\1d"), "BadField"),
            (tagged(0x85, here + b"\0\1d\0\0\0\1\0\3d.x"), "BadField"),
            (tagged(0x85, here + b"\0\1d\0\0\0\1\0\3e/x"), "BadField"),
            (tagged(0x85, here + b"\0\1d\0\0\0\2\0\3d/y\0\3d/x"), "BadField"),
            (tagged(0x85, here + b"\0\1d\0\0\0\2\0\3d/x"), "CutShort"),
            (tagged(0x83, here + b"\0\1a\4"), "BadField"),
            (tagged(0x83, here + b"\0\1a\1\0\x80\0\1"), "BadField"),
            (tagged(0x88, here + b"\0\1a\2"), "BadField"),
            (tagged(0x88, here + b"\0\1a\1\0"), "BadField"),
            (tagged(0x88, here + b"\0\1a\1\4"), "BadField"),
            (tagged(0x87, here), "BadTag"),
            (tagged(0x08, b"\0\1a"), "BadTag"),
            (b"", "CutShort"),
        ):
            with self.assertRaises(FrameFault) as raised:
                railburnet.decode_reply(body)
            self.assertEqual(str(raised.exception), fault, body)

    def test_read_as_field_by_field(self):
        """Frames of all kinds, and what becomes of them when some of their bytes change: the
        reply or the fault of the slow reading."""
        chance = random.Random(7)
        names = [
            b"a",
            b"a.b",
            b".",
            b"..",
            b"...",
            b"x" * 255,
            b"x" * 256,
            b"",
            b"\0",
            b"\n",
            b"\xff",
            b"/",
            b"a/b",
            b"a/../b",
            b"a//b",
            b"/a",
            b"a/",
            b".a",
            b"..a",
            b"/".join([b"d"] * 64),
            b"/".join([b"d"] * 65),
            b"y" * 1024,
            b"y/" * 511 + b"yy",
            b"y" * 1025,
            b"d/x",
            b"d/y",
            b"d",
            b".",
        ]

        def listed(marked):
            paths = chance.sample(names, chance.randrange(5))
            if chance.random() < 0.8:
                paths.sort()
            spelled = [
                (bytes([chance.choice((1, 2, 3, 4, 4, 0, 5))]) if marked else b"")
                + struct.pack(">H", len(path))
                + path
                for path in paths
            ]
            return struct.pack(">I", len(paths) + (chance.random() < 0.1)) + b"".join(spelled)

        told = collections.Counter()
        for turn in range(20_000):
            tag = chance.choice((0x81, 0x82, 0x82, 0x85, 0x88, 0x89, 0x8A))
            body = bytearray(bytes([2, tag]) + bytes(24 + 36))
            if tag in (0x85, 0x88):
                body += struct.pack(">H", 1) + b"d"
            if tag == 0x88:
                body += chance.choice((b"\0", bytes([1, chance.choice((1, 2, 3))]) + bytes(24)))
            elif tag == 0x89:
                body += chance.choice((b"\0", b"\1\0\1d")) + bytes(3)
                paths = chance.choice(([], [b"d/x"], [b"d/x", b"d/y"], [b"b", b"a"]))
                body += bytes([len(paths)])
                for path in paths:
                    body += struct.pack(">H", len(path)) + path
                    body += bytes([chance.choice((1, 2, 3))]) + bytes(24)
            else:
                body += listed(tag in (0x82, 0x8A)) + (listed(False) if tag == 0x82 else b"")
            if turn % 2:
                for _ in range(chance.randrange(1, 4)):
                    body[chance.randrange(len(body))] = chance.choice(
                        (0, 1, 2, 4, 46, 47, chance.randrange(256))
                    )
            if chance.random() < 0.2:
                del body[chance.randrange(len(body)) :]
            if chance.random() < 0.1:
                body += b"\0"
            came, wanted = (
                self.read(decode, bytes(body))
                for decode in (railburnet.decode_reply, slow_frames.decode_reply)
            )
            self.assertEqual(came, wanted, bytes(body))
            told[wanted if isinstance(wanted, str) else type(wanted).__name__] += 1
        replies = ("BasisIs", "ChangesAre", "ListIs", "StatIs", "AttributesAre", "StatusIs")
        # Each of them was met often.
        self.assertGreater(
            min(
                told[name]
                for name in ("BadField", "CutShort", "Trailing", *replies)
            ),
            50,
            told,
        )

    @staticmethod
    def read(decode, body):
        try:
            return decode(body)
        except FrameFault as fault:
            return str(fault)

    def test_patterns_admit(self):
        """By the table of docs/formats.md, and beside the stand-in's way."""
        for pattern, path, wanted in (
            (b"**/x", b"x", True),
            (b"**/x", b"a/x", True),
            (b"**/x", b"a/b/x", True),
            (b"a/**", b"a", True),
            (b"a/**", b"a/b/c", True),
            (b"*", b"x", True),
            (b"*", b".h", True),
            (b"*", b"a/x", False),
            (b"?", b"ab", False),
            (rb"\*", b"*", True),
            (rb"\*", b"x", False),
            (b"a*b*c", b"a1b2c", True),
            (b"a*b*c", b"a1c2b", False),
            (b"*a", b"aaa", True),
            (b"**", b"a/b", True),
            (b"**/**", b"a", True),
            (b"a/**/b", b"a/b", True),
            (b"a/**/b", b"a/x/y/b", True),
            (b"a/**/b", b"a/x/y/c", False),
            (b"**a", b"a", True),
            (b"?*", b"\n", True),
        ):
            self.assertEqual(frames.admits([pattern], path), wanted, (pattern, path))
        self.assertTrue(frames.admits([], b"a") and frames.admits([b"x", b"a"], b"a"))
        chance = random.Random(5)
        for _ in range(3000):
            pattern = b"/".join(
                chance.choice((b"**", b"*", b"a", b"a*", b"?b", b"*a*b", b"b"))
                for _ in range(chance.randrange(1, 5))
            )
            path = b"/".join(
                bytes(chance.choice(b"ab") for _ in range(chance.randrange(1, 4)))
                for _ in range(chance.randrange(1, 5))
            )
            self.assertEqual(
                frames.admits([pattern], path),
                stand_in.admits(pattern.split(b"/"), path.split(b"/")),
                (pattern, path),
            )
        # Nothing grows beyond the product of the lengths.
        self.assertFalse(
            frames.admits([b"/".join([b"**", b"a"] * 60)], b"/".join([b"a"] * 63) + b"/b")
        )
        self.assertFalse(frames.admits([b"*a" * 100 + b"b"], b"a" * 255))

    def test_what_patterns_exclude(self):
        for patterns, path, wanted in (
            ([b"!a"], b"a", False),
            ([b"!a"], b"b", True),
            ([b"!a"], b"a/b", True),
            ([b"!a/**"], b"a/b", False),
            ([b"!a/**"], b"a", False),
            ([b"src/**", b"!**/*.o"], b"src/d/x.c", True),
            ([b"src/**", b"!**/*.o"], b"src/d/x.o", False),
            ([b"src/**", b"!**/*.o"], b"x.c", False),
            # The order decides nothing.
            ([b"!**/*.o", b"src/**"], b"src/d/x.o", False),
            ([b"!**/*.o", b"src/x.o"], b"src/x.o", False),
            ([b"a", b"!b", b"c"], b"c", True),
            ([b"!a", b"!b"], b"b", False),
            ([b"!**"], b"a", False),
            ([b"**", b"!**"], b"a", False),
            ([b"!*"], b"a/b", True),
            ([b"!!a"], b"!a", False),
            ([b"!!a"], b"a", True),
            ([rb"!\!a"], b"!a", False),
            ([rb"\!a"], b"!a", True),
            ([rb"\!a"], b"a", False),
            ([b"d/!a"], b"d/!a", True),
        ):
            self.assertEqual(frames.admits(patterns, path), wanted, (patterns, path))
        for path in (b"!a", b"a!", b"!", b"*", b"a[b", rb"\!", b"\n?"):
            pattern = railburnet.literal(path)
            self.assertTrue(frames.admits([pattern], path), path)
            self.assertFalse(frames.admits([b"!" + pattern], path), path)
            self.assertFalse(frames.admits([pattern], b"x" + path[1:]), path)

    def test_streams(self):
        frames = b"".join(frame for _, frame in known_frames())
        bodies = [frame[4:] for _, frame in known_frames()]
        for step in (1, 3, 50, len(frames)):
            reader = railburnet.FrameReader()
            self.assertEqual(
                [
                    body
                    for at in range(0, len(frames), step)
                    for body in reader.feed(frames[at : at + step])
                ],
                bodies,
            )
        with self.assertRaisesRegex(FrameFault, "TooLarge"):
            list(railburnet.FrameReader().feed(b"\x01\0\0\1"))
        reader = railburnet.FrameReader()
        self.assertEqual(next(reader.feed(frames)), bodies[0])
        self.assertEqual(list(reader.feed(b"")), bodies[1:])

    def test_paths(self):
        for path, fault in (
            (b"a", None),
            (b"a/b c/\xff\n", None),
            (b"x" * 255, None),
            (b"/".join([b"a"] * 64), None),
            (b"...", None),
            (b"", "Empty"),
            (b"a" * 1025, "TooLong"),
            (b"x" * 256, "BadComponent"),
            (b"/a", "BadComponent"),
            (b"a/", "BadComponent"),
            (b"a//b", "BadComponent"),
            (b"a/../b", "BadComponent"),
            (b".", "BadComponent"),
            (b"a\0", "BadComponent"),
            (b"/".join([b"a"] * 65), "TooDeep"),
        ):
            self.assertEqual(railburnet.path_fault(path), fault, path)

    def test_patterns(self):
        for pattern in (
            b"a",
            b"**",
            b"**/x",
            b"a/**/*.c",
            b"?",
            rb"a\[b",
            rb"\\",
            b"]}",
            b"\xff\n",
            b".h*",
        ):
            self.assertIsNone(railburnet.patterns_fault([pattern]), pattern)
        for pattern in (b"", b"/a", b"a//b", b"a/", b"a\\", b"a\\/b", b"a[", b"{a", b"a" * 257):
            self.assertIsNotNone(railburnet.patterns_fault([pattern]), pattern)
            for request in (Basis(ONE, (pattern,)), Below(ONE, b"d", (pattern,))):
                with self.assertRaises(ValueError):
                    railburnet.encode_request(request)
        self.assertIsNone(railburnet.patterns_fault([b"a"] * 32))
        self.assertIsNotNone(railburnet.patterns_fault([b"a"] * 33))
        # Each kind may have as many, and the `!` takes no byte of a pattern.
        self.assertIsNone(railburnet.patterns_fault([b"a"] * 32 + [b"!" + b"a" * 256] * 32))
        for patterns, fault in (
            ([b"!a"] * 33, "more than 32 patterns with `!`"),
            ([b"!"], "no pattern: !"),
            ([b"a", b"!/a"], "no pattern: !/a"),
            ([b"!a["], "no pattern: !a["),
            ([b"!" + b"a" * 257], "a pattern of more than 256 bytes: !" + "a" * 257),
        ):
            self.assertEqual(railburnet.patterns_fault(patterns), fault)
            with self.assertRaisesRegex(ValueError, re.escape(fault)):
                railburnet.encode_request(Basis(ONE, tuple(patterns)))

    def test_words(self):
        self.assertEqual(railburnet.as_word(b"a b\\\n\r"), b"a\\sb\\\\\\n\r")
        self.assertEqual(railburnet.as_word(b""), b"\\e")


class Mirrors(unittest.TestCase):
    HI, YO = File(Kind.PLAIN, b"hi"), File(Kind.EXEC, b"yo")

    def placed(self):
        """A mirror at 7 5 that holds `a`."""
        mirror = Mirror(mirror=9, life=3)
        mirror.begin()
        query = Query(9, 3, 1)
        self.assertEqual(mirror.outstanding(), [Basis(query)])
        self.assertIs(mirror.deliver(BasisIs(query, Position(7, 5), [b"a"])), Outcome.TAKEN)
        self.assertEqual(mirror.outstanding(), [Fetch(query, b"a")])
        self.assertIsNone(mirror.position)
        self.assertIs(
            mirror.deliver(ContentIs(query, Position(7, 6), b"a", self.HI)), Outcome.PLACED
        )
        return mirror

    def test_a_round(self):
        mirror = self.placed()
        self.assertEqual((mirror.position, dict(mirror.files)), (Position(7, 5), {b"a": self.HI}))
        mirror.begin()
        query = Query(9, 3, 2)
        self.assertEqual(mirror.outstanding(), [Poll(query, Position(7, 5))])
        mirror.deliver(
            ChangesAre(query, Position(7, 9), [(Mark.REMOVED, b"a"), (Mark.CREATED, b"b")], [])
        )
        self.assertEqual(mirror.outstanding(), [Fetch(query, b"a"), Fetch(query, b"b")])
        self.assertIs(
            mirror.deliver(ContentIs(query, Position(7, 9), b"b", self.YO)), Outcome.TAKEN
        )
        self.assertEqual(mirror.position, Position(7, 5))
        self.assertIs(mirror.deliver(ContentIs(query, Position(7, 9), b"a", None)), Outcome.PLACED)
        self.assertEqual((mirror.position, dict(mirror.files)), (Position(7, 9), {b"b": self.YO}))
        self.assertEqual(mirror.outstanding(), [Fetch(query, path) for path in ()])

    def test_no_path(self):
        mirror = self.placed()
        mirror.begin()
        self.assertIs(
            mirror.deliver(ChangesAre(Query(9, 3, 2), Position(7, 8), [], [])), Outcome.PLACED
        )
        self.assertEqual(mirror.position, Position(7, 8))

    def moved(self):
        """The mirror at 7 5 with `d/x` and `d/y` instead, which has been told that `d` and `e`
        were moved between, and that `z` changed."""
        mirror = Mirror(mirror=9, life=3)
        mirror.begin()
        mirror.deliver(BasisIs(Query(9, 3, 1), Position(7, 5), [b"d.x", b"d/x", b"d/y"]))
        for path in (b"d.x", b"d/x", b"d/y"):
            mirror.deliver(ContentIs(Query(9, 3, 1), Position(7, 5), path, self.HI))
        mirror.begin()
        self.assertIs(
            mirror.deliver(
                ChangesAre(Query(9, 3, 2), Position(7, 7), [(Mark.CREATED, b"z")], [b"d", b"e"])
            ),
            Outcome.TAKEN,
        )
        return mirror

    def test_prefixes(self):
        mirror, query = self.moved(), Query(9, 3, 2)
        self.assertEqual(
            mirror.outstanding(), [Below(query, b"d"), Below(query, b"e"), Fetch(query, b"z")]
        )
        self.assertIs(mirror.deliver(ListIs(query, Position(7, 7), b"d", [])), Outcome.TAKEN)
        self.assertEqual(dict(mirror.files), {b"d.x": self.HI})
        self.assertIs(
            mirror.deliver(ContentIs(query, Position(7, 7), b"z", self.YO)), Outcome.TAKEN
        )
        self.assertEqual(
            (mirror.position, mirror.outstanding()), (Position(7, 5), [Below(query, b"e")])
        )
        self.assertIs(
            mirror.deliver(ListIs(query, Position(7, 8), b"e", [b"e/x", b"e/y"])), Outcome.TAKEN
        )
        self.assertEqual(
            (mirror.outstanding(), mirror.awaited),
            ([Fetch(query, b"e/x"), Fetch(query, b"e/y")], 2),
        )
        self.assertIs(
            mirror.deliver(ContentIs(query, Position(7, 7), b"e/x", self.HI)), Outcome.TAKEN
        )
        self.assertIs(
            mirror.deliver(ContentIs(query, Position(7, 8), b"e/y", None)), Outcome.PLACED
        )
        self.assertEqual(
            (mirror.position, dict(mirror.files)),
            (Position(7, 7), {b"d.x": self.HI, b"z": self.YO, b"e/x": self.HI}),
        )
        self.assertEqual(mirror.outstanding(), [])

    def test_what_is_listed_again(self):
        """A path below a prefix whose content has come, and one that is awaited already; the
        round ends with a list."""
        mirror, query = self.moved(), Query(9, 3, 2)
        self.assertIs(mirror.deliver(ContentIs(query, Position(7, 7), b"z", None)), Outcome.TAKEN)
        self.assertIs(mirror.deliver(ListIs(query, Position(7, 7), b"d", [b"d/y"])), Outcome.TAKEN)
        self.assertEqual(dict(mirror.files), {b"d.x": self.HI, b"d/y": self.HI})
        self.assertIs(
            mirror.deliver(ContentIs(query, Position(7, 7), b"d/y", self.YO)), Outcome.TAKEN
        )
        self.assertIs(mirror.deliver(ListIs(query, Position(7, 7), b"e", [])), Outcome.PLACED)
        self.assertEqual(
            (mirror.position, dict(mirror.files)),
            (Position(7, 7), {b"d.x": self.HI, b"d/y": self.YO}),
        )

    def test_lists_that_are_ignored(self):
        mirror, query = self.moved(), Query(9, 3, 2)
        for reply in (
            ListIs(query, Position(7, 6), b"d", []),
            ListIs(query, Position(8, 9), b"d", []),
            ListIs(query, Position(7, 7), b"d.x", []),
            ListIs(Query(9, 3, 1), Position(7, 7), b"d", []),
            Refused(query, Cause.STALE, 8),
            Refused(Query(9, 3, 1), Cause.TOO_LARGE, 0),
        ):
            self.assertIs(mirror.deliver(reply), Outcome.IGNORED, reply)
        self.assertIs(mirror.deliver(ListIs(query, Position(7, 7), b"d", [])), Outcome.TAKEN)
        self.assertIs(
            mirror.deliver(ListIs(query, Position(7, 7), b"d", [b"d/x"])), Outcome.IGNORED
        )
        self.assertEqual(dict(mirror.files), {b"d.x": self.HI})

    def test_a_list_that_is_too_large(self):
        mirror, query = self.moved(), Query(9, 3, 2)
        self.assertIs(mirror.deliver(Refused(query, Cause.TOO_LARGE, 0)), Outcome.ENDED)
        self.assertEqual(
            (mirror.position, mirror.outstanding(), len(mirror.files)), (Position(7, 5), [], 3)
        )
        self.assertIs(mirror.deliver(ListIs(query, Position(7, 7), b"d", [])), Outcome.IGNORED)
        self.assertIs(
            mirror.deliver(ContentIs(query, Position(7, 7), b"z", self.YO)), Outcome.IGNORED
        )
        mirror = self.moved()
        mirror.deliver(ListIs(query, Position(7, 7), b"d", []))
        mirror.deliver(ListIs(query, Position(7, 7), b"e", []))
        self.assertIs(mirror.deliver(Refused(query, Cause.TOO_LARGE, 0)), Outcome.IGNORED)
        self.assertEqual(mirror.outstanding(), [Fetch(query, b"z")])

    def test_what_is_ignored(self):
        mirror = self.placed()
        mirror.begin()
        query = Query(9, 3, 2)
        changes = ChangesAre(query, Position(7, 8), [(Mark.CHANGED, b"a")], [])
        early = [
            BasisIs(query, Position(7, 8), [b"z"]),
            ContentIs(query, Position(7, 8), b"a", self.YO),
            Refused(Query(9, 3, 1), Cause.STALE, 8),
            ChangesAre(Query(9, 2, 2), Position(7, 8), [], []),
            ChangesAre(Query(8, 3, 2), Position(7, 8), [], []),
        ]
        late = [
            changes,
            Refused(query, Cause.STALE, 8),
            Refused(query, Cause.TOO_LARGE, 0),
            ContentIs(query, Position(7, 7), b"a", self.YO),
            ContentIs(query, Position(8, 9), b"a", self.YO),
            ContentIs(query, Position(7, 8), b"b", self.YO),
            ContentIs(Query(9, 3, 1), Position(7, 8), b"a", self.YO),
        ]
        for reply in early:
            self.assertIs(mirror.deliver(reply), Outcome.IGNORED, reply)
        self.assertIs(mirror.deliver(changes), Outcome.TAKEN)
        for reply in late:
            self.assertIs(mirror.deliver(reply), Outcome.IGNORED, reply)
        self.assertEqual((mirror.position, dict(mirror.files)), (Position(7, 5), {b"a": self.HI}))
        self.assertIs(
            mirror.deliver(ContentIs(query, Position(7, 8), b"a", self.YO)), Outcome.PLACED
        )
        self.assertIs(mirror.deliver(ContentIs(query, Position(7, 8), b"a", None)), Outcome.IGNORED)
        self.assertEqual(dict(mirror.files), {b"a": self.YO})

    def test_refusals(self):
        for cause in (Cause.STALE, Cause.AHEAD, Cause.TRUNCATED):
            mirror = self.placed()
            mirror.begin()
            self.assertIs(mirror.deliver(Refused(Query(9, 3, 2), cause, 4)), Outcome.UNPLACED)
            self.assertEqual(
                (mirror.position, dict(mirror.files), mirror.outstanding()),
                (None, {b"a": self.HI}, []),
            )
            mirror.begin()
            self.assertEqual(mirror.outstanding(), [Basis(Query(9, 3, 3))])
            self.assertIs(
                mirror.deliver(BasisIs(Query(9, 3, 3), Position(8, 1), [])), Outcome.PLACED
            )
            self.assertEqual(dict(mirror.files), {})
        mirror = self.placed()
        mirror.begin()
        self.assertIs(mirror.deliver(Refused(Query(9, 3, 2), Cause.TOO_LARGE, 0)), Outcome.ENDED)
        self.assertEqual((mirror.position, mirror.outstanding()), (Position(7, 5), []))

    def test_a_round_given_up(self):
        mirror = self.placed()
        mirror.begin()
        mirror.deliver(
            ChangesAre(
                Query(9, 3, 2), Position(7, 8), [(Mark.CHANGED, b"a"), (Mark.CREATED, b"b")], []
            )
        )
        mirror.deliver(ContentIs(Query(9, 3, 2), Position(7, 8), b"b", self.YO))
        mirror.begin()
        self.assertEqual(mirror.outstanding(), [Poll(Query(9, 3, 3), Position(7, 5))])
        self.assertEqual(dict(mirror.files), {b"a": self.HI, b"b": self.YO})


class Connections(InFolder):
    def test_no_deadlock(self):
        """30,000 requests ahead of a service that reads only where it can write."""
        with socket.create_server(("127.0.0.1", 0)) as listener:

            def serve():
                peer, _ = listener.accept()
                with peer, peer.makefile("rb") as requests:
                    while True:
                        head = requests.read(4)
                        if not head:
                            return
                        body = requests.read(int.from_bytes(head, "big"))
                        reply = (
                            b"\x02\x83"
                            + body[2:26]
                            + bytes(36)
                            + body[26:]
                            + b"\x01\0\0\4\0"
                            + bytes(1024)
                        )
                        peer.sendall(struct.pack(">I", len(reply)) + reply)

            thread = threading.Thread(target=serve)
            thread.start()
            connection = railburnet.Connection(listener.getsockname()[1])
            replies = list(connection.ask_all(Fetch(ONE, b"%d" % n) for n in range(30_000)))
            connection.close()
            thread.join()
        self.assertEqual([reply.path for reply in replies], [b"%d" % n for n in range(30_000)])

    def test_lost_connections(self):
        """A service that ends each connection after some replies, within a frame: the mirror is
        placed all the same."""
        port, server = self.server(b"mount empty 7 1000000\n")
        self.lines(server, *(b"write f%d plain %d" % (n, n) for n in range(40)))
        with socket.create_server(("127.0.0.1", 0)) as listener:
            cut = threading.Thread(target=self.cutting, args=(listener, port), daemon=True)
            cut.start()
            client, mirror = railburnet.Client(listener.getsockname()[1]), Mirror()
            while mirror.position is None or mirror.position.sequence < 41:
                client.round(mirror)
            client.close()
        self.assertEqual(
            dict(mirror.files), {b"f%d" % n: File(Kind.PLAIN, b"%d" % n) for n in range(40)}
        )

    @staticmethod
    def cutting(listener, port):
        """Hands on each connection, but ends it after 500 bytes of replies, then after 1,000,
        and so on."""
        allowed = 500
        while True:
            try:
                peer, _ = listener.accept()
            except OSError:
                return
            with peer, socket.create_connection(("127.0.0.1", port)) as service:
                left = allowed
                allowed += 500
                threading.Thread(
                    target=Connections.hand_on, args=(peer, service), daemon=True
                ).start()
                while left > 0:
                    data = service.recv(min(left, 4096))
                    if not data:
                        break
                    peer.sendall(data)
                    left -= len(data)
                peer.shutdown(socket.SHUT_RDWR)

    @staticmethod
    def hand_on(peer, service):
        try:
            while data := peer.recv(4096):
                service.sendall(data)
        except OSError:
            pass

    def test_a_moved_directory(self):
        port, server = self.server(b"mount empty 7 1000000\n")
        self.lines(server, b"write d/x.c plain 1", b"write d/y.h plain 2", b"write d.c plain 3")
        client, mirrors = railburnet.Client(port), [
            Mirror(),
            Mirror([b"e/**"]),
            Mirror([b"**/*.c"]),
        ]
        changes = railburnet.Changes(client, [b"**/*.c"])
        while client.position().sequence < 4:
            pass
        self.assertEqual(changes.next(), [(None, b"d.c"), (None, b"d/x.c")])
        for mirror in mirrors:
            self.assertIs(client.round(mirror), Outcome.PLACED)
        self.lines(server, b"write d/y.h plain 4", b"renamedir d e", b"write d/z.c plain 5")
        while client.position().sequence < 7:
            pass
        told = client.since(Position(7, 4), [b"**/*.c"])
        self.assertEqual((told.marked, told.prefixes), ([(Mark.CREATED, b"d/z.c")], [b"d", b"e"]))
        self.assertEqual(client.below(b"e").paths, [b"e/x.c", b"e/y.h"])
        self.assertEqual(client.below(b"e", [b"**/*.c"]).paths, [b"e/x.c"])
        self.assertEqual(client.below(b"z").paths, [])
        self.assertEqual(
            changes.next(), [(None, b"d/x.c"), (Mark.CREATED, b"d/z.c"), (None, b"e/x.c")]
        )
        self.assertEqual(changes.next(), [])
        for mirror in mirrors:
            self.assertIs(client.round(mirror), Outcome.PLACED)
            self.assertEqual(mirror.position.sequence, 7)
        one, three, four, five = (File(Kind.PLAIN, text) for text in (b"1", b"3", b"4", b"5"))
        self.assertEqual(
            dict(mirrors[0].files), {b"d.c": three, b"d/z.c": five, b"e/x.c": one, b"e/y.h": four}
        )
        self.assertEqual(dict(mirrors[1].files), {b"e/x.c": one, b"e/y.h": four})
        self.assertEqual(dict(mirrors[2].files), {b"d.c": three, b"d/z.c": five, b"e/x.c": one})
        client.close()

    def test_questions_and_rounds(self):
        """On one connection, which is never made anew."""
        port, server = self.server(b"mount empty 7 1000000\n")
        self.lines(server, b"write a plain 1")
        client, mirror = railburnet.Client(port, timeout=10, connections=1), Mirror()
        while client.position().sequence < 2:
            pass
        for _ in range(2):
            self.assertIs(client.round(mirror), Outcome.PLACED)
            self.assertEqual(client.basis().paths, [b"a"])
        self.assertEqual(dict(mirror.files), {b"a": File(Kind.PLAIN, b"1")})
        client.close()

    def test_waiting(self):
        """A poll waits for what it names, and no longer than its patience."""
        port, server = self.server(b"mount empty 7 1000000\nwrite a plain 1\n")
        with railburnet.Client(port, connections=1) as client:
            begun = time.monotonic()
            self.assertEqual(
                client.wait(Position(7, 1), patience=60).marked, [(Mark.CREATED, b"a")]
            )
            with self.assertRaises(railburnet.PositionRefused):
                client.wait(Position(6, 1), patience=60)
            write = threading.Timer(
                0.2, self.lines, (server, b"write c plain 1", b"write b plain 1")
            )
            write.start()
            changes = client.wait(Position(7, 2), [b"b"], 60)
            self.assertEqual(changes.marked, [(Mark.CREATED, b"b")])
            self.assertEqual(changes.position.sequence, 4)
            self.assertLess(time.monotonic() - begun, 30)
            write.join()
            begun = time.monotonic()
            changes = client.wait(Position(7, 2), [b"d"], 0.2)
            self.assertEqual((changes.marked, changes.position.sequence), ([], 4))
            self.assertGreaterEqual(time.monotonic() - begun, 0.2)

    def test_a_mount_that_cannot_wait(self):
        """An older one ends the connection at a patient request. It is tried twice."""
        port, _ = self.server(b"mount empty 7 1000000\nwrite a plain 1\n")
        with Relay(port, refused=[frames.PATIENCE_TAG]) as relay:
            with railburnet.Client(relay.port) as client:
                for _ in range(4):
                    changes = client.wait(Position(7, 1), patience=60)
                    self.assertEqual(changes.marked, [(Mark.CREATED, b"a")])
            self.assertEqual(relay.tags, [5, 2, 5, 2, 2, 2])

    def test_exclusions(self):
        """In each question, in a mirror, and below directories that were moved."""
        port, server = self.server(b"mount empty 7 1000000\n")
        paths = (b"d/a.c", b"d/a.o", b"!x", b"b")
        self.lines(server, *(b"write %s plain 1" % path for path in paths))
        objects, own = (b"!**/*.o",), (b"!\\!x", b"d/**", b"b", b"\\!*")
        with railburnet.Client(port) as client:
            self.assertTrue(wait_until(lambda: client.position().sequence == 5))
            self.assertEqual(client.basis(objects).paths, [b"!x", b"b", b"d/a.c"])
            self.assertEqual(client.basis(own).paths, [b"b", b"d/a.c", b"d/a.o"])
            self.assertEqual(client.basis([b"\\!x"]).paths, [b"!x"])
            self.assertEqual(client.basis([b"!**"]).paths, [])
            self.assertEqual(client.below(b"d", objects).paths, [b"d/a.c"])
            changes, mirror = railburnet.Changes(client, objects), Mirror(objects)
            self.assertEqual(changes.next(), [(None, path) for path in (b"!x", b"b", b"d/a.c")])
            self.assertIs(client.round(mirror), Outcome.PLACED)
            self.assertEqual(sorted(mirror.files), [b"!x", b"b", b"d/a.c"])
            self.lines(server, b"write d/b.o plain 2", b"write d/b.c plain 2", b"renamedir d e")
            self.assertTrue(wait_until(lambda: client.position().sequence == 8))
            marked = client.since(Position(7, 5), objects).marked
            self.assertEqual(marked, [(Mark.CREATED, b"d/b.c")])
            moved = [(None, b"d/a.c"), (Mark.CREATED, b"d/b.c"), (None, b"e/a.c"), (None, b"e/b.c")]
            self.assertEqual(changes.next(), moved)
            self.assertIs(client.round(mirror), Outcome.PLACED)
            self.assertEqual(sorted(mirror.files), [b"!x", b"b", b"e/a.c", b"e/b.c"])

    def test_waiting_for_what_is_not_excluded(self):
        port, server = self.server(b"mount empty 7 1000000\n")
        with railburnet.Client(port, connections=1) as client:
            lines = (b"write a.o plain 1", b"write d/b.o plain 1", b"write c plain 1")
            write = threading.Timer(0.2, self.lines, (server, *lines))
            write.start()
            changes = client.wait(Position(7, 1), [b"!**/*.o"], 60)
            self.assertEqual(changes.marked, [(Mark.CREATED, b"c")])
            self.assertEqual(changes.position.sequence, 4)
            write.join()

    def test_an_exchange_with_exclusions(self):
        """A poll and its reply, byte by byte."""
        came, root = [], "00" * 20

        def serve(listener):
            peer, _ = listener.accept()
            with peer, peer.makefile("rb") as requests:
                came.append(requests.read(0x49))
                peer.sendall(
                    bytes.fromhex(
                        f"0000004a 0282 {came[0][12:36].hex()} 0000000000000007 0000000000000002 "
                        f"{root} 00000001 01 0001 62 00000000"
                    )
                )

        with socket.create_server(("127.0.0.1", 0)) as listener:
            thread = threading.Thread(target=serve, args=(listener,))
            thread.start()
            with railburnet.Client(listener.getsockname()[1], connections=1) as client:
                changes = client.since(Position(7, 1), [b"!a"])
            thread.join()
        query = changes.query
        self.assertEqual(changes, ChangesAre(query, Position(7, 2), [(Mark.CREATED, b"b")], []))
        spelled = struct.pack(">QQQ", query.mirror, query.life, query.number).hex()
        self.assertEqual(
            came[0].hex(),
            f"00000045 0207 01 0001 61 0202 {spelled} 0000000000000007 0000000000000001 {root} 00"
            .replace(" ", ""),
        )

    def test_a_mount_that_knows_no_exclusions(self):
        """An older one ends the connection. Without exclusions it is asked as ever."""
        port, _ = self.server(b"mount empty 7 1000000\nwrite a plain 1\n")
        fault = re.escape(
            "the mount ended the connection (the mount may be too old for patterns with `!`)"
        )
        with Relay(port, refused=[frames.EXCLUSIONS_TAG]) as relay:
            with railburnet.Client(relay.port, connections=2) as client:
                for ask in (
                    lambda: client.basis([b"!b"]),
                    lambda: client.since(Position(7, 1), [b"!b"]),
                    lambda: client.below(b"d", [b"!b"]),
                    lambda: client.round(Mirror([b"!b"])),
                ):
                    with self.assertRaisesRegex(railburnet.ConnectionLost, fault):
                        ask()
                self.assertEqual(client.basis([b"a"]).paths, [b"a"])
            self.assertEqual(relay.tags, [7] * 8 + [1])

    def test_a_mount_that_knows_no_stat(self):
        """An older one ends the connection, and is fetched from as ever."""
        port, _ = self.server(b"mount empty 7 1000000\nwrite a plain 1\n")
        fault = re.escape("the mount ended the connection (the mount may be too old for stat)")
        with Relay(port, refused=[frames.STAT_TAG]) as relay:
            with railburnet.Client(relay.port, connections=2) as client:
                with self.assertRaisesRegex(railburnet.ConnectionLost, fault):
                    client.stat(b"a")
                self.assertEqual(client.fetch(b"a").file, File(Kind.PLAIN, b"1"))
            self.assertEqual(relay.tags, [8, 8, 3])

    def test_a_mount_that_knows_no_attributes(self):
        """An older one ends the connection, and is asked for its paths as ever."""
        port, _ = self.server(b"mount empty 7 1000000\nwrite a plain 1\n")
        with Relay(port, refused=[frames.ATTRIBUTES_TAG, frames.STATUS_TAG]) as relay:
            with railburnet.Client(relay.port, connections=2) as client:
                for name, ask in (("attributes", client.attributes), ("status", client.status)):
                    fault = re.escape(f"(the mount may be too old for {name})")
                    with self.assertRaisesRegex(railburnet.ConnectionLost, fault):
                        ask()
                self.assertEqual(client.basis().paths, [b"a"])
            self.assertEqual(relay.tags, [9, 9, 10, 10, 1])

    def test_another_version(self):
        """A frame of version 1 ends the connection, and nothing is answered."""
        port, _ = self.server(b"mount empty 7 1000000\n")
        with socket.create_connection(("127.0.0.1", port)) as peer:
            frame = railburnet.encode_request(Basis(ONE))
            peer.sendall(frame[:4] + b"\x01" + frame[5:])
            self.assertEqual(peer.recv(1), b"")

    def test_nobody_there(self):
        with socket.create_server(("127.0.0.1", 0)) as listener:
            port = listener.getsockname()[1]
        with self.assertRaises(railburnet.ConnectionLost):
            railburnet.Client(port, connections=2).position()

    def test_questions(self):
        port, server = self.server(b"mount empty 7 1000000\n")
        client = railburnet.Client(port)
        self.lines(
            server,
            b"write d/a plain 1",
            b"write d/b exec 2",
            b"write c link d/a",
            b"rename d/a d/x\\sy",
        )
        while client.position().sequence < 5:
            pass
        self.assertEqual(client.basis([b"d/*"]).paths, [b"d/b", b"d/x y"])
        marked = [
            (Mark.CREATED, b"c"),
            (Mark.REMOVED, b"d/a"),
            (Mark.CREATED, b"d/b"),
            (Mark.CREATED, b"d/x y"),
        ]
        self.assertEqual(client.since(Position(7, 2)).marked, marked)
        self.assertEqual(client.fetch(b"d/b").file, File(Kind.EXEC, b"2"))
        self.assertIsNone(client.fetch(b"d/a").file)
        for path in (b"d/b", b"c", b"d/a"):
            fetched, stated = client.fetch(path), client.stat(path)
            wanted = StatIs(stated.query, fetched.position, path, stat_of(fetched.file))
            self.assertEqual(stated, wanted)
        files = [(path, stat_of(client.fetch(path).file)) for path in client.basis().paths]
        self.assertEqual(client.attributes().files, files)
        below = [(path, stat) for path, stat in files if path.startswith(b"d/")]
        self.assertEqual(client.attributes([b"d/*"]).files, below)
        self.assertEqual(client.attributes(prefix=b"d").files, below)
        self.assertEqual(client.attributes([b"!d/b"], b"d").files, below[1:])
        created = [(Mark.CREATED, path) for path, _ in files]
        self.assertEqual(client.status().marked, created)
        self.assertEqual(client.status([b"!c"]).marked, created[1:])
        for position, refused in (
            (Position(6, 1), (Cause.STALE, 7)),
            (Position(7, 6), (Cause.AHEAD, 5)),
        ):
            with self.assertRaises(railburnet.PositionRefused) as raised:
                client.since(position)
            self.assertEqual((raised.exception.reply.cause, raised.exception.reply.value), refused)
        self.lines(server, b"flush")
        while client.position().sequence < 6:
            pass
        with self.assertRaises(railburnet.PositionRefused) as raised:
            client.since(Position(7, 5))
        self.assertEqual(
            (raised.exception.reply.cause, raised.exception.reply.value), (Cause.TRUNCATED, 6)
        )
        client.close()


if __name__ == "__main__":
    unittest.main()
