"""Messages, levels, pages, logs and racks through the module."""

import array
import random
import struct
import unittest

import more1090
from more1090 import NOBODY

from . import stored

LONG = bytes.fromhex("8d4840d6202cc371c32ce0576098")


def f32(number):
    return struct.unpack("<f", struct.pack("<f", number))[0]


class Messages(unittest.TestCase):
    def test_parity(self):
        self.assertEqual(more1090.parity(b"123456789"), 0x054268)
        self.assertEqual((more1090.parity(LONG), more1090.parity(b""), more1090.parity(None)), (0, 0, 0))
        for place in range(112):
            flipped = bytearray(LONG)
            flipped[13 - place // 8] ^= 1 << place % 8
            change = more1090.parity(flipped)
            self.assertEqual(more1090.parity_change(place), change)
            self.assertEqual(more1090.flipped_bit(change), place)
        self.assertEqual([more1090.parity_change(place) for place in (112, 256, 2**64 - 1, 2**64)], [0] * 4)
        self.assertEqual([more1090.flipped_bit(change) for change in (0, 2**24, 2**32, -1)], [None] * 4)

    def test_class(self):
        for message, wanted in ((LONG, 0), (b"\x92" + bytes(13), 7), (b"\x90" + bytes(6), None), (bytes(2), 6), (bytes(13), None)):
            self.assertEqual(more1090.class_of(message), wanted, message)

    def test_interrogator(self):
        cases = {"58000000e0ef0d": ("II", 0), "58000000e0ef1c": ("SI", 1), "58000000e0ef8d": ("unassigned", None), "00" * 7: None}
        for message, wanted in cases.items():
            self.assertEqual(more1090.interrogator(bytes.fromhex(message)), wanted, message)
        self.assertIsNone(more1090.interrogator(LONG))

    def test_level(self):
        self.assertEqual(struct.pack(">f", more1090.level(315)).hex(), "3799f168")
        self.assertEqual((more1090.level(2000), more1090.level(800)), (4882.8125, 0.0048828125))
        for wrong in (31.5, "315", None):
            with self.assertRaises((TypeError, AttributeError)):
                more1090.level(wrong)
        with self.assertRaises(ValueError):
            more1090.level(-1)


class Pages(unittest.TestCase):
    def test_pages(self):
        tape = stored.worked()
        records = bytes(more1090.Run(*tape[:3]).make(tape.draws, tape.noise).records)
        paper = more1090.pages(records)
        lines = [line.rstrip() for line in paper.decode().splitlines()]
        self.assertEqual(lines[:3], ["             100 2  536 20000000000000", "             151 6  189 0e00", ""])
        self.assertEqual((len(paper), len(lines), more1090.pages(b"")), (4380, 60, b""))
        self.assertEqual(len(more1090.pages(records * 31)), 2 * 4380)
        room = bytearray(b"x" * 4381)
        self.assertEqual(more1090.pages(records, room), 1)
        self.assertEqual(room, paper + b"x")
        self.assertEqual(more1090.page_line(paper[73:145]), (151, 6, 189, b"\0\x0e"))
        self.assertEqual(more1090.page_line(paper[:72]), (100, 2, 536, b"\x20" + bytes(6)))
        for other in (b" " * 72, paper[:71], b"", None):
            self.assertIsNone(more1090.page_line(other))


class Logs(unittest.TestCase):
    def compare(self, heard, sent, tolerance):
        log = b"".join(more1090.entry(sample, bytes(7)) for sample in heard)
        records = b"".join(more1090.RECORD_FIELDS.pack(first_sample=first, type=2, message_length=7) for first in sent)
        return more1090.compare_log(log, records, tolerance)

    def test_specification(self):
        """The table of SPECIFICATION 13.2."""
        last = 2**64 - 1
        for tolerance, heard, sent, partners in (
            (5, [5, 10], [10, 0], [1, 0]),
            (1, [5], [100, 5], [1]),
            (0, [7], [7, 7], [0]),
            (last, [5], [10], [0]),
            (last, [last], [0], [0]),
        ):
            found = self.compare(heard, sent, tolerance)
            self.assertEqual(list(found.partners), partners)
            self.assertEqual((found.pairs, found.unheard, found.unsent), (len(heard), len(sent) - len(heard), 0))
            self.assertEqual([found.owners[record] for record in partners], list(range(len(heard))))

    def test_nobody(self):
        found = self.compare([1, 50], [10, 52, 90], 3)
        self.assertEqual((list(found.partners), list(found.owners)), ([NOBODY, 1], [NOBODY, 1, NOBODY]))
        self.assertEqual(found[:3], (1, 2, 1))
        self.assertEqual(self.compare([], [], 0)[:3], (0, 0, 0))

    def test_lists_given(self):
        log, records = more1090.entry(5, bytes(7)), more1090.RECORD_FIELDS.pack(first_sample=5, type=2, message_length=7)
        partners, owners = array.array("Q", [9]), array.array("Q", [9])
        found = more1090.compare_log(log, records, 0, partners, owners)
        self.assertIs(found.partners, partners)
        self.assertEqual((list(partners), list(owners)), ([0], [0]))


class Racks(unittest.TestCase):
    def test_feeds_of_a_run(self):
        """Each feed is the run, delayed and scaled, however the samples are cut."""
        tape = more1090.tape.read(stored.bases()["long"])
        samples = array.array("f", bytes(more1090.Run(*tape[:3]).make(tape.draws, tape.noise).samples))[:30000]
        delays, gains = [0, 3, 4095, 0], [1.0, 0.3, 0.5, 0.0]
        dice = random.Random(2)
        for cut in (len(samples), 0):
            rack, feeds, at = more1090.Rack(delays, gains), [bytearray() for _ in delays], 0
            while at < len(samples):
                part = samples[at : at + (cut or 2 * dice.choice((0, 1, 40, 5000)))]
                at += len(part)
                for feed, more in zip(feeds, rack.call(part)):
                    feed += bytes(more)
            for feed, delay, gain in zip(feeds, delays, map(f32, gains)):
                wanted = [0.0] * (2 * delay) + [f32(gain * value) for value in samples[: len(samples) - 2 * delay]]
                self.assertEqual(feed, array.array("f", wanted[: len(samples)]).tobytes())

    def test_given_as_buffers(self):
        rack = more1090.Rack(array.array("Q", [1, 0]), array.array("f", [1.0, 0.5]))
        self.assertEqual((rack.feeds, rack.state.delays[:2], rack.state.gains[:2]), (2, [1, 0], [1.0, 0.5]))
        for wrong in (array.array("d", [1.0, 0.5]), ["a", "b"], 5):
            with self.assertRaises((TypeError, ValueError)):
                more1090.Rack([1, 0], wrong)
        with self.assertRaises(OverflowError):
            more1090.Rack([-1], [1.0])
