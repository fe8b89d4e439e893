"""Every refusal of the library through the module: its number, name, value, field and words."""

import array
import pickle
import unittest

import more1090
from more1090 import Refused, refusals

from . import stored

NAN = float("nan")


def opened(taps_s=None, taps_ac=None, **changes):
    tape = stored.worked()
    given = dict(nanoseconds=1000000)
    given.update(changes)
    return more1090.Run(more1090.settings(**given), taps_s or tape.taps_s, taps_ac or tape.taps_ac)


def ran(*draws, noise=None, output=None, draw_bytes=None):
    draws = b"".join(more1090.draw(**draw) for draw in draws) if draw_bytes is None else draw_bytes
    room = array.array("f", [0.0, 0.0]) if output is None else output
    return opened().call(draws, array.array("f", noise or []), room, bytearray(66))


class Refusals(unittest.TestCase):
    seen = set()

    def refused(self, number, call, *arguments, value=0, field=0, **named):
        with self.assertRaises(Refused) as caught:
            call(*arguments, **named)
        found = caught.exception
        self.assertEqual((found.number, found.value, found.field), (number, value, field))
        self.assertEqual(found.name, refusals.NAMES[number])
        self.assertEqual(str(found), "refused %d: %s" % (number, found.meaning))
        self.assertNotIn("{", found.meaning)
        self.assertNotIn("?", found.meaning)
        self.seen.add(number)
        return found

    def test_every_number(self):
        """All of the header's, each in its own place below."""
        for name in dir(self):
            if name.startswith("test_") and name != "test_every_number":
                getattr(self, name)()
        self.assertEqual(self.seen, set(refusals.NAMES))

    def test_opening(self):
        zeros = array.array("f", bytes(4 * 1486))
        self.refused(1, opened, nanoseconds=10**9)
        self.refused(1, opened, seconds=2**63)
        self.refused(2, opened, rates=[1.0] * 5 + [-1.0, NAN], value=5)
        self.refused(3, opened, rates=[0.0] * 7)
        found = self.refused(4, opened, clock=(1, 0.2, 0.0), value=2)
        self.assertEqual(found.meaning, "the clock error: an unknown kind, or a parameter out of range")
        self.refused(5, opened, taps_s=zeros[1:])
        self.refused(5, opened, taps_s=array.array("f", [17.0] * 1486))
        self.refused(6, opened, taps_s=zeros)
        self.refused(14, opened, trigger_level=0.05)
        self.refused(15, opened, samples_per_pulse=5)
        self.refused(9, more1090.Run, b"", zeros, zeros)
        self.refused(9, more1090.Run, None, None, None)
        self.refused(5, more1090.Run, more1090.settings(), None, None)

    def test_calls(self):
        found = self.refused(7, ran, {}, dict(type=2, overlay=1, format=3), value=1, field=7)
        self.assertEqual(found.meaning, "draw 1, field 7 (format pick)")
        self.refused(7, ran, dict(gap=-1.0))
        for field, name, bad in ((1, "type", 7), (2, "cn0", NAN), (3, "amplitude", -1.0), (8, "capability", 200)):
            self.refused(7, ran, {name: bad}, value=0, field=field)
        self.refused(7, ran, dict(type=6, spi=2), field=12)
        self.refused(8, ran, noise=[0.0, 0.0, NAN], value=2)
        self.refused(9, ran, draw_bytes=bytes(66))
        self.refused(9, ran, output=array.array("f", [0.0] * 3))
        self.refused(9, ran, output=array.array("f"))

    def test_booking_and_single(self):
        tape = stored.worked()
        samples = array.array("f", bytes(64000))
        self.refused(7, more1090.booking, *tape[:3], tape.draws + more1090.draw(type=9), value=3, field=1)
        self.refused(9, more1090.booking, *tape[:3], b"\0")
        self.refused(12, more1090.single, *tape[:3], tape.draws[:65], samples[2:])
        self.refused(12, more1090.single, *tape[:3], tape.draws[:65], samples, samples[2:])
        self.refused(9, more1090.single, *tape[:3], tape.draws, samples)
        self.refused(7, more1090.single, *tape[:3], more1090.draw(type=3), samples, field=9)

    def test_rack(self):
        self.refused(17, more1090.Rack, [], [])
        self.refused(17, more1090.Rack, [0] * 17, [1.0] * 17)
        self.refused(17, more1090.Rack, [4096], [1.0])
        self.refused(17, more1090.Rack, [0], [1.5])
        self.refused(17, more1090.Rack, [0], [1e300])
        self.refused(9, more1090.Rack, [0, 1], [1.0])
        rack = more1090.Rack([0, 1], [1.0, 1.0])
        two, four = array.array("f", [0.0] * 2), array.array("f", [0.0] * 4)
        self.refused(9, rack.call, two[:1])
        self.refused(9, rack.call, two, array.array("f", [0.0] * 2))
        self.assertIs(rack.call(two, four), four)

    def test_tape(self):
        self.refused(11, more1090.tape.read, b"")

    def test_levels(self):
        for tenths in (2001, 2**32, 2**64, 10**30):
            self.refused(13, more1090.level, tenths)

    def test_records_and_logs(self):
        record = more1090.RECORD_FIELDS.pack(type=2, count=536, message_length=7)
        self.refused(18, more1090.pages, record + more1090.RECORD_FIELDS.pack(type=7), value=1)
        self.refused(9, more1090.pages, record[1:])
        self.refused(9, more1090.pages, record, bytearray(4379))
        heard = more1090.entry(5, bytes(7))
        self.refused(16, more1090.compare_log, heard + more1090.entry(4, bytes(7)), record, 0)
        self.refused(16, more1090.compare_log, more1090.ENTRY_FIELDS.pack(message_length=3), record, 0)
        self.refused(18, more1090.compare_log, heard, record + record[1:] + b"\0", 0, value=1)
        self.refused(9, more1090.compare_log, heard[1:], record, 0)
        self.refused(9, more1090.compare_log, heard, record, 0, array.array("Q"), None)
        self.refused(9, more1090.compare_log, heard, record, 0, None, array.array("Q", [0, 0]))

    def test_stored(self):
        kept = opened().save()
        self.refused(19, more1090.restore, kept[:-1])
        self.refused(20, more1090.restore, bytes(len(kept)))
        self.refused(21, more1090.restore, kept[:8] + bytes(8) + kept[16:])
        self.refused(22, more1090.restore, kept[:-1] + bytes([kept[-1] ^ 1]))

    def test_pickled(self):
        found = pickle.loads(pickle.dumps(Refused(7, 3, 4)))
        self.assertEqual((found.number, found.value, found.field, str(found)), (7, 3, 4, "refused 7: draw 3, field 4 (carrier)"))
