"""What a call takes as a buffer, and what it does not: kinds, alignment, overlap; and numpy's arrays where numpy is there."""

import array
import ctypes
import unittest

import more1090
from more1090 import layouts
from more1090.buffers import Passed

from . import stored

try:
    import numpy
except ImportError:
    numpy = None


def run():
    return more1090.Run(*stored.worked()[:3])


def pairs(count):
    return array.array("f", bytes(8 * count))


class Kinds(unittest.TestCase):
    def call(self, **given):
        passed = dict(draws=None, noise=None, output=pairs(1), records=None)
        passed.update(given)
        return run().call(**passed)

    def test_taken(self):
        tape = stored.worked()
        draws, room = bytearray(tape.draws), bytearray(8 * 8000 + 4)
        outputs = (
            pairs(8000),
            (ctypes.c_float * 16000)(),
            memoryview(room)[4:].cast("f"),
            memoryview(pairs(8001))[2:],
            memoryview(pairs(8000)).cast("B").cast("f", (8000, 2)),
        )
        for output in outputs:
            for given in (tape.draws, draws, memoryview(draws), array.array("B", draws), (ctypes.c_ubyte * 195)(*draws)):
                records = (ctypes.c_char * 132)()
                self.assertEqual(self.call(draws=given, noise=tape.noise, output=output, records=records).records_written, 2)
        self.assertEqual(self.call(draws=b"", noise=array.array("f"), records=bytearray()).draws_taken, 0)

    def test_structures(self):
        """Structures of a draw's size are draws: so numpy's dtype DRAW is taken."""

        class Draw(ctypes.LittleEndianStructure):
            _pack_ = 1
            _layout_ = "ms"  # asked for since Python 3.14
            _fields_ = [("gap", ctypes.c_double), ("type", ctypes.c_uint8), ("rest", ctypes.c_uint8 * 56)]

        draws = (Draw * 2)()
        draws[0].gap, draws[0].type = 1e6, 2
        self.assertEqual((ctypes.sizeof(Draw), self.call(draws=draws).draws_taken), (65, 1))
        with self.assertRaises(TypeError):
            self.call(records=draws)

    def test_other_kinds(self):
        for name, wrong in (
            ("draws", [1, 2]),
            ("draws", "text"),
            ("draws", array.array("H", [1])),
            ("draws", array.array("d", [1.0])),
            ("noise", b"\0\0\0\0"),
            ("noise", [0.0, 0.0]),
            ("noise", array.array("d", [0.0])),
            ("noise", array.array("i", [0])),
            ("noise", (ctypes.c_float.__ctype_be__ * 2)()),
            ("output", bytearray(8)),
            ("output", 8),
            ("records", array.array("f", [0.0])),
        ):
            with self.subTest(name=name, wrong=wrong), self.assertRaisesRegex(TypeError, name + ": "):
                self.call(**{name: wrong})

    def test_not_fit(self):
        floats = pairs(8)
        for name, wrong, why in (
            ("output", memoryview(floats).toreadonly(), "cannot be written"),
            ("records", bytes(66), "cannot be written"),
            ("output", memoryview(floats)[::2], "not contiguous"),
            ("noise", memoryview(floats)[::-1], "not contiguous"),
            ("draws", memoryview(bytes(130))[::2], "not contiguous"),
            ("noise", memoryview(bytearray(13))[1:].cast("f"), "not aligned"),
            ("output", memoryview(bytearray(10))[2:].cast("f"), "not aligned"),
        ):
            with self.subTest(name=name, why=why), self.assertRaisesRegex(BufferError, "%s: .*%s" % (name, why)):
                self.call(**{name: wrong})

    def test_overlap(self):
        room = bytearray(4000)
        floats = memoryview(room).cast("f")
        with self.assertRaisesRegex(BufferError, "output overlaps with noise"):
            self.call(noise=floats[:10], output=floats[8:20])
        with self.assertRaisesRegex(BufferError, "records overlaps with output"):
            self.call(output=floats[:10], records=memoryview(room)[39:200])
        with self.assertRaisesRegex(BufferError, "output overlaps with samples|room overlaps with samples"):
            more1090.Rack([0], [1.0]).call(floats[:4], floats[2:6])
        # What is read may overlap, and neighbours do not.
        self.call(draws=memoryview(room)[:65], noise=floats[:2], output=floats[100:102], records=memoryview(room)[408:])

    def test_let_go(self):
        """A buffer is free once the call is over, also where it is not taken."""
        room = bytearray(8)
        for given in (memoryview(room).cast("f"), array.array("d", [0.0])):
            try:
                self.call(output=given)
            except TypeError:
                pass
            given.release() if isinstance(given, memoryview) else given.append(1.0)
        room.append(1)
        with Passed() as passed:
            passed.written_bytes("room", room)
            with self.assertRaises(BufferError):
                room.append(1)
        room.append(1)


class Fields(unittest.TestCase):
    def test_packed(self):
        row = more1090.RECORD_FIELDS.pack(time=1.5, type=6, message=b"\1\2", message_length=2)
        self.assertEqual(len(row), 66)
        back = more1090.RECORD_FIELDS.unpack(row)
        self.assertEqual((back.time, back.type, back.message), (1.5, 6, b"\1\2" + bytes(12)))
        for wrong, error in (
            (dict(type=256), ValueError),
            (dict(type=-1), ValueError),
            (dict(time="now"), ValueError),
            (dict(message=bytes(15)), ValueError),
            (dict(colour=1), TypeError),
        ):
            with self.assertRaises(error):
                more1090.RECORD_FIELDS.pack(**wrong)
        with self.assertRaisesRegex(ValueError, "Settings: rates"):
            more1090.settings(rates=[1.0] * 6)
        with self.assertRaises(ValueError):
            list(more1090.RECORD_FIELDS.read(bytes(67)))

    def test_without_numpy(self):
        if layouts.numpy is None:
            self.assertEqual([more1090.SETTINGS, more1090.DRAW, more1090.RECORD, more1090.ENTRY], [None] * 4)


@unittest.skipIf(numpy is None, "numpy is not on this machine: its arrays and dtypes are not tried")
class Numpy(unittest.TestCase):
    def test_dtypes(self):
        for layout, dtype in ((more1090.SETTINGS_FIELDS, more1090.SETTINGS), (more1090.DRAW_FIELDS, more1090.DRAW),
                              (more1090.RECORD_FIELDS, more1090.RECORD), (more1090.ENTRY_FIELDS, more1090.ENTRY)):
            self.assertEqual(dtype.itemsize, layout.size)
            self.assertEqual([dtype.fields[field.name][1] for field in layout.fields], [field.offset for field in layout.fields])

    def test_arrays(self):
        tape = stored.worked()
        draws = numpy.frombuffer(tape.draws, more1090.DRAW)
        self.assertEqual(list(draws["gap"]), [100.0, 50.5, 1e6])
        noise, output = numpy.asarray(tape.noise, numpy.float32), numpy.zeros(8000, numpy.complex64)
        records = numpy.zeros(2, more1090.RECORD)
        ran = run().call(draws, noise, output, records)
        self.assertEqual((ran.samples_written, list(records["first_sample"]), list(records["type"])), (8000, [100, 151], [2, 6]))
        made = run().make(draws, noise)
        self.assertEqual((made.samples.dtype, made.samples.tobytes()), (numpy.complex64, output.tobytes()))
        self.assertEqual(made.records.tobytes(), records.tobytes())
        self.assertEqual([row.first_sample for row in more1090.RECORD_FIELDS.read(made.records)], [100, 151])
        given = numpy.frombuffer(tape.settings, more1090.SETTINGS), numpy.asarray(tape.taps_s), numpy.asarray(tape.taps_ac)
        self.assertEqual(more1090.tape.write(*given, draws, noise), stored.WORKED.read_bytes())
        self.assertEqual(more1090.Run(*given).make(draws, noise).samples.tobytes(), output.tobytes())
        alone = more1090.single(*tape[:3], draws[:1], noise)
        self.assertEqual((alone.dtype, len(alone)), (numpy.complex64, 8000))
        self.assertEqual(len(more1090.pages(records)), 4380)
        feeds = more1090.Rack(numpy.array([0, 5], numpy.uint64), numpy.ones(2, numpy.float32)).call(output)
        self.assertTrue((feeds[1][5:] == output[:-5]).all())
        heard = more1090.compare_log(numpy.zeros(1, more1090.ENTRY)[:0], records, 0)
        self.assertEqual((heard.owners.dtype, heard.unheard), (numpy.uint64, 2))
        for wrong in (noise.astype(numpy.float64), noise.astype(">f4"), noise.astype(numpy.int32)):
            with self.assertRaises(TypeError):
                run().call(draws, wrong, output, records)
        for other in (numpy.zeros((2, 8), numpy.float32, "F"), numpy.zeros(8, numpy.complex64)[::2], numpy.zeros(8, numpy.complex64).real):
            with self.assertRaisesRegex(BufferError, "not contiguous"):
                run().call(draws, noise, other, records)
        output.flags.writeable = False
        with self.assertRaises(BufferError):
            run().call(draws, noise, output, records)
