"""The block of examples/gnuradio: it yields the tape's run, whatever rooms it gets; in GNU Radio where it can be imported, too.

Else the block has a stand-in for GNU Radio's base class.
"""

import array
import importlib.util
import pathlib
import sys
import tempfile
import types
import unittest
from unittest import mock

import more1090

from . import stored

try:
    from gnuradio import blocks, gr
except ImportError:
    gr = None


class SyncBlock:
    """What the block calls of gnuradio.gr.sync_block."""

    def __init__(self, name, in_sig, out_sig):
        self.ports = (in_sig, out_sig)


def block(stand_ins):
    place = str(stored.TOP / "examples/gnuradio/tape_source.py")
    spec = importlib.util.spec_from_file_location("tape_source", place)
    made = importlib.util.module_from_spec(spec)
    with mock.patch.dict(sys.modules, stand_ins):
        spec.loader.exec_module(made)
    return made.blk


def stood_in():
    base = types.SimpleNamespace(sync_block=SyncBlock)
    numpy = types.SimpleNamespace(complex64="complex64")
    return block({"gnuradio": types.SimpleNamespace(gr=base), "gnuradio.gr": base, "numpy": numpy})


class Tapes(unittest.TestCase):
    def setUp(self):
        folder = tempfile.TemporaryDirectory()
        self.addCleanup(folder.cleanup)
        self.file = pathlib.Path(folder.name) / "tape"
        self.file.write_bytes((stored.TOP / "crates/cf32/stdin").read_bytes())
        self.read = more1090.tape.read(self.file.read_bytes())
        self.wanted = bytes(more1090.Run(*self.read[:3]).make(self.read.draws, self.read.noise).samples)


class StoodIn(Tapes):
    def samples(self, source, room, most):
        found = bytearray()
        while len(found) < most:
            output = array.array("f", bytes(8 * room))
            written = source.work([], [output])
            if written == -1:
                break
            found += output[: 2 * written].tobytes()
        return bytes(found)

    def test_whole(self):
        for room in (1000, 4096, 1000000):
            source = stood_in()(str(self.file))
            self.assertEqual(source.ports, (None, ["complex64"]))
            self.assertEqual(self.samples(source, room, 2 * len(self.wanted)), self.wanted)

    def test_repeated(self):
        source = stood_in()(str(self.file), repeat=True)
        self.assertEqual(self.samples(source, 5000, 2 * len(self.wanted)), 2 * self.wanted)

    def test_no_samples(self):
        self.file.write_bytes(more1090.tape.write(*self.read._replace(settings=more1090.settings())))
        for repeat in (False, True):
            self.assertEqual(self.samples(stood_in()(str(self.file), repeat), 10, 10), b"")

    def test_refused(self):
        """All that can be refused is, when the block is made."""
        noise = self.read.noise[:]
        noise[-1] = 65.0
        for number, changes in (
            (1, dict(settings=more1090.settings(nanoseconds=10**9))),
            (7, dict(draws=self.read.draws + more1090.draw(type=9))),
            (8, dict(noise=noise)),
            (11, dict(noise=self.read.noise[:100])),
            (11, dict(draws=b"")),
        ):
            self.file.write_bytes(more1090.tape.write(*self.read._replace(**changes)))
            with self.subTest(number), self.assertRaises(more1090.Refused) as caught:
                stood_in()(str(self.file))
            self.assertEqual(caught.exception.number, number)

    def test_ports_alone(self):
        self.assertEqual(stood_in()().ports, (None, ["complex64"]))


@unittest.skipIf(gr is None, "GNU Radio is not on this machine: the block of examples/gnuradio is tried with a stand-in alone")
class InGnuRadio(Tapes):
    def test_flowgraph(self):
        written = str(self.file) + ".cf32"
        flowgraph = gr.top_block()
        sink = blocks.file_sink(gr.sizeof_gr_complex, written)
        source = block({})(str(self.file))  # the flowgraph does not keep it
        flowgraph.connect(source, sink)
        flowgraph.run()
        sink.close()
        self.assertEqual(pathlib.Path(written).read_bytes(), self.wanted)
