"""A tape's run as a source of complex samples in GNU Radio: an Embedded Python Block, or a block of a flowgraph in Python.

It writes into GNU Radio's own buffers, without a copy. The sample rate is 8,000,000 or 16,000,000 a second, as the tape says.
"""

import array

import more1090
import numpy
from gnuradio import gr

DONE = -1  # what `work` answers where no sample will come
TAPE = 11  # the refusal of a tape whose draws or noise run out


class blk(gr.sync_block):
    def __init__(self, tape="", repeat=False):
        gr.sync_block.__init__(self, name="more1090 tape", in_sig=None, out_sig=[numpy.complex64])
        self.repeat = repeat
        # GNU Radio Companion makes a block of the default arguments to see its ports.
        if tape:
            with open(tape, "rb") as file:
                self.tape = more1090.tape.read(file.read())
            self.check()
            self.open_run()

    def check(self):
        """Refuses here what a call would refuse: a block that raises while a flowgraph runs lets it hang."""
        booked = more1090.booking(*self.tape[:4])
        if not booked.ended or booked.noise > len(self.tape.noise):
            raise more1090.Refused(TAPE)
        self.open_run()
        self.call(array.array("f", [0.0, 0.0]))

    def open_run(self):
        self.run = more1090.Run(*self.tape[:3])
        # Views: what is left of them is passed again without a copy.
        self.draws = memoryview(self.tape.draws)
        self.noise = memoryview(self.tape.noise)
        self.records = bytearray(len(self.tape.draws) // more1090.DRAW_FIELDS.size * more1090.RECORD_FIELDS.size)

    def call(self, output):
        ran = self.run.call(self.draws, self.noise, output, self.records)
        self.draws = self.draws[more1090.DRAW_FIELDS.size * ran.draws_taken :]
        self.noise = self.noise[ran.noise_used :]
        return ran.samples_written

    def work(self, input_items, output_items):
        written = self.call(output_items[0])
        if not written and self.repeat and self.run.total:
            self.open_run()
            written = self.call(output_items[0])
        return written or DONE
