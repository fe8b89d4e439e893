"""Runs, bookings, one reply alone and racks: the calls that make samples."""

import array
import collections
import ctypes
import enum

from .buffers import Passed
from .layouts import DRAW_FIELDS, RECORD, RECORD_FIELDS, SETTINGS_FIELDS, numpy
from .library import (
    MEMORY_LEN, PROTOTYPE_LEN, RACK_MEMORY_LEN, SAMPLE_RATE, STORED_LEN, STORED_RACK_LEN, RackState, State, library,
)
from .refusals import Refused


class Stop(enum.IntEnum):
    """Why a run call came back."""

    DONE = 0
    OUTPUT_FULL = 1
    WANTS_NOISE = 2
    WANTS_DRAWS = 3
    RECORDS_FULL = 4


Ran = collections.namedtuple("Ran", "draws_taken samples_written noise_used records_written stop samples_added")
Stored = collections.namedtuple("Stored", "run rack")
Made = collections.namedtuple("Made", "samples records ran")
Booking = collections.namedtuple("Booking", "samples noise records draws_taken ended draw time")


def _accepted(answer, field=0):
    if answer.refusal:
        raise Refused(answer.refusal, getattr(answer, "value", 0), getattr(answer, "field", field))


def of_setting(pair, samples_per_pulse):
    """What a constant of `library` is at these samples per pulse; any other number than 8 gives what 4 does."""
    return pair[samples_per_pulse == 8]


def floats(count):
    """Room for as many floats."""
    return array.array("f", bytes(4 * count))


def given_samples(made):
    """Samples that a call has made: numpy's complex64 over the same memory, or else the pairs of floats as they are."""
    return made if numpy is None else numpy.frombuffer(made, "<c8")


def given_records(made):
    return bytes(made) if numpy is None else numpy.frombuffer(made, RECORD)


def _settings_and_taps(passed, settings, taps_s, taps_ac):
    return (
        *passed.bytes("settings", settings, SETTINGS_FIELDS.size),
        *passed.floats("taps_s", taps_s),
        *passed.floats("taps_ac", taps_ac),
    )


def _samples_per_pulse(address, length):
    """Of settings. Those of another length or with another number are refused, whatever is passed beside them."""
    return 8 if length == SETTINGS_FIELDS.size and ctypes.string_at(address, length)[-1] == 8 else 4


class Run:
    """A run: its state, the prototypes and the working memory. One thread at a time may call it."""

    def __init__(self, settings, taps_s, taps_ac):
        """Opens a run; settings are 124 bytes, taps 32-bit floats."""
        with Passed() as passed:
            arguments = _settings_and_taps(passed, settings, taps_s, taps_ac)
            self._make_room(_samples_per_pulse(*arguments[:2]))
            opened = library.open(*arguments, *self._own())
        _accepted(opened)
        self._state = opened.state

    def _make_room(self, samples_per_pulse):
        prototype = ctypes.c_float * of_setting(PROTOTYPE_LEN, samples_per_pulse)
        self._mode_s = prototype()
        self._mode_ac = prototype()
        self._memory = (ctypes.c_float * of_setting(MEMORY_LEN, samples_per_pulse))()

    def _own(self):
        """The arguments of a call that are the run's own."""
        for buffer in (self._mode_s, self._mode_ac, self._memory):
            yield ctypes.addressof(buffer)
            yield len(buffer)

    def call(self, draws, noise, output, records):
        """A run call: takes draws of 65 bytes and noise, writes samples (two 32-bit floats each) and records of 66 bytes.

        Answers how many of each, why it came back, and the reply samples added. Pass the draws that were not taken and the noise
        that was not used again, ahead of new ones. None is a buffer of length 0.
        """
        with Passed() as passed:
            ran = library.run(
                self._state,
                *self._own(),
                *passed.bytes("draws", draws, DRAW_FIELDS.size),
                *passed.floats("noise", noise),
                *passed.written_floats("output", output),
                *passed.written_bytes("records", records, RECORD_FIELDS.size)
            )
        _accepted(ran)
        self._state = ran.state
        added = (ran.samples_added_high << 64) | ran.samples_added_low
        return Ran(ran.draws_taken, ran.samples_written, ran.noise_used, ran.records_written, Stop(ran.stop), added)

    def make(self, draws, noise):
        """A run call with room for all that these draws and this noise can yield: `samples`, `records` and `ran`.

        It comes back when the run is done, or for want of draws or noise.
        """
        with Passed() as passed:
            draw_bytes = passed.bytes("draws", draws, DRAW_FIELDS.size)[1]
            values = passed.floats("noise", noise)[1]
        # One sample more than the noise is for, so that a want of noise is not taken for a want of output.
        samples = min(values // 2 + 1, self.total - self.written)
        output = floats(2 * max(1, samples))
        records = bytearray(draw_bytes // DRAW_FIELDS.size * RECORD_FIELDS.size)
        ran = self.call(draws, noise, output, records)
        del output[2 * ran.samples_written :]
        del records[RECORD_FIELDS.size * ran.records_written :]
        return Made(given_samples(output), given_records(records), ran)

    @property
    def state(self):
        """A copy of the run's state (`more1090_state` of the header)."""
        return State.from_buffer_copy(self._state)

    @property
    def written(self):
        """Samples written so far."""
        return self._state.written

    @property
    def total(self):
        """Samples of the run."""
        return self._state.total

    @property
    def samples_per_pulse(self):
        return self._state.samples_per_pulse

    @property
    def sample_rate(self):
        """Samples a second."""
        return of_setting(SAMPLE_RATE, self.samples_per_pulse)

    def save(self, rack=None):
        """The run between two calls as bytes, for `restore`; with a rack, that and its memory too."""
        stored = bytearray(of_setting(STORED_LEN if rack is None else STORED_RACK_LEN, self.samples_per_pulse))
        behind = (RackState(), None, 0) if rack is None else (rack._state, *rack._own())
        with Passed() as passed:
            refusal = library.save(self._state, *self._own(), *behind, *passed.written_bytes("stored", stored))
        if refusal:
            raise Refused(refusal)
        return bytes(stored)


def restore(stored):
    """Takes up a run from the bytes that `Run.save` gave: the run, and the rack that was stored with it, or None.

    It goes on with the draws not taken and the noise not used, and the samples that the rack has not taken.
    """
    with Passed() as passed:
        given = passed.bytes("stored", stored)
        # Bytes of no such length are refused, whatever is passed beside them.
        run, rack = Run.__new__(Run), Rack.__new__(Rack) if given[1] in STORED_RACK_LEN else None
        run._make_room(8 if given[1] in (STORED_LEN[1], STORED_RACK_LEN[1]) else 4)
        if rack:
            rack._make_room()
        restored = library.restore(*given, *run._own(), *(rack._own() if rack else (None, 0)))
    _accepted(restored)
    run._state = restored.state
    if rack:
        rack._state = restored.rack
    return Stored(run, rack)


def booking(settings, taps_s, taps_ac, draws, time=None):
    """What a run will use, before it is made: samples, noise values and records, and the draws that it takes.

    `ended` says whether a draw ends the run; then `draw` is its index, and else `time` is that of the last draw. With `time`, that
    at which the draws before ran out, these draws are a further part: add records and draws taken of the parts.
    """
    with Passed() as passed:
        arguments = (
            *_settings_and_taps(passed, settings, taps_s, taps_ac),
            *passed.bytes("draws", draws, DRAW_FIELDS.size),
        )
        booked = library.booking(*arguments) if time is None else library.booking_part(time, *arguments)
    _accepted(booked)
    ended = bool(booked.ended)
    return Booking(
        booked.samples,
        booked.noise,
        booked.records,
        booked.draws_taken,
        ended,
        booked.draw if ended else None,
        None if ended else booked.time,
    )


def single(settings, taps_s, taps_ac, draw, noise, output=None):
    """One reply alone in a stretch of its own; the draw's gap is its time. Noise and output have two floats for each sample.

    Answers the samples: those written to `output` where it is given.
    """
    with Passed() as passed:
        arguments = (
            *_settings_and_taps(passed, settings, taps_s, taps_ac),
            *passed.bytes("draw", draw, DRAW_FIELDS.size),
            *passed.floats("noise", noise),
        )
        made = floats(arguments[-1]) if output is None else output
        done = library.single(*arguments, *passed.written_floats("output", made))
    _accepted(done)
    return given_samples(made) if output is None else output


class Rack:
    """One to sixteen feeds of one run, each with a delay in samples and a gain. One thread at a time may call it."""

    def __init__(self, delays, gains):
        """Opens a rack: delays of 0 to 4,095 samples, gains of 0 to 1; numbers, or buffers of 64-bit and of float values."""
        self._make_room()
        with Passed() as passed:
            opened = library.rack_open(
                *self._own(),
                *passed.words("delays", _numbers(delays, "Q", int)),
                *passed.floats("gains", _numbers(gains, "f", float))
            )
        _accepted(opened)
        self._state = opened.rack

    def _make_room(self):
        self._memory = (ctypes.c_float * RACK_MEMORY_LEN)()

    def _own(self):
        return ctypes.addressof(self._memory), RACK_MEMORY_LEN

    @property
    def feeds(self):
        return self._state.feeds

    @property
    def state(self):
        """A copy of the rack's state (`more1090_rack` of the header)."""
        return RackState.from_buffer_copy(self._state)

    def call(self, samples, room=None):
        """Takes samples, and writes as many for each feed to `room`, feed 0's first; without room, answers a list of feeds."""
        with Passed() as passed:
            taken = passed.floats("samples", samples)
            made = floats(self.feeds * taken[1]) if room is None else room
            ran = library.rack_run(self._state, *self._own(), *taken, *passed.written_floats("room", made))
        _accepted(ran)
        self._state = ran.rack
        if room is not None:
            return room
        return [given_samples(made[k * taken[1] : (k + 1) * taken[1]]) for k in range(self.feeds)]


def _numbers(given, code, kind):
    """A list of plain numbers as a buffer; a buffer as it is."""
    try:
        memoryview(given)
        return given
    except TypeError:
        pass
    numbers = list(given)
    if kind is float:
        numbers = [float(number) for number in numbers]
    return array.array(code, numbers)
