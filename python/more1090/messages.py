"""Messages, levels, records on paper, and what a receiver heard."""

import array
import collections
import ctypes

from .buffers import Passed
from .layouts import ENTRY_FIELDS, RECORD_FIELDS, numpy
from .library import NO_BIT, NO_CLASS, NOBODY, PAGE_LEN, library
from .refusals import Refused

Interrogator = collections.namedtuple("Interrogator", "kind code")
Line = collections.namedtuple("Line", "first_sample type count message")
Heard = collections.namedtuple("Heard", "pairs unheard unsent partners owners")

_INTERROGATORS = {1: "II", 2: "SI", 3: "unassigned"}
_LINES = 60
_MESSAGE = 14


def parity(message):
    """The parity of a message in whole bytes, below 2^24; 0 of a message that ends in its own parity."""
    with Passed() as passed:
        return library.parity(*passed.bytes("message", message))


def parity_change(place):
    """What flipping the bit at a place, counted back from 0 at the last bit, changes in the parity; 0 above 111."""
    return library.parity_change(_word("place", place))


def flipped_bit(change):
    """The place whose flipped bit changes the parity so, or None."""
    if not 0 <= change < 2**32:
        return None
    place = library.flipped_bit(change)
    return None if place == NO_BIT else place


def class_of(message):
    """The class of a message from its bytes: the number of a type, 7 for TIS-B, or None."""
    with Passed() as passed:
        found = getattr(library, "class")(*passed.bytes("message", message))
    return None if found == NO_CLASS else found


def interrogator(message):
    """Which interrogator a message answers: kind "II", "SI" or "unassigned" and code; None but of 7 bytes with DF 11."""
    code = ctypes.c_uint32()
    with Passed() as passed:
        kind = library.interrogator(*passed.bytes("message", message), ctypes.addressof(code))
    return Interrogator(_INTERROGATORS[kind], None if kind == 3 else code.value) if kind else None


def level(tenths):
    """The amplitude of a level in tenths of a decibel, 0 to 2000, at 4 samples per pulse."""
    amplitude = ctypes.c_float()
    refusal = library.level(_word("tenths", tenths), ctypes.addressof(amplitude))
    if refusal:
        raise Refused(refusal)
    return amplitude.value


def pages(records, output=None):
    """Records of 66 bytes on paper, as bytes: 60 lines of 72 characters a page. With `output` they are written there, from its
    start on, and the number of pages is answered."""
    with Passed() as passed:
        given = passed.bytes("records", records, RECORD_FIELDS.size)
        lines = given[1] // RECORD_FIELDS.size
        paper = bytearray((lines + _LINES - 1) // _LINES * PAGE_LEN) if output is None else output
        written = library.pages(*given, *passed.written_bytes("output", paper))
    if written.refusal:
        raise Refused(written.refusal, written.value)
    return bytes(paper) if output is None else written.pages


def page_line(line):
    """A line of 72 bytes, without its line feed, read back; None where it shows no record."""
    message = (ctypes.c_ubyte * _MESSAGE)()
    with Passed() as passed:
        read = library.page_line(*passed.bytes("line", line), ctypes.addressof(message))
    if not read.found:
        return None
    return Line(read.first_sample, read.type, read.count, bytes(message)[: read.message_length])


def compare_log(log, records, tolerance, partners=None, owners=None):
    """A receiver's log, entries of 23 bytes in rising order of sample, held against the records of a run.

    Answers the counts of pairs, of records unheard and of entries unsent; each entry's record and each record's entry by their
    indices, or `NOBODY`. The two lists are written to `partners` and `owners` where they are given.
    """
    with Passed() as passed:
        entries = passed.bytes("log", log, ENTRY_FIELDS.size)
        sent = passed.bytes("records", records, RECORD_FIELDS.size)
        of_entries = _words(entries[1] // ENTRY_FIELDS.size) if partners is None else partners
        of_records = _words(sent[1] // RECORD_FIELDS.size) if owners is None else owners
        held = library.compare_log(
            *entries,
            *sent,
            _word("tolerance", tolerance),
            *passed.written_words("partners", of_entries),
            *passed.written_words("owners", of_records)
        )
    if held.refusal:
        raise Refused(held.refusal, held.value)
    return Heard(
        held.pairs,
        held.unheard,
        held.unsent,
        _given_words(of_entries) if partners is None else partners,
        _given_words(of_records) if owners is None else owners,
    )


def _words(count):
    return array.array("Q", [NOBODY]) * count


def _given_words(made):
    return made if numpy is None else numpy.frombuffer(made, "<u8")


def _word(name, number):
    """A number as the library takes it, below 2^64; what is above it is as refused as the largest."""
    if not isinstance(number, int):
        number = number.__index__()
    if number < 0:
        raise ValueError("%s: %d is negative" % (name, number))
    return min(number, 2**64 - 1)
