"""Tapes as bytes (SPECIFICATION 4.6): settings, taps, draws and noise, taken apart and put together."""

import array
import collections
import struct

from .layouts import DRAW_FIELDS, SETTINGS_FIELDS
from .library import MODE_AC_TAPS_LEN, MODE_S_TAPS_LEN
from .refusals import Refused

Tape = collections.namedtuple("Tape", "settings taps_s taps_ac draws noise")

MOST_DRAWS = 400
_TAPE = 11
_COUNT = struct.Struct("<I")


def _floats(values):
    """Little-endian floats, in memory of their own, where they are aligned."""
    return array.array("f", bytes(values))


class _Sections:
    """A tape that is read section by section."""

    def __init__(self, tape):
        self.view = memoryview(tape).cast("B")
        self.at = 0

    def next(self, width, accepted):
        """The values of the next section, where its count is accepted and none is missing."""
        start = self.at + _COUNT.size
        if start > len(self.view):
            raise Refused(_TAPE)
        count = _COUNT.unpack_from(self.view, self.at)[0]
        self.at = start + width * count
        if not accepted(count) or self.at > len(self.view):
            raise Refused(_TAPE)
        return self.view[start : self.at]


def read(tape):
    """The sections of a tape. Another form is refused with 11, also one of more than 400 draws; values are not looked at."""
    sections = _Sections(tape)
    settings = bytes(sections.next(SETTINGS_FIELDS.size, lambda count: count == 1))
    setting = settings[-1] == 8
    of_s, of_ac = MODE_S_TAPS_LEN[setting], MODE_AC_TAPS_LEN[setting]
    taps = _floats(sections.next(4, lambda count: count == of_s + of_ac))
    draws = bytes(sections.next(DRAW_FIELDS.size, lambda count: count <= MOST_DRAWS))
    noise = _floats(sections.next(4, lambda count: True))
    if sections.at != len(sections.view):
        raise Refused(_TAPE)
    return Tape(settings, taps[:of_s], taps[of_s:], draws, noise)


def write(settings, taps_s, taps_ac, draws, noise):
    """The bytes of a tape of these sections. Whether they are in range the tape program says."""
    given = zip(Tape._fields, (settings, taps_s, taps_ac, draws, noise))
    bytes_of = {name: memoryview(values).tobytes() for name, values in given}
    sections = (
        (len(bytes_of["settings"]) // SETTINGS_FIELDS.size, ("settings",)),
        ((len(bytes_of["taps_s"]) + len(bytes_of["taps_ac"])) // 4, ("taps_s", "taps_ac")),
        (len(bytes_of["draws"]) // DRAW_FIELDS.size, ("draws",)),
        (len(bytes_of["noise"]) // 4, ("noise",)),
    )
    return b"".join(_COUNT.pack(count) + b"".join(bytes_of[name] for name in names) for count, names in sections)
