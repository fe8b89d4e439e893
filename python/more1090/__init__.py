"""The reply generator of Dabtungsten from Python: its shared library by ctypes, on any buffers, numpy's arrays among them.

    import more1090
    run = more1090.Run(settings, taps_s, taps_ac)
    ran = run.call(draws, noise, output, records)

Every call does what include/more1090_generator.h says of it. A refusal raises `Refused`, with its number and meaning.
"""

from . import tape
from .layouts import (
    DRAW, DRAW_FIELDS, ENTRY, ENTRY_FIELDS, RECORD, RECORD_FIELDS, SETTINGS, SETTINGS_FIELDS, Field, Layout, draw, entry,
    settings,
)
from .library import (
    HIGHEST_LEVEL, LINE_LEN, MEMORY_LEN, MODE_AC_TAPS_LEN, MODE_S_TAPS_LEN, NOBODY, PAGE_LEN, PROTOTYPE_LEN, RACK_FEEDS,
    RACK_MEMORY_LEN, REPLY_LIMIT, SAMPLE_RATE, STORED_LEN, STORED_RACK_LEN, TIS_B, State,
)
from .messages import (
    Heard, Interrogator, Line, class_of, compare_log, flipped_bit, interrogator, level, page_line, pages, parity,
    parity_change,
)
from .refusals import Refused
from .runs import Booking, Made, Rack, Ran, Run, Stop, Stored, booking, restore, single
from .version import VERSION as __version__
