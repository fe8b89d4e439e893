"""The shared library: where it is looked for, and its structures and functions as include/more1090_generator.h declares them.

It is looked for in this order:

1. the file that MORE1090_LIBRARY names, and nowhere else where that is set;
2. beside this module;
3. the folder `lib` of the installed tree that this module is in, PREFIX/share/more1090/python;
4. the folder that the file `library_folder` beside this module names, which tools/install writes;
5. the folder that pkg-config knows;
6. where the system looks, LD_LIBRARY_PATH included.
"""

import ctypes
import os
import subprocess

from .version import VERSION

# Before 1.0 the second number of the version grows where the interface changes.
FILE = "libmore1090.so." + VERSION.rpartition(".")[0]

u8, u32, u64 = ctypes.c_uint8, ctypes.c_uint32, ctypes.c_uint64
f32, f64 = ctypes.c_float, ctypes.c_double


class Distribution(ctypes.Structure):
    _fields_ = [("kind", u64), ("first", f64), ("second", f64)]


class State(ctypes.Structure):
    """A run between two calls, without its prototypes and working memory."""

    _fields_ = [
        ("written", u64),
        ("total", u64),
        ("time", f64),
        ("latest", f64),
        ("rates", f64 * 7),
        ("mode_s_delay", f64),
        ("mode_ac_delay", f64),
        ("carrier", Distribution),
        ("phase", Distribution),
        ("clock", Distribution),
        ("ended", u64),
        ("samples_per_pulse", u64),
    ]


class OpenResult(ctypes.Structure):
    _fields_ = [("state", State), ("refusal", u64), ("value", u64)]


class RunResult(ctypes.Structure):
    _fields_ = [
        ("state", State),
        ("draws_taken", u64),
        ("samples_written", u64),
        ("noise_used", u64),
        ("records_written", u64),
        ("stop", u64),
        ("refusal", u64),
        ("value", u64),
        ("field", u64),
        ("samples_added_high", u64),
        ("samples_added_low", u64),
    ]


class BookingResult(ctypes.Structure):
    _fields_ = [
        ("samples", u64),
        ("noise", u64),
        ("records", u64),
        ("draws_taken", u64),
        ("ended", u64),
        ("draw", u64),
        ("time", f64),
        ("refusal", u64),
        ("value", u64),
        ("field", u64),
    ]


class SingleResult(ctypes.Structure):
    _fields_ = [("refusal", u64), ("value", u64), ("field", u64)]


class PagesResult(ctypes.Structure):
    _fields_ = [("refusal", u64), ("value", u64), ("pages", u64)]


class LineResult(ctypes.Structure):
    _fields_ = [("found", u64), ("first_sample", u64), ("type", u64), ("count", u64), ("message_length", u64)]


class LogResult(ctypes.Structure):
    _fields_ = [("pairs", u64), ("unheard", u64), ("unsent", u64), ("refusal", u64), ("value", u64)]


RACK_FEEDS = 16


class RackState(ctypes.Structure):
    """A rack between two calls, without its memory."""

    _fields_ = [("feeds", u64), ("seen", u64), ("delays", u64 * RACK_FEEDS), ("gains", f32 * RACK_FEEDS)]


class RackResult(ctypes.Structure):
    _fields_ = [("rack", RackState), ("refusal", u64)]


class RestoreResult(ctypes.Structure):
    _fields_ = [("state", State), ("rack", RackState), ("refusal", u64)]


# The header's types. A pointer is passed as an address, which `buffers` finds and checks.
TYPES = {
    "const uint8_t *": ctypes.c_void_p,
    "uint8_t *": ctypes.c_void_p,
    "const float *": ctypes.c_void_p,
    "float *": ctypes.c_void_p,
    "const uint64_t *": ctypes.c_void_p,
    "uint64_t *": ctypes.c_void_p,
    "uint32_t *": ctypes.c_void_p,
    "size_t": ctypes.c_size_t,
    "double": f64,
    "uint8_t": u8,
    "uint32_t": u32,
    "uint64_t": u64,
    "more1090_state": State,
    "more1090_open_result": OpenResult,
    "more1090_run_result": RunResult,
    "more1090_booking_result": BookingResult,
    "more1090_single_result": SingleResult,
    "more1090_pages_result": PagesResult,
    "more1090_line_result": LineResult,
    "more1090_log_result": LogResult,
    "more1090_rack": RackState,
    "more1090_rack_result": RackResult,
    "more1090_restore_result": RestoreResult,
}
_READ_BYTES, _WRITTEN_BYTES = ("const uint8_t *", "size_t"), ("uint8_t *", "size_t")
_READ_FLOATS, _WRITTEN_FLOATS = ("const float *", "size_t"), ("float *", "size_t")
_READ_WORDS, _WRITTEN_WORDS = ("const uint64_t *", "size_t"), ("uint64_t *", "size_t")
_SETTINGS_AND_TAPS = _READ_BYTES + _READ_FLOATS + _READ_FLOATS
# A function's result and its arguments.
FUNCTIONS = {
    "open": ("more1090_open_result", _SETTINGS_AND_TAPS + 3 * _WRITTEN_FLOATS),
    "run": (
        "more1090_run_result",
        ("more1090_state",) + 2 * _READ_FLOATS + _WRITTEN_FLOATS + _READ_BYTES + _READ_FLOATS + _WRITTEN_FLOATS + _WRITTEN_BYTES,
    ),
    "booking": ("more1090_booking_result", _SETTINGS_AND_TAPS + _READ_BYTES),
    "booking_part": ("more1090_booking_result", ("double",) + _SETTINGS_AND_TAPS + _READ_BYTES),
    "single": ("more1090_single_result", _SETTINGS_AND_TAPS + _READ_BYTES + _READ_FLOATS + _WRITTEN_FLOATS),
    "parity": ("uint32_t", _READ_BYTES),
    "parity_change": ("uint32_t", ("uint64_t",)),
    "flipped_bit": ("uint64_t", ("uint32_t",)),
    "class": ("uint8_t", _READ_BYTES),
    "interrogator": ("uint32_t", _READ_BYTES + ("uint32_t *",)),
    "level": ("uint64_t", ("uint64_t", "float *")),
    "pages": ("more1090_pages_result", _READ_BYTES + _WRITTEN_BYTES),
    "page_line": ("more1090_line_result", _READ_BYTES + ("uint8_t *",)),
    "compare_log": ("more1090_log_result", 2 * _READ_BYTES + ("uint64_t",) + 2 * _WRITTEN_WORDS),
    "rack_open": ("more1090_rack_result", _WRITTEN_FLOATS + _READ_WORDS + _READ_FLOATS),
    "rack_run": ("more1090_rack_result", ("more1090_rack",) + _WRITTEN_FLOATS + _READ_FLOATS + _WRITTEN_FLOATS),
    "save": ("uint64_t", ("more1090_state",) + 3 * _READ_FLOATS + ("more1090_rack",) + _READ_FLOATS + _WRITTEN_BYTES),
    "restore": ("more1090_restore_result", _READ_BYTES + 4 * _WRITTEN_FLOATS),
}
# What follows from the samples per pulse: a pair of numbers, at 4 and at 8.
SAMPLE_RATE = (8000000, 16000000)
MODE_S_TAPS_LEN = (1486, 2971)
MODE_AC_TAPS_LEN = (1515, 3029)
PROTOTYPE_LEN = (1792, 3584)
MEMORY_LEN = (2252, 4502)
REPLY_LIMIT = (1094, 2187)
STORED_LEN = (23600, 46936)
STORED_RACK_LEN = (56568, 79904)
# Other numbers of the header.
HIGHEST_LEVEL = 2000
NO_BIT = 2**64 - 1
TIS_B = 7
NO_CLASS = 255
LINE_LEN = 72
PAGE_LEN = 4380
NOBODY = 2**64 - 1
RACK_MEMORY_LEN = 8190


def _beside():
    """The folders of the order above, but for the system's own."""
    here = os.path.dirname(os.path.abspath(__file__))
    yield here
    yield os.path.normpath(os.path.join(here, "../../../../lib"))
    try:
        with open(os.path.join(here, "library_folder"), encoding="utf-8") as named:
            yield named.read().strip()
    except OSError:
        pass
    try:
        asked = subprocess.run(
            ["pkg-config", "--variable=libdir", "more1090"], stdout=subprocess.PIPE, stderr=subprocess.DEVNULL, check=True
        )
        yield os.fsdecode(asked.stdout.strip())
    except (OSError, subprocess.CalledProcessError):
        pass


def find():
    """The name to load: a path, or the library's own name where the system is to look."""
    named = os.environ.get("MORE1090_LIBRARY")
    if named:
        return named
    for folder in _beside():
        path = os.path.join(folder, FILE)
        if folder and os.path.exists(path):
            return path
    return FILE


class Library:
    """The functions of the library, by their names without `more1090_`. It is loaded when the first of them is called."""

    def __getattr__(self, name):
        if name not in FUNCTIONS:
            raise AttributeError(name)
        self._load()
        return self.__dict__[name]

    def _load(self):
        path = find()
        try:
            loaded = ctypes.CDLL(path)
        except OSError as e:
            raise OSError("the shared library of more1090 is not found (%s); MORE1090_LIBRARY may name it" % e) from None
        for name, (result, arguments) in FUNCTIONS.items():
            try:
                function = loaded["more1090_" + name]
            except AttributeError:
                raise OSError("%s has no function more1090_%s: it is of another version" % (path, name)) from None
            function.restype = TYPES[result]
            function.argtypes = [TYPES[argument] for argument in arguments]
            self.__dict__[name] = function
        self.__dict__["path"] = path


library = Library()
