"""Settings, draws, records and log entries as bytes (SPECIFICATION 4 and 13.1): tables of fields, and what follows from them.

A table has a name, a format of the module `struct` and an offset for each field; all are packed and little-endian. `SETTINGS`,
`DRAW`, `RECORD` and `ENTRY` are the same as numpy's dtypes where numpy can be imported, else None.
"""

import collections
import struct

try:
    import numpy
except ImportError:
    numpy = None

Field = collections.namedtuple("Field", "name format offset")

_SCALARS = {"B": "u1", "H": "<u2", "I": "<u4", "Q": "<u8", "f": "<f4", "d": "<f8"}


def _numpy_format(text):
    """The dtype of a field. Bytes are numbers there: numpy's strings lose the zeros at their end."""
    count, kind = text[:-1], text[-1]
    scalar = "u1" if kind == "s" else _SCALARS[kind]
    return (scalar, (int(count),)) if count else scalar


class Layout:
    """A packed, little-endian structure: `fields`, each with name, format and offset, and `size` in bytes."""

    def __init__(self, name, *fields):
        self.name = name
        self.fields = []
        self.size = 0
        for field, text in fields:
            self.fields.append(Field(field, text, self.size))
            self.size += struct.calcsize("<" + text)
        self.struct = struct.Struct("<" + "".join(field.format for field in self.fields))
        self._row = collections.namedtuple(name, [field.name for field in self.fields])

    def pack(self, **values):
        """The bytes of these fields; a field that is not named is 0."""
        unknown = set(values) - {field.name for field in self.fields}
        if unknown:
            raise TypeError("%s has no field %s" % (self.name, ", ".join(sorted(unknown))))
        return b"".join(_packed(self.name, field, values.get(field.name)) for field in self.fields)

    def unpack(self, row):
        """The fields of one structure's bytes, as a named tuple."""
        found = []
        for field in self.fields:
            values = struct.unpack_from("<" + field.format, row, field.offset)
            found.append(values[0] if field.format[-1] == "s" or len(values) == 1 else values)
        return self._row(*found)

    def read(self, rows):
        """The fields of each structure in bytes of any number of them, one after the other."""
        view = memoryview(memoryview(rows).tobytes())
        if len(view) % self.size:
            raise ValueError("%d bytes are no whole number of %d each" % (len(view), self.size))
        for at in range(0, len(view), self.size):
            yield self.unpack(view[at : at + self.size])

    def dtype(self):
        """The same as numpy's dtype; None where numpy cannot be imported."""
        if numpy is None:
            return None
        return numpy.dtype(
            {
                "names": [field.name for field in self.fields],
                "formats": [_numpy_format(field.format) for field in self.fields],
                "offsets": [field.offset for field in self.fields],
                "itemsize": self.size,
            }
        )


def _packed(structure, field, value):
    """A field's bytes, or an exception that names it. Bytes of a message have zeros put behind them, and lists are whole."""
    count, kind = field.format[:-1], field.format[-1]
    width = struct.calcsize("<" + field.format)
    if value is None:
        return bytes(width)
    if kind == "s":
        value = bytes(value)
        if len(value) > width:
            raise ValueError("%s: %s has more than %d bytes" % (structure, field.name, width))
        return value.ljust(width, b"\0")
    try:
        return struct.pack("<" + field.format, *(value if count else (value,)))
    except (struct.error, OverflowError) as e:
        raise ValueError("%s: %s: %s" % (structure, field.name, e)) from None


SETTINGS_FIELDS = Layout(
    "Settings",
    ("seconds", "Q"),
    ("nanoseconds", "I"),
    ("rates", "7d"),
    ("carrier_kind", "B"),
    ("carrier_first", "d"),
    ("carrier_second", "d"),
    ("phase_kind", "B"),
    ("phase_first", "d"),
    ("phase_second", "d"),
    ("clock_kind", "B"),
    ("clock_first", "d"),
    ("clock_second", "d"),
    ("trigger_level", "f"),
    ("samples_per_pulse", "B"),
)
DRAW_FIELDS = Layout(
    "Draw",
    ("gap", "d"),
    ("type", "B"),
    ("cn0", "d"),
    ("amplitude", "f"),
    ("carrier", "d"),
    ("phase", "d"),
    ("clock", "d"),
    ("format", "B"),
    ("capability", "B"),
    ("overlay", "B"),
    ("bytes", "14s"),
    ("data", "H"),
    ("spi", "B"),
)
RECORD_FIELDS = Layout(
    "Record",
    ("time", "d"),
    ("cn0", "d"),
    ("carrier", "d"),
    ("phase", "d"),
    ("clock", "d"),
    ("first_sample", "Q"),
    ("type", "B"),
    ("count", "H"),
    ("message_length", "B"),
    ("message", "14s"),
)
ENTRY_FIELDS = Layout("Entry", ("sample", "Q"), ("message_length", "B"), ("message", "14s"))

SETTINGS = SETTINGS_FIELDS.dtype()
DRAW = DRAW_FIELDS.dtype()
RECORD = RECORD_FIELDS.dtype()
ENTRY = ENTRY_FIELDS.dtype()


def settings(
    seconds=0,
    nanoseconds=0,
    rates=(1.0,) * 7,
    carrier=(0, 0.0, 0.0),
    phase=(0, 0.0, 0.0),
    clock=(0, 0.0, 0.0),
    trigger_level=0.5,
    samples_per_pulse=4,
):
    """The 124 bytes of settings. A distribution is its kind and its two numbers (SPECIFICATION 4.2)."""
    values = {}
    for name, (kind, first, second) in (("carrier", carrier), ("phase", phase), ("clock", clock)):
        values.update({name + "_kind": kind, name + "_first": first, name + "_second": second})
    return SETTINGS_FIELDS.pack(
        seconds=seconds,
        nanoseconds=nanoseconds,
        rates=rates,
        trigger_level=trigger_level,
        samples_per_pulse=samples_per_pulse,
        **values
    )


def draw(**fields):
    """The 65 bytes of a draw: the fields of `DRAW_FIELDS` by name, 0 where not given."""
    return DRAW_FIELDS.pack(**fields)


def entry(sample, message):
    """The 23 bytes of a log's entry: the sample at which a message was heard, and its bytes."""
    return ENTRY_FIELDS.pack(sample=sample, message_length=len(message), message=message)
