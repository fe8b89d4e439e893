"""Refusals: their numbers, names and meanings (SPECIFICATION 3.1), and the exception that a refused call raises."""

NAMES = {
    1: "DURATION",
    2: "RATE",
    3: "TOTAL_RATE",
    4: "DISTRIBUTION",
    5: "TAPS",
    6: "PROTOTYPE",
    7: "DRAW",
    8: "NOISE",
    9: "LENGTH",
    11: "TAPE",
    12: "STRETCH_LENGTH",
    13: "LEVEL",
    14: "TRIGGER_LEVEL",
    15: "SAMPLES_PER_PULSE",
    16: "LOG",
    17: "FEEDS",
    18: "RECORD",
    19: "STORED_LENGTH",
    20: "STORED_FOREIGN",
    21: "STORED_VERSION",
    22: "STORED_DAMAGED",
}
DISTRIBUTIONS = ("the carrier offset", "the phase", "the clock error")
DRAW_FIELDS = (
    "gap", "type", "CN0", "amplitude", "carrier", "phase", "clock error", "format pick", "capability pick", "overlay",
    "bytes", "Mode A/C data", "SPI",
)
MEANINGS = {
    1: "the duration: nanoseconds above 999,999,999, or more than 2^52 samples",
    2: "rate {value} is negative or not finite",
    3: "the rates' total is 0 or not finite",
    4: "{distribution}: an unknown kind, or a parameter out of range",
    5: "the taps: a list of another length, or a tap not finite or above 16 in size",
    6: "a prototype value not finite or above 16 in size, or no crossing of the trigger level",
    7: "draw {value}, field {field} ({draw_field})",
    8: "noise value {value} is not finite or above 64 in size",
    9: "a length",
    11: "the tape: short, a wrong count, more than 400 draws, bytes left over, or draws or noise that run out",
    12: "output or noise of another length than the duration asks for",
    13: "a level above 200.0 dB",
    14: "the trigger level is not from 0.1 to 0.9",
    15: "samples per pulse other than 4 or 8",
    16: "the log is out of order, or a message in it has a length other than 2, 7 or 14",
    17: "the feeds: their number is not 1 to 16, or a delay or gain is out of range",
    18: "record {value} is no record of a run",
    19: "the stored run: cut short, or too long",
    20: "the stored run: bytes of something else",
    21: "the stored run: another version of its layout",
    22: "the stored run: damaged",
}


def _of(names, index):
    return names[index] if index < len(names) else "?"


class Refused(ValueError):
    """What was passed to a call is refused, and nothing was changed.

    `number` is the refusal's number and `name` the header's name for it, without MORE1090_ERR_. `value` and `field` are what the
    number says they are, else 0: the first rate, distribution, draw and field, noise value or record at fault. `meaning` says it
    in words.
    """

    def __init__(self, number, value=0, field=0):
        self.number = number
        self.value = value
        self.field = field
        self.name = NAMES.get(number, "?")
        self.meaning = MEANINGS.get(number, "a refusal of no known number").format(
            value=value, field=field, distribution=_of(DISTRIBUTIONS, value), draw_field=_of(DRAW_FIELDS, field)
        )
        super().__init__("refused %d: %s" % (number, self.meaning))

    def __reduce__(self):
        return Refused, (self.number, self.value, self.field)
