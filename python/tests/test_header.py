"""The module's numbers, structures and functions are those of include/more1090_generator.h, and its fields those of the papers."""

import ctypes
import re
import unittest

import more1090
from more1090 import library, refusals

from . import stored

# The calls under which the tape programs run, where the header has them, are not the module's: `more1090.tape` reads a tape.
OF_TAPES = re.compile("(more1090_)?tape|TAPE_|LONGEST_HEAD")
# The names of fields in SPECIFICATION 4 and 13.1, without what follows a comma or colon, where the module's are others.
PAPER_NAMES = {
    "carrier draw": "carrier",
    "carrier offset": "carrier",
    "phase draw": "phase",
    "carrier phase": "phase",
    "clock draw": "clock",
    "clock error e": "clock",
    "DF pick": "format",
    "CA pick": "capability",
    "message bytes": "bytes",
    "Mode A/C data": "data",
    "distribution 0": "carrier_kind",
    "distribution 1": "phase_kind",
    "distribution 2": "clock_kind",
}
C_NUMBERS = {"uint64_t": ctypes.c_uint64, "double": ctypes.c_double, "float": ctypes.c_float}


def structures():
    """The header's structures: names and types of the fields."""
    for body, name in re.findall(r"typedef struct \w+ \{(.*?)\} (\w+);", stored.header(), re.S):
        fields = []
        for kind, names in re.findall(r"(\w+) ([^;]+);", body):
            fields += [(kind, field.strip()) for field in names.split(",")]
        if not OF_TAPES.match(name):
            yield name, fields


def type_of(kind, length):
    found = C_NUMBERS.get(kind) or (library.Distribution if kind == "more1090_distribution" else library.TYPES[kind])
    return found * length if length else found


def functions():
    """The header's functions: results and arguments, without the arguments' names."""
    header = re.sub(r"\s+", " ", re.sub(r"^\s*#.*$|\w+ \{.*?\}", "", stored.header(), flags=re.M))
    for result, name, arguments in re.findall(r"(\w+) more1090_(\w+)\(([^()]*)\) ?;", header):
        if not OF_TAPES.match(name):
            yield name, (result, tuple(re.sub(r"\w+$", "", argument.strip()).strip() for argument in arguments.split(",")))


class Header(unittest.TestCase):
    def test_version(self):
        self.assertEqual((stored.TOP / "VERSION").read_text().strip(), more1090.__version__)
        parts = re.findall(r"#define MORE1090_VERSION_\w+ (\d+)", stored.header())
        self.assertEqual(".".join(parts), more1090.__version__)

    def test_functions(self):
        found = dict(functions())
        self.assertEqual(found, library.FUNCTIONS)
        self.assertGreaterEqual(len(found), 16)

    def test_structures(self):
        found = dict(structures())
        self.assertIn("more1090_state", found)
        for name, fields in found.items():
            mine = library.Distribution if name == "more1090_distribution" else library.TYPES[name]
            with self.subTest(name):
                wanted = []
                for kind, field in fields:
                    field, _, length = field.partition("[")
                    length = length.rstrip("]")
                    wanted.append((field, type_of(kind, library.RACK_FEEDS if length == "MORE1090_RACK_FEEDS" else int(length or 0))))
                self.assertEqual(wanted, list(mine._fields_))

    def test_layout(self):
        """The sizes and places that the header asserts."""
        sizes = re.findall(r"sizeof\((\w+)\) == (\d+)", stored.header())
        places = re.findall(r"offsetof\((\w+), (\w+)\) == (\d+)", stored.header())
        self.assertTrue(sizes and places)
        for name, size in sizes:
            if not OF_TAPES.match(name):
                self.assertEqual(int(size), ctypes.sizeof(library.TYPES[name]), name)
        for name, field, at in places:
            if not OF_TAPES.match(name):
                self.assertEqual(int(at), getattr(library.TYPES[name], field).offset, name + "." + field)

    def test_numbers(self):
        header = stored.header()
        mine = dict(vars(library), SETTINGS_LEN=more1090.SETTINGS_FIELDS.size, DRAW_LEN=more1090.DRAW_FIELDS.size)
        mine.update(RECORD_LEN=more1090.RECORD_FIELDS.size, ENTRY_LEN=more1090.ENTRY_FIELDS.size)
        kinds = {"NO_READING": None}
        for name, text in re.findall(r"#define MORE1090_(\w+) (.+)", header):
            if name.startswith("VERSION") or OF_TAPES.match(name):
                continue
            with self.subTest(name):
                self.assertEqual(int(text.replace("UINT64_MAX", str(2**64 - 1))), mine[name])
                kinds[name] = text
        for name, at_8, at_4 in re.findall(r"#define MORE1090_(\w+)\(spp\) \(\(spp\) == 8 \? (\d+) : (\d+)\)", header):
            with self.subTest(name):
                self.assertEqual((int(at_4), int(at_8)), mine[name])
                kinds[name] = at_8
        self.assertGreaterEqual(len(kinds), 18)

    def test_refusals_and_stops(self):
        refused = {int(number): name for name, number in re.findall(r"MORE1090_ERR_(\w+) = (\d+)", stored.header())}
        refused.setdefault(11, "TAPE")
        self.assertEqual(refused, refusals.NAMES)
        self.assertEqual(set(refused), set(refusals.MEANINGS))
        stops = {int(number): name for name, number in re.findall(r"MORE1090_STOP_(\w+) = (\d+)", stored.header())}
        del stops[5]  # refused, which is an exception here
        self.assertEqual(stops, {int(stop): stop.name for stop in more1090.Stop})
        kinds = re.search(r"enum \{ MORE1090_NO_READING, (.*?) \}", stored.header()).group(1)
        self.assertEqual(kinds.replace("MORE1090_", "").upper().split(", "), ["II", "SI", "UNASSIGNED"])

    def test_fields(self):
        """Offsets and types of SPECIFICATION 4.1, 4.4, 4.5 and 13.1."""
        paper = (stored.TOP / "docs/SPECIFICATION.md").read_text()
        formats = {"B": "u8", "H": "u16", "I": "u32", "Q": "u64", "f": "f32", "d": "f64", "7d": "7 f64", "14s": "14 u8"}
        for layout, section in (
            (more1090.SETTINGS_FIELDS, "4.1"),
            (more1090.DRAW_FIELDS, "4.4"),
            (more1090.RECORD_FIELDS, "4.5"),
            (more1090.ENTRY_FIELDS, "13.1"),
        ):
            text = re.search(r"^### %s .*?(?=^### )" % re.escape(section), paper, re.S | re.M).group(0)
            wanted = []
            for row in re.findall(r"^\| (\d.*) \|$", text, re.M):
                cells = row.split(" | ")
                at, kinds, name = cells[1:4] if section == "4.4" else cells[:3]
                at, name = int(at), re.split("[,:(]", name)[0].strip()
                named = next(field.name for field in layout.fields if field.offset == at)
                self.assertEqual(named, PAPER_NAMES.get(name, name.lower().replace(" ", "_")))
                for kind in ["14 u8"] if kinds == "u8[14]" else [kinds] if kinds == "7 f64" else kinds.split(", "):
                    wanted.append((at, kind))
                    at += {"u8": 1, "u16": 2, "u32": 4, "u64": 8, "f32": 4, "f64": 8, "7 f64": 56, "14 u8": 14}[kind]
            with self.subTest(section):
                self.assertEqual(wanted, [(field.offset, formats[field.format]) for field in layout.fields])
                self.assertEqual(at, layout.size)
                self.assertEqual(layout.struct.size, layout.size)
