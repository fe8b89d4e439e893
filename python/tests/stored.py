"""The stored tapes of the repository (tapes/, crates/tape, crates/cf32), and what their runs are to print and write."""

import pathlib
import re
import subprocess
import zlib

import more1090

TOP = pathlib.Path(__file__).resolve().parents[2]
TAPES = TOP / "tapes"
WORKED = TOP / "crates/tape/stdin"
WORKED_TEXT = TOP / "crates/tape/stdout"
EIGHT_SIZE = 152335  # of the worked tape at 8 samples per pulse, which tapes/tape makes


def worked():
    return more1090.tape.read(WORKED.read_bytes())


def bases():
    eight = subprocess.run([str(TAPES / "tape"), "eight", str(EIGHT_SIZE)], stdout=subprocess.PIPE, check=True).stdout
    return {
        "small": (TAPES / "small.tape").read_bytes(),
        "worked": WORKED.read_bytes(),
        "long": (TOP / "crates/cf32/stdin").read_bytes(),
        "eight": eight,
    }


def cases():
    """Each stored tape: its name, its bytes, and what tapes/expected has for it, by the words before the colons."""
    expected = {}
    for part in (TAPES / "expected").read_text().split("# ")[1:]:
        name, *lines = part.splitlines()
        expected[name] = [line.split(": ", 1) for line in lines]
    base = bases()
    for line in (TAPES / "cases").read_text().splitlines():
        name, kind, length, changes = (part.strip() for part in line.split(";"))
        made = bytearray(base[kind] + bytes(64))
        for change in changes.split():
            at, digits = change.split("=")
            values = bytes.fromhex(digits)
            made[int(at) : int(at) + len(values)] = values
        yield name, bytes(made[: int(length)]), expected[name]


def text_of(records, samples):
    """What the tape program prints (SPECIFICATION 11.1)."""
    lines = ["first type count message"]
    for record in more1090.RECORD_FIELDS.read(records):
        message = record.message[: record.message_length]
        shown = (message[::-1] if record.type == 6 else message).hex()
        lines.append("%d %d %d %s" % (record.first_sample, record.type, record.count, shown))
    return lines + ["samples %d" % samples]


_MIRRORED = bytes(int("{:08b}".format(byte)[::-1], 2) for byte in range(256))


def cksum(given):
    """A file as tapes/expected has it: its bytes, and what POSIX cksum says of them (a CRC-32 with the bits the other way)."""
    given = bytes(given)
    length = len(given)
    if length == 0:
        return "0 bytes"
    tail = length.to_bytes((length.bit_length() + 7) // 8, "little")
    crc = zlib.crc32((given + tail).translate(_MIRRORED), 0xFFFFFFFF)
    return "%d bytes, checksum %d" % (length, int("{:032b}".format(crc)[::-1], 2))


def header():
    """The header without its comments."""
    return re.sub(r"/\*.*?\*/", "", (TOP / "include/more1090_generator.h").read_text(), flags=re.S)
