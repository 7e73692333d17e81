#!/usr/bin/env python3
"""Compares awdattr with a reader of user attributes in Python that shares no code with it.

The reader below is by the same authors and from the same rules (docs/FORMAT.md has them), so it catches slips of the program and not a
rule that was misread. Both are given a small list damaged at every byte and cut at every length, attributes of every type with
sizes that suit and others, and random lists, sound and damaged; each must write the same.

Usage: tests/attributes.py crates/awdattr/out/awdattr
"""

import random
import struct
import sys

from agreement import compare

# the sizes that a value of a type may have; None is any
SIZES = {1: 1, 2: 2, 3: 4, 4: 1, 5: 2, 6: 4, 7: 4, 8: 8, 21: 1, 22: 4, 23: 4, 31: None, 32: None}
SIGNED = {1: "<b", 2: "<h", 3: "<i"}

# what comes behind so many bytes is not looked at
LIMIT = 65_536


class Fault(Exception):
    """A cause and a place."""


def field(data, place, size):
    """The bytes of a field, if they fit."""
    if place + size > len(data):
        raise Fault(10, place)
    return data[place : place + size]


def value(kind, data):
    """What a value says."""
    if kind == 31:
        return "text" + spelled(data)
    if kind == 32:
        return "raw" + spelled(data)
    number = int.from_bytes(data, "little")
    if kind in SIGNED:
        return f"signed {struct.unpack(SIGNED[kind], data)[0]}"
    if kind == 7:
        return f"single {0x7FC00000 if number & 0x7FFFFFFF > 0x7F800000 else number}"
    if kind == 8:
        return f"double {0x7FF8 << 48 if number & ~(1 << 63) > 0x7FF0 << 48 else number}"
    if kind == 21:
        return f"yesno {'true' if number else 'false'}"
    return f"unsigned {number}"


def spelled(data):
    return "".join(f" {b}" for b in data)


def attribute(data, place):
    """The line of the attribute that begins at a place, without its index, and the place behind it."""
    namespace = field(data, place, 1)[0]
    size = struct.unpack("<H", field(data, place + 1, 2))[0]
    key = field(data, place + 3, size)
    place += 3 + size
    kind = field(data, place, 1)[0]
    if kind not in SIZES:
        raise Fault(13, place)
    size = struct.unpack("<I", field(data, place + 1, 4))[0]
    if SIZES[kind] not in (None, size):
        raise Fault(13, place + 1)
    content = field(data, place + 5, size)
    return f"namespace {namespace} key{spelled(key)} type {kind} {value(kind, content)}", place + 5 + size


def listing(data):
    """What awdattr has to write for an input."""
    data = data[:LIMIT]
    lines = []
    place = 0
    while place < len(data):
        try:
            line, place = attribute(data, place)
        except Fault as fault:
            cause, at = fault.args
            return "\n".join(lines + [f"fault {cause} {at} 0 3 {len(lines)}"]) + "\n"
        lines.append(f"{len(lines)} {line}")
    return "\n".join(lines + [f"end {len(lines)}"]) + "\n"


def spell(namespace, key, kind, content, size=None):
    size = len(content) if size is None else size
    return struct.pack("<BH", namespace, len(key)) + key + struct.pack("<BI", kind, size) + content


# a signed byte under "ab", a text under no name, a double under "k"
LIST = spell(1, b"ab", 1, b"\xf9") + spell(0, b"", 31, b"hi") + spell(2, b"k", 8, struct.pack("<d", 1.5))

# lists and what has to be written for them, worked out by hand: a number of two bytes (-2) under "ab" in namespace 1, a text "hi" under no name and
# raw bytes under "k" in namespace 2; the same with a type that there is not, at 15, before a size that is too large; and with a size, at 6, that does
# not suit the type
FIRST = bytes((1, 2, 0, 97, 98, 2, 2, 0, 0, 0, 254, 255))
RAW = bytes((2, 1, 0, 107, 32, 3, 0, 0, 0, 9, 8, 7))
FIRST_LINE = "0 namespace 1 key 97 98 type 2 signed -2\n"
WORKED = {
    FIRST
    + bytes((0, 0, 0, 31, 2, 0, 0, 0, 104, 105))
    + RAW: f"{FIRST_LINE}1 namespace 0 key type 31 text 104 105\n2 namespace 2 key 107 type 32 raw 9 8 7\nend 3\n",
    FIRST + bytes((0, 0, 0, 11, 200, 0, 0, 0, 104, 105)) + RAW: f"{FIRST_LINE}fault 13 15 0 3 1\n",
    FIRST[:6] + b"\xc8" + FIRST[7:]: "fault 13 6 0 3 0\n",
}


def inputs(rng):
    yield b""
    for place in range(len(LIST)):
        for number in range(256):
            yield LIST[:place] + bytes([number]) + LIST[place + 1 :]
    for length in range(len(LIST) + 1):
        yield LIST[:length]
    for kind in range(256):
        for size in (0, 1, 2, 3, 4, 8, 9):
            yield spell(7, b"key", kind, bytes([128 + size] * size))
    # patterns of floats: zeros, the largest, infinities and such as are no numbers
    for bits in (0, 1 << 31, 0x7F7FFFFF, 0x7F800000, 0x7F800001, 0xFF800000, 0xFFC00001):
        yield spell(0, b"", 7, struct.pack("<I", bits))
    for bits in (0, 1 << 63, 0x7FEF << 48, 0x7FF0 << 48, (0x7FF0 << 48) + 1, 0xFFF0 << 48, 0xFFFF << 48):
        yield spell(0, b"", 8, struct.pack("<Q", bits))
    for size in (0xFFFF, 0xFFFFFFFF, 0x80000000):
        yield spell(0, b"", 32, b"abc", size)
    # inputs as long as may be, a byte longer, and of which the last attribute is cut off there
    longest = spell(0, b"", 32, bytes(LIMIT - 8))
    yield from (longest, longest + b"\x01", spell(0, b"", 32, bytes(LIMIT - 7)))
    for _ in range(1500):
        data = b""
        for _ in range(rng.randrange(6)):
            kind = rng.choice(list(SIZES))
            size = SIZES[kind] if SIZES[kind] is not None else rng.randrange(6)
            data += spell(rng.randrange(256), rng.randbytes(rng.randrange(5)), kind, rng.randbytes(size))
        data = bytearray(data)
        for _ in range(rng.randrange(3)):
            if data:
                data[rng.randrange(len(data))] = rng.choice((0, 1, 8, 21, 31, 255, rng.randrange(256)))
        yield bytes(data[: rng.choice((len(data), rng.randrange(len(data) + 1)))])


if __name__ == "__main__":
    worked = compare(sys.argv[1], "awdattr", WORKED, WORKED.get, "what was worked out by hand")
    sys.exit(worked or compare(sys.argv[1], "awdattr", inputs(random.Random(3)), listing))
