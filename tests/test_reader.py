#!/usr/bin/env python3
"""Tries the reader in Python on documents whose listings and faults are worked out by hand from the rules.

It also tries all inputs of the comparison, for whether the reader answers each and whether each outcome is met, and
random lawful documents against the listing that their builder knows.

Usage: python3 tests/test_reader.py
"""

import pathlib
import random

import documents as make
from compare_blocks import SEED, Tally
from documents import block, document, pack, user
from reader import Fault, Fields, Record, blocks, listing, read_header

KITCHEN_FILE = pathlib.Path(__file__).resolve().parent.parent / "crates" / "awdlist" / "stdin"

KITCHEN = """\
AWD 2.1 flags 0 length 176
0 1 0 11 12 0 -
1 2 0 22 23 63 0
2 3 0 23 97 68 2
end 3
"""


def records(data):
    return list(blocks(data, read_header(data)))


def fault(data):
    """Cause, place, block, layer and index of the fault that a document has, or None."""
    try:
        records(data)
    except Fault as found:
        return found.all()
    return None


def lone(kind, body, flags=0):
    """A document of one block, whose body begins at 23."""
    return pack(document([block(1, kind, body)], flags))


def changed(data, place, new):
    return data[:place] + new + data[place + len(new) :]


def sized(data, place, size):
    """The document with another size in the block header at a place."""
    return changed(data, place + 7, size.to_bytes(4, "little"))


def test_kitchen():
    data = pack(make.kitchen())
    assert data == KITCHEN_FILE.read_bytes()
    assert listing(data) == KITCHEN
    assert records(data) == [
        Record(1, 0, 11, 12, 0),
        Record(2, 0, 22, 23, 63, 0, (88, 1)),
        Record(3, 0, 23, 97, 68, 2, (162, 0)),
    ]


def test_fields_of_the_kitchen():
    first, second, third = (record.fields for record in records(pack(make.kitchen())))
    assert first == Fields()
    assert second.parent == (34, 4)
    assert second.cells == tuple((38 + 4 * cell, 4) for cell in range(12))
    assert third.parent == (108, 4)
    assert third.cells == tuple((112 + 4 * cell, 4) for cell in range(12))
    assert second.materials == third.materials == ()


def test_fields_of_a_wide_mesh():
    body = make.mesh(0, 1, [2, 0], b"lamp", widths=make.Widths(matrix=8))
    data = pack(document([block(1, 11), block(2, 81), block(3, 23, body)], flags=2))
    fields = records(data)[2].fields
    assert fields.parent == (45, 4)
    assert fields.cells == tuple((49 + 8 * cell, 8) for cell in range(12))
    assert fields.materials == ((157, 4), (161, 4))


def test_header_alone():
    assert listing(pack(document([]))) == "AWD 2.1 flags 0 length 12\nend 0\n"
    assert listing(pack(document([], revision=0, flags=65_535))) == "AWD 2.0 flags 65535 length 12\nend 0\n"


def test_header_faults():
    data = pack(make.kitchen())
    assert listing(b"") == "fault 2 0 0\n"
    assert fault(data[:11]) == (2, 11, 0, 0, None)
    assert fault(b"AWE" + data[3:]) == (4, 2, 0, 0, None)
    assert fault(b"BWE" + data[3:]) == (4, 0, 0, 0, None)
    assert fault(changed(data, 3, b"\3\2")) == (5, 3, 0, 0, None)
    assert fault(changed(data, 4, b"\2")) == (5, 4, 0, 0, None)
    assert fault(changed(data, 7, b"\1")) == (6, 7, 0, 0, None)
    shorter = changed(data, 8, bytes([163]))
    assert listing(shorter) == "fault 7 8 0\n"
    assert listing(changed(shorter, 5, b"\1")) == KITCHEN.replace("flags 0", "flags 1")


def test_longest():
    assert listing(bytes(65_537)) == "input over 65536\n"
    assert listing(bytes(65_536)) == "fault 4 0 0\n"
    longest = pack(document([], flags=1)) + bytes(16_777_216 - 12)
    assert read_header(longest).flags == 1
    assert fault(longest + b"\0") == (3, 16_777_216, 0, 0, None)


def test_sizes_of_a_container():
    data = pack(make.kitchen())
    assert fault(sized(data, 23, 64)) == (15, 97, 1, 1, None)
    assert fault(sized(data, 23, 62)) == (10, 93, 1, 2, None)
    assert fault(sized(data, 23, 3)) == (10, 34, 1, 2, None)
    # the second float, the bytes of the name, the total of the properties
    assert fault(sized(data, 23, 11)) == (10, 42, 1, 2, None)
    assert fault(sized(data, 23, 54)) == (10, 88, 1, 2, None)
    assert fault(sized(data, 23, 55)) == (10, 89, 1, 2, None)
    assert fault(sized(data, 23, 143)) == (10, 34, 1, 1, None)
    assert listing(sized(data, 23, 64)) == "".join(KITCHEN.splitlines(True)[:2]) + "fault 15 97 1\n"


def test_block_headers():
    first = block(1, 11)
    for size, place in ((1, 23), (3, 23), (4, 27), (5, 28), (6, 29), (7, 30), (10, 30)):
        cut = pack(document([first, [pack(block(2, 11))[:size]]]))
        assert fault(cut) == (10, place, 1, 1, None)
    assert fault(pack(document([first, block(3, 11)]))) == (11, 23, 1, 1, None)
    assert fault(pack(document([first, block(1, 11)]))) == (11, 23, 1, 1, None)
    # temporary blocks are not counted into the IDs, those of other namespaces are
    assert fault(pack(document([first, block(0, 11), block(2, 11, namespace=9), block(3, 81, flags=0xF7)]))) is None
    assert fault(pack(document([first, block(0, 11), block(3, 11)]))) == (11, 34, 2, 1, None)
    # a wrong ID before what is missing behind it, a compressed block before its size, of any namespace and kind
    assert fault(pack(document([first, [b"\7\0\0\0"]]))) == (11, 23, 1, 1, None)
    for kind, namespace in ((22, 0), (200, 0), (22, 3)):
        compressed = pack(block(2, kind, namespace=namespace, flags=8))
        assert fault(pack(document([first, [compressed[:7]]]))) == (12, 29, 1, 1, None)
        short = pack(block(2, kind, [b"abc"], namespace))[:-1]
        assert fault(pack(document([first, [short]]))) == (10, 34, 1, 1, None)


def test_count_of_blocks():
    for ident in (lambda number: number + 1, lambda number: 0):
        full = [block(ident(number), 11) for number in range(512)]
        place = 12 + 512 * 11
        assert listing(pack(document(full))).endswith("\nend 512\n")
        assert fault(pack(document(full + [block(0, 11)]))) == (9, place, 512, 4, None)
        assert fault(pack(document(full + [[b"?"]]))) == (9, place, 512, 4, None)


def test_addresses():
    front = [block(1, 11), block(2, 22, make.container(0)), block(3, 81), block(4, 41, make.light(0))]
    front += [block(5, 22, namespace=1)]
    place = make.length(document(front)) + 11

    def last(kind, body):
        return fault(pack(document(front + [block(6, kind, body), block(7, 22, make.container(0))])))

    for parent, lawful in ((0, True), (1, False), (2, True), (3, False), (4, True), (5, False), (6, False), (7, False)):
        assert last(22, make.container(parent)) == (None if lawful else (14, place, 5, 2, None))
    for shape in (0, 2, 3, 6):
        assert last(23, make.mesh(2, shape)) == (14, place + 54, 5, 2, None)
    assert last(23, make.mesh(4, 1, [0, 3, 0])) is None
    assert last(23, make.mesh(4, 1, [0, 3, 1])) == (14, place + 68, 5, 3, 2)
    assert last(51, make.picker([4, 4])) is None
    assert last(51, make.picker([4, 0])) == (14, place + 8, 5, 3, 1)
    # counts that are too large: the bytes of the user list are taken for an address
    assert last(51, [*make.text(b""), make.Number(2, 2), make.Number(4, 4), make.Number(0, 4)])[:2] == (14, place + 8)
    assert last(51, [*make.text(b""), make.Number(2, 2), make.Number(4, 4), b"abc"]) == (10, place + 8, 5, 3, 1)


def test_light_types():
    assert fault(lone(41, make.light(0, 1))) is None
    assert fault(lone(41, make.light(0, 2))) is None
    assert fault(lone(41, make.light(0, 0))) == (13, 77, 0, 2, None)
    assert fault(lone(41, make.light(0, 3))) == (13, 77, 0, 2, None)


def test_attributes():
    def users(pieces, total):
        return fault(lone(51, [*make.text(b""), make.Number(0, 2), make.Number(total, 4), pack(pieces)]))

    # the run begins at 31; each attribute has 8 bytes and its key and value
    sound = user(0, b"", 1, b"x")
    assert users(sound, 9) is None
    assert users(sound + user(0, b"", 2, b"x"), 18) == (13, 44, 0, 3, 1)
    assert users(sound + user(0, b"", 9, b"x"), 18) == (13, 43, 0, 3, 1)
    assert users(sound, 10) == (10, 31, 0, 2, None)
    assert users(sound, 8) == (10, 39, 0, 3, 0)
    assert users(sound, 4) == (10, 35, 0, 3, 0)
    # a size that does not suit is told before what is missing behind it, and a type before the size
    assert users(sound[:-2] + [make.Number(2**32 - 1, 4)], 8) == (13, 35, 0, 3, 0)
    assert users([make.Number(0, 1), *make.text(b""), make.Number(0, 1)], 4) == (13, 34, 0, 3, 0)


def geometry_fault(*subs, width=4):
    """The fault of a geometry without name and properties, whose first sub-geometry begins at 31."""
    return fault(lone(1, make.geometry(subs), flags=0 if width == 4 else 4))


def test_indices():
    for width in (4, 8):
        for streams, start in (
            ([make.vertices(3, width), make.faces(0, 1, 2)], 45 + 9 * width + 6),
            ([make.faces(0, 1, 2), make.vertices(3, width)], 45),
        ):
            assert geometry_fault(make.sub_geometry(streams), width=width) is None
            position = 0 if streams[0][0].value == 2 else 1
            streams[position] = make.faces(0, 3, 2)
            assert geometry_fault(make.sub_geometry(streams), width=width) == (16, start + 2, 0, 3, 0)


def test_streams():
    empty = make.sub_geometry()
    bad_user = user(0, b"", 99, b"")

    def streams(*run, users=()):
        return geometry_fault(empty, make.sub_geometry(run, users=users))

    # an empty sub-geometry has 12 bytes, so the streams of the second begin at 51
    assert streams(make.vertices(0), make.faces()) is None
    assert streams(make.faces(), users=bad_user) == (17, 51, 0, 3, 1)
    assert streams(make.faces(), make.vertices(0), make.faces(), make.vertices(0)) == (17, 63, 0, 3, 1)
    assert streams(make.faces(9, 9, 9), make.faces()) == (17, 63, 0, 3, 1)
    assert streams(make.faces(9, 9, 9), make.vertices(1), users=bad_user) == (16, 57, 0, 3, 1)
    assert streams(make.stream(3, b""), make.stream(3, b""), make.stream(9, b"?"), make.stream(9, b"?")) is None
    # the whole run is read before the streams are judged together
    assert streams(make.faces(), make.stream(4, b"123")) == (13, 59, 0, 3, 1)
    assert streams(make.vertices(0), users=bad_user) == (13, 64, 0, 3, 1)


def test_run_of_streams():
    # a total that is too large is found behind the properties, which are judged first
    total = [make.Number(100, 4)]
    assert geometry_fault([*total, *make.with_total(make.numeric(1, b"ab")), b"?" * 9]) == (10, 47, 0, 3, 0)
    assert geometry_fault([*total, *make.with_total([b"?" * 5]), b"?" * 9]) == (10, 41, 0, 3, 0)
    # a stream must fit the run, not only the body
    short = make.stream(9, b"abcd")
    assert geometry_fault([make.Number(9, 4), *make.with_total([]), *short, *make.with_total([])]) == (10, 45, 0, 3, 0)


def test_widths():
    body = make.container(0, widths=make.Widths(matrix=8))
    assert fault(lone(22, body, flags=2)) is None
    assert fault(pack(document([block(1, 22, body, flags=1)], flags=16))) is None
    assert fault(pack(document([block(1, 22, body, flags=0)], flags=16 + 2))) is not None
    assert fault(pack(document([block(1, 22, body, flags=1)], flags=0))) is not None
    # sizes of 12 bytes divide by three narrow numbers and not by three wide ones
    assert geometry_fault(make.sub_geometry([make.stream(4, bytes(12))])) is None
    assert geometry_fault(make.sub_geometry([make.stream(4, bytes(12))]), width=8) == (13, 41, 0, 3, 0)


def test_joints():
    def joints(*entries):
        return fault(lone(101, make.skeleton(entries)))

    # joints without name and lists have 62 bytes, the first begins at 31
    assert joints(make.joint(0), make.joint(1, 0), make.joint(2)) is None
    assert joints(make.joint(1)) == (13, 31, 0, 3, 0)
    assert joints(make.joint(0), make.joint(1, 1)) == (13, 95, 0, 3, 1)
    assert joints(make.joint(0, 0)) == (13, 33, 0, 3, 0)
    # the index is that of the joint, also for its attributes
    users = user(0, b"", 1, b"x") + user(0, b"", 99, b"")
    assert joints(make.joint(0), make.joint(1, users=users)) == (13, 167, 0, 3, 1)


def test_names():
    names = [record.name for record in records(lone(101, make.skeleton(name=b"abc")))]
    assert names == [(25, 3)]
    assert [record.name for record in records(lone(200, make.skeleton(name=b"abc")))] == [None]


def test_lawful_documents():
    for draft in make.drafts(random.Random(7), 500):
        assert listing(pack(draft.pieces())) == draft.listing()
    for each in make.NARROW + make.WIDE:
        assert fault(pack(each.pieces())) is None


def test_all_inputs():
    tally = Tally()
    for data in make.inputs(random.Random(SEED)):
        tally.count(listing(data))
    assert not tally.missing(), tally.missing()
    tally.show()


if __name__ == "__main__":
    tests = [(name, test) for name, test in list(globals().items()) if name.startswith("test_")]
    for name, test in tests:
        test()
    print(f"{len(tests)} tests of the reader in Python passed")
