#!/usr/bin/env python3
"""Tries the replayer in Python on calls whose answers are worked out by hand from the rules.

It also tries what must hold of all edits: an address is refused exactly where the document with this address in its
place is, an edit changes one field, and undoing gives the bytes back.

Usage: python3 tests/test_replayer.py
"""

import random

import calls as lists
import documents as make
from documents import block, document, pack
from reader import Fault, blocks, read_header
from replayer import AGREEMENT, Session, answer, replay

TAKEN = """
    open = ok
    next = some 0
    next = some 1
    next = some 2
"""

# an empty block at 12, a container at 23 and a mesh at 97. The container's parent is at 34, its cells at 38 and its
# name at 88; the mesh's parent is at 108, its cells at 112
KITCHEN = pack(make.kitchen())

# wide cells; an empty block, a material, and a mesh at 34: its parent is at 45, its cells at 49, its name at 147, its
# materials at 157 and 161
LAMP_MESH = make.mesh(0, 1, [2, 0], b"lamp", widths=make.Widths(matrix=8))
LAMP = pack(document([block(1, make.PRIMITIVE), block(2, make.MATERIAL), block(3, make.MESH, LAMP_MESH)], flags=2))

# containers 1 in the root, 2 in 1 and 3 in 2, at 12, 85 and 158; their parents are at 23, 96 and 169
TOWER = pack(document([block(ident, make.CONTAINER, make.container(ident - 1)) for ident in (1, 2, 3)]))


def changed(data, place, new):
    return data[:place] + new + data[place + len(new) :]


def expect(data, story):
    """Tries a story, a line for each call, which is followed by its answer behind an equals sign."""
    parts = [line.strip().split(" = ") for line in story.split("\n") if line.strip()]
    found = replay(data, "".join(f"{call}\n" for call, _ in parts))
    assert len(found) == len(parts) + 1
    for (call, wanted), said in zip(parts, found):
        assert said == wanted, (call, said)


def opened(data, *lines):
    """The answers to some lines once three blocks are taken; these are the lines 5 and so on."""
    found = replay(data, "\n".join(("open", "next", "next", "next", *lines)))
    assert found[:4] == ["ok", "some 0", "some 1", "some 2"]
    assert found[-1] == AGREEMENT
    return found[4:-1]


def one(data, line):
    """The answer to one line once three blocks are taken."""
    return opened(data, line)[0]


def test_nothing_to_do():
    for calls in ("", "\n", "\n\n", "# open", "#\n\n#open\n#\r"):
        assert replay(KITCHEN, calls) == ["replicas agree"]
        assert replay(b"", calls) == ["replicas agree"]


def test_before_open():
    expect(KITCHEN, """
        count = 0
        edits = 0
        length = 176
        byte 0 = some 65
        byte 175 = some 0
        byte 176 = none
        record 0 = none
        number 0 = none
        number 1 = none
        material 0 0 = none
        cell 1 0 = none
        path 1 = none
        next = fault 8 0 0 4 -
        undo = fault 8 0 0 4 -
        reparent 2 0 = fault 8 0 2 4 -
        dress 9 0 0 = fault 8 0 9 4 -
        nudge 18446744073709551615 12 d ffffffffffffffff = fault 8 0 18446744073709551615 4 -
    """)


def test_open():
    expect(KITCHEN, """
        open = ok
        open = fault 1 0 0 4 -
        count = 0
    """)
    # a refused open leaves the session as it was
    expect(KITCHEN[:11], """
        open = fault 2 11 0 0 -
        open = fault 2 11 0 0 -
        next = fault 8 0 0 4 -
        length = 11
    """)
    expect(b"", """
        open = fault 2 0 0 0 -
        byte 0 = none
        length = 0
    """)
    expect(b"AWE" + KITCHEN[3:], "open = fault 4 2 0 0 -")
    expect(KITCHEN + b"?", "open = fault 7 8 0 0 -")


def test_next():
    expect(KITCHEN, TAKEN + """
        next = none
        next = none
        count = 3
    """)
    expect(pack(document([])), """
        open = ok
        next = none
        next = none
    """)
    # a refused block is refused again, and edits go on; its number is the one that it would have got
    expect(changed(KITCHEN, 108, b"\1"), """
        open = ok
        next = some 0
        next = some 1
        next = fault 14 108 2 2 -
        next = fault 14 108 2 2 -
        reparent 1 0 = ok
        next = fault 14 108 2 2 -
        count = 2
    """)
    # the second material is an entry and has an index
    expect(changed(LAMP, 161, b"\1"), """
        open = ok
        next = some 0
        next = some 1
        next = fault 14 161 2 3 1
    """)


def test_records():
    expect(KITCHEN, TAKEN + """
        record 0 = some 1 0 11 12 0 - - -
        record 1 = some 2 0 22 23 63 0 88 1
        record 2 = some 3 0 23 97 68 2 162 0
        record 3 = none
        record 18446744073709551615 = none
    """)
    expect(LAMP, TAKEN + "record 2 = some 3 0 23 34 128 0 147 4")
    # a block that is not taken has no record
    expect(KITCHEN, """
        open = ok
        next = some 0
        record 0 = some 1 0 11 12 0 - - -
        record 1 = none
    """)
    # a picker has a name and no parent
    expect(pack(document([block(0, make.PICKER, make.picker([], b"ab"))])), """
        open = ok
        next = some 0
        record 0 = some 0 0 51 12 10 - 25 2
        path 0 = none
        cell 0 0 = none
    """)


def test_numbers():
    expect(KITCHEN, TAKEN + """
        number 1 = some 0
        number 3 = some 2
        number 4 = none
        number 0 = none
        number 4294967295 = none
    """)
    # temporary blocks are not found, blocks of other namespaces are
    blocks_made = [block(0, make.PRIMITIVE), block(1, make.CONTAINER, namespace=7), block(0, make.MATERIAL)]
    expect(pack(document(blocks_made)), TAKEN + """
        number 0 = none
        number 1 = some 1
        number 2 = none
        record 1 = some 1 7 22 23 0 - - -
    """)


def test_reparent():
    expect(KITCHEN, TAKEN + """
        reparent 2 1 = fault 14 0 2 4 -
        byte 108 = some 2
        reparent 2 0 = ok
        byte 107 = some 0
        byte 108 = some 0
        byte 109 = some 0
        byte 110 = some 0
        byte 111 = some 0
        record 2 = some 3 0 23 97 68 0 162 0
        edits = 1
        undo = ok
        byte 108 = some 2
        record 2 = some 3 0 23 97 68 2 162 0
        edits = 0
    """)


def test_path():
    expect(KITCHEN, TAKEN + """
        path 0 = none
        path 1 = some 0
        path 2 = some 1
        path 3 = none
        reparent 2 0 = ok
        path 2 = some 0
        undo = ok
        path 2 = some 1
    """)
    # the paths of blocks below an edited one are shorter too
    expect(TOWER, TAKEN + """
        path 2 = some 2
        reparent 1 0 = ok
        path 2 = some 1
        reparent 2 1 = ok
        path 2 = some 1
        undo = ok
        undo = ok
        path 2 = some 2
    """)


def test_refusals_of_reparent():
    # not taken; no parent's address; itself, a later block, one of another kind, none at all
    expect(KITCHEN, TAKEN + """
        reparent 3 0 = fault 18 0 3 4 -
        reparent 18446744073709551615 9 = fault 18 0 18446744073709551615 4 -
        reparent 0 9 = fault 19 0 0 4 -
        reparent 1 2 = fault 14 0 1 4 -
        reparent 1 3 = fault 14 0 1 4 -
        reparent 1 1 = fault 14 0 1 4 -
        reparent 1 4 = fault 14 0 1 4 -
        reparent 2 258 = fault 14 0 2 4 -
        reparent 2 4294967295 = fault 14 0 2 4 -
        edits = 0
        byte 34 = some 0
    """)
    expect(KITCHEN, """
        open = ok
        next = some 0
        reparent 1 0 = fault 18 0 1 4 -
    """)
    expect(LAMP, TAKEN + "reparent 1 0 = fault 19 0 1 4 -")


def test_foreign_blocks():
    """A block of another namespace has no fields and is no address; a temporary one has fields and is no address."""
    head = make.container(0)
    expect(pack(document([block(1, 22, head, namespace=1), block(0, 22, head), block(2, 22, head)])), TAKEN + """
        reparent 0 0 = fault 19 0 0 4 -
        nudge 0 0 s 00000000 = fault 19 0 0 4 -
        dress 0 0 0 = fault 19 0 0 4 -
        cell 0 0 = none
        path 0 = none
        reparent 2 1 = fault 14 0 2 4 -
        reparent 1 0 = ok
        nudge 1 0 s 40000000 = ok
        cell 1 0 = some s 40000000
        edits = 2
    """)


def test_dress():
    expect(LAMP, TAKEN + """
        material 2 0 = some 2
        material 2 1 = some 0
        material 2 2 = none
        material 2 18446744073709551615 = none
        material 1 0 = none
        material 3 0 = none
        dress 2 1 2 = ok
        material 2 1 = some 2
        byte 161 = some 2
        byte 162 = some 0
        dress 2 0 0 = ok
        material 2 0 = some 0
        byte 157 = some 0
        undo = ok
        material 2 0 = some 2
        material 2 1 = some 2
        undo = ok
        material 2 1 = some 0
    """)


def test_refusals_of_dress():
    expect(LAMP, TAKEN + """
        dress 3 0 0 = fault 18 0 3 4 -
        dress 1 9 9 = fault 19 0 1 4 -
        dress 2 2 9 = fault 21 0 2 4 -
        dress 2 18446744073709551615 0 = fault 21 0 2 4 -
        dress 2 0 1 = fault 14 0 2 4 -
        dress 2 0 3 = fault 14 0 2 4 -
        dress 2 0 4 = fault 14 0 2 4 -
        dress 2 0 514 = fault 14 0 2 4 -
        byte 157 = some 2
    """)
    # a mesh without materials has the field, but no position in it; a container has not
    expect(KITCHEN, TAKEN + """
        dress 2 0 0 = fault 21 0 2 4 -
        dress 1 0 0 = fault 19 0 1 4 -
    """)


def test_nudge():
    expect(KITCHEN, TAKEN + """
        cell 1 0 = some s 3f800000
        cell 1 1 = some s 00000000
        cell 1 11 = some s 00000000
        cell 1 12 = none
        cell 1 18446744073709551615 = none
        cell 0 0 = none
        cell 3 0 = none
        nudge 1 11 s 01020304 = ok
        cell 1 11 = some s 01020304
        byte 81 = some 0
        byte 82 = some 4
        byte 83 = some 3
        byte 84 = some 2
        byte 85 = some 1
        byte 86 = some 1
        byte 87 = some 0
        cell 2 11 = some s 00000000
    """)
    expect(LAMP, TAKEN + """
        cell 2 0 = some d 3ff0000000000000
        nudge 2 1 d 8000000000000001 = ok
        cell 2 1 = some d 8000000000000001
        byte 56 = some 63
        byte 57 = some 1
        byte 64 = some 128
        byte 65 = some 0
        cell 2 2 = some d 0000000000000000
    """)


def test_refusals_of_nudge_in_order():
    """Each line breaks one rule less than the one before, the first of which is told."""
    expect(KITCHEN, "nudge 0 12 d 7ff8000000000001 = fault 8 0 0 4 -")
    expect(KITCHEN, TAKEN + "nudge 1 0 s 00000000 = ok\n" * 256 + """
        nudge 3 12 d 7ff8000000000001 = fault 18 0 3 4 -
        nudge 0 12 d 7ff8000000000001 = fault 19 0 0 4 -
        nudge 1 12 d 7ff8000000000001 = fault 22 0 1 4 -
        nudge 1 11 d 7ff8000000000001 = fault 23 0 1 4 -
        nudge 1 11 s 7fc00000 = fault 24 0 1 4 -
        nudge 1 11 s 7f800000 = fault 20 0 1 4 -
        undo = ok
        nudge 1 11 s 7f800000 = ok
    """)
    expect(LAMP, TAKEN + """
        nudge 2 0 s 00000000 = fault 23 0 2 4 -
        nudge 2 0 s 7fc00000 = fault 23 0 2 4 -
    """)


def test_floats_at_the_bounds():
    for bits in ("7f800000", "ff800000", "7f7fffff", "80000000", "00000001"):
        expect(KITCHEN, f"{TAKEN} nudge 2 5 s {bits} = ok \n cell 2 5 = some s {bits}")
    for bits in ("7f800001", "ff800001", "7fffffff", "ffffffff", "7fc00000"):
        expect(KITCHEN, f"{TAKEN} nudge 2 5 s {bits} = fault 24 0 2 4 -")
    for bits in ("7ff0000000000000", "fff0000000000000", "7fefffffffffffff"):
        expect(LAMP, f"{TAKEN} nudge 2 5 d {bits} = ok \n cell 2 5 = some d {bits}")
    for bits in ("7ff0000000000001", "fff0000000000001", "fff8000000000000", "7ff0000100000000"):
        expect(LAMP, f"{TAKEN} nudge 2 5 d {bits} = fault 24 0 2 4 -")


def test_cells_that_are_no_numbers():
    """The cell is told as one of two patterns, and its bytes stay what they are."""
    expect(changed(KITCHEN, 38, b"\1\0\x80\xff"), TAKEN + """
        cell 1 0 = some s 7fc00000
        byte 38 = some 1
        byte 41 = some 255
        nudge 1 0 s 00000000 = ok
        cell 1 0 = some s 00000000
        undo = ok
        cell 1 0 = some s 7fc00000
        byte 38 = some 1
    """)
    expect(changed(LAMP, 49, b"\xff" * 8), TAKEN + "cell 2 0 = some d 7ff8000000000000")


def test_own_widths():
    """Where the document leaves the widths to its blocks, each has cells of its own width."""
    wide = block(1, 22, make.container(0, widths=make.Widths(matrix=8)), flags=1)
    expect(pack(document([wide, block(2, 22, make.container(1)), block(0, 0)], flags=16)), TAKEN + """
        cell 0 4 = some d 3ff0000000000000
        cell 1 4 = some s 3f800000
        nudge 0 0 s 00000000 = fault 23 0 0 4 -
        nudge 1 0 d 0000000000000000 = fault 23 0 1 4 -
    """)


def test_too_many_edits():
    # what lays the bytes that are there is an edit as well
    expect(KITCHEN, TAKEN + "reparent 1 0 = ok\n" * 256 + """
        reparent 1 0 = fault 20 0 1 4 -
        edits = 256
        reparent 2 1 = fault 14 0 2 4 -
        reparent 0 0 = fault 19 0 0 4 -
        dress 2 0 0 = fault 21 0 2 4 -
        undo = ok
        edits = 255
        nudge 2 0 s 40400000 = ok
        edits = 256
    """)
    expect(LAMP, TAKEN + "dress 2 0 0 = ok\n" * 256 + """
        dress 2 0 2 = fault 20 0 2 4 -
        dress 2 0 3 = fault 14 0 2 4 -
        dress 2 2 3 = fault 21 0 2 4 -
        material 2 0 = some 0
    """)


def test_undo():
    # edits of one field are uncovered one by one
    expect(KITCHEN, TAKEN + """
        undo = fault 25 0 0 4 -
        nudge 1 2 s 00000001 = ok
        reparent 2 0 = ok
        nudge 1 2 s 00000002 = ok
        nudge 1 2 s 00000003 = ok
        undo = ok
        cell 1 2 = some s 00000002
        undo = ok
        cell 1 2 = some s 00000001
        path 2 = some 0
        undo = ok
        path 2 = some 1
        undo = ok
        cell 1 2 = some s 00000000
        undo = fault 25 0 0 4 -
        edits = 0
    """)


def test_edits_while_reading():
    """Blocks are taken on while edits stand, and lie where they were."""
    expect(TOWER, """
        open = ok
        next = some 0
        reparent 1 0 = fault 18 0 1 4 -
        reparent 0 0 = ok
        nudge 0 0 s 00000000 = ok
        number 2 = none
        next = some 1
        number 2 = some 1
        reparent 1 0 = ok
        next = some 2
        next = none
        record 2 = some 3 0 22 158 62 2 223 0
        path 2 = some 1
        edits = 3
    """)


def test_count_of_blocks():
    front = [block(1, make.CONTAINER, make.container(0)), *(block(0, make.MATERIAL) for _ in range(511))]
    reading = "open = ok\n" + "".join(f"next = some {number}\n" for number in range(512))
    expect(pack(document(front)), reading + """
        next = none
        reparent 0 0 = ok
        next = none
        count = 512
        edits = 1
    """)
    # the blocks end at 12 + 73 + 511 * 11
    expect(pack(document([*front, [b"?"]])), reading + """
        next = fault 9 5706 512 4 -
        nudge 0 0 s 00000000 = ok
        next = fault 9 5706 512 4 -
        count = 512
        undo = ok
        next = fault 9 5706 512 4 -
        record 511 = some 0 0 81 5695 0 - - -
        record 512 = none
        reparent 512 0 = fault 18 0 512 4 -
    """)


def test_lines():
    """Lines are counted from 1 over all lines; the last needs no line feed."""
    assert replay(KITCHEN, "\n# a word\nnothing\n\nopen\nopen \n") == ["? 3", "ok", "? 6", "replicas agree"]
    assert replay(KITCHEN, "open\nnext") == ["ok", "some 0", "replicas agree"]
    assert replay(KITCHEN, "open\r\nlength\r\n\r\nlength") == ["? 1", "? 2", "? 3", "176", "replicas agree"]
    # a line that is no call changes nothing
    assert opened(KITCHEN, "reparent 2 0 ", "next 0", "undos", "edits") == ["? 5", "? 6", "? 7", "0"]


def test_lines_that_are_no_calls():
    names = ("Open", "OPEN", "opens", "ope", "close", "?", " ", "\t", "\0", " #")
    names += (" open", "open ", "open  ", "open 0", "open\r", "open\t", "\xef\xbb\xbfopen")
    missing = ("record", "number", "path", "byte", "reparent 1", "dress 2 0", "nudge 1 0", "nudge 1 0 s", "cell 1")
    extra = ("undo 1", "count -", "reparent 1 0 0", "dress 2 0 0 0", "nudge 1 0 s 00000000 0", "cell 1 0 s")
    parted = ("record  0", "record\t0", "record\xa00", "record 0 ", " record 0", "nudge 1 0  s 00000000")
    of_digits = (f"{form} {word}" for form in ("record", "cell 1") for word in (*NO_DIGITS, *TOO_LARGE))
    for line in (*names, *missing, *extra, *parted, "nudge 1 0 s  00000000", "nudge 1 0 00000000", *of_digits):
        assert one(KITCHEN, line) == "? 5", line
    # addresses and IDs have 32 bits, other numbers have 64
    for word in (*NO_DIGITS, *TOO_LARGE, "4294967296", "4294967298", "18446744073709551615"):
        for line in (f"reparent 2 {word}", f"dress 2 0 {word}", f"number {word}"):
            assert one(KITCHEN, line) == "? 5", line
    for word in ("4294967296", "18446744073709551615"):
        for line in (f"record {word}", f"path {word}", f"byte {word}", f"cell 1 {word}", f"material 2 {word}"):
            assert one(KITCHEN, line) == "none", line


NO_DIGITS = ("-1", "+1", "-0", "0x1", "1.", "1e1", "a", "1a", "a1", "1_0", "\xb2", "1\xb2", "", "1,0", "'1'", "1\r")
TOO_LARGE = ("18446744073709551616", "18446744073709551617", "9" * 40, "1" + "0" * 5000)


def test_bits_that_are_none():
    short = ("s ", "s 0", "s 0000000", "s 000000000", "s 0000000000000000")
    short += ("d ", "d 00000000", "d 000000000000000", "d 00000000000000000")
    other = ("S 00000000", "D 0000000000000000", "f 00000000", "s00000000", "00000000 s", "s 00000000\r", "s 000000 0")
    letters = (f"s 0000{letter}000" for letter in "gG-+_:@`/\xb2 ")
    for bits in (*short, *other, *letters, "s 0x000000", "s -0000000"):
        assert opened(KITCHEN, f"nudge 1 0 {bits}", "edits") == ["? 5", "0"], bits


def test_odd_spellings_that_are_calls():
    expect(KITCHEN, f"""{TAKEN}
        record 0002 = some 3 0 23 97 68 2 162 0
        number 0003 = some 2
        path {"0" * 5000}2 = some 1
        byte 00000000000000000000108 = some 2
        reparent 02 00 = ok
        number 00000000000000000000000004294967295 = none
    """)
    # digits of bits may be capital letters or small ones
    for bits in ("abcdef01", "ABCDEF01", "aBcDeF01"):
        assert opened(KITCHEN, f"nudge 1 0 s {bits}", "cell 1 0", "byte 41") == ["ok", "some s abcdef01", "some 171"]


def test_addresses_as_read():
    """An address is refused with 14 exactly where the document that has it in its place is refused with 14 there."""
    data = pack(lists.stage_with_meshes(random.Random(6)).pieces())
    session = Session(data)
    session.open()
    while session.next() is not None:
        pass
    judged = 0
    for number, record in enumerate(session.records):
        fields = [(f"reparent {number}", record.fields.parent)] if record.fields.parent else []
        fields += [(f"dress {number} {position}", field) for position, field in enumerate(record.fields.materials)]
        for call, field in fields:
            for address in range(20):
                refused = refused_at(changed(data, field.place, address.to_bytes(4, "little"))) == (14, field.place)
                said = answer(session, f"{call} {address}", 1)
                assert said == (f"fault 14 0 {number} 4 -" if refused else "ok"), (call, address)
                if not refused:
                    session.undo()
                judged += 1
    assert judged > 300


def refused_at(data):
    """Cause and place of the first fault of a document, or None."""
    try:
        list(blocks(data, read_header(data)))
    except Fault as fault:
        return fault.cause, fault.place
    return None


def test_undoing_all():
    """However many edits stood, undoing them gives the document back, and each edit changes one field at most."""
    rng = random.Random(5)
    for number in range(20):
        data = lists.scene(rng, number % 32, 6)
        story = lists.Story(rng, data)
        story.open()
        story.read_all()
        for _ in range(20):
            story.edit()
        session = Session(data)
        for line in story.lines:
            before = session.data
            answer(session, line, 1)
            places = [place for place in range(len(data)) if before[place] != session.data[place]]
            assert len(session.data) == len(data)
            assert not places or places[-1] - places[0] < 8
        assert session.standing
        while session.standing:
            session.undo()
        assert session.data == data


if __name__ == "__main__":
    tests = [(name, test) for name, test in list(globals().items()) if name.startswith("test_")]
    for name, test in tests:
        test()
    print(f"{len(tests)} tests of the replayer in Python passed")
