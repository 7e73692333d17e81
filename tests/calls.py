"""Lists of calls for comparing awdreplay with the replayer in Python, each made for the document that it is for.

Most calls name what is there, so that edits succeed; the others are aimed at each refusal. What blocks a document has
is found with the reader in Python; whether a call succeeds is not looked at, so a list is as random where it is wrong.

runs gives all documents with their lists.
"""

import struct

import documents as make
from reader import SCENE_KINDS, Fault, blocks, read_header

# numbers that are not a block's, a position's, a cell's or a place's, near the bounds of what words can say
FAR = (512, 2**16, 2**31, 2**32 - 1, 2**32, 2**63, 2**64 - 1)
FAR_ADDRESSES = (513, 2**8, 2**16, 2**31, 2**32 - 1)

# floats of 4 and of 8 bytes by their bits: zeros, the smallest, ones, the largest, infinities; then what is no number
SINGLES = (0, 1 << 31, 1, 0x3F80_0000, 0xC020_0000, 0x7F7F_FFFF, 0x7F80_0000, 0xFF80_0000)
DOUBLES = (0, 1 << 63, 1, 0x3FF0 << 48, 0xC004 << 48, 0x7FEF_FFFF_FFFF_FFFF, 0x7FF0 << 48, 0xFFF0 << 48)
NO_SINGLES = (0x7F80_0001, 0x7FC0_0000, 0xFF80_0001, 0xFFC0_0000, 0xFFFF_FFFF)
NO_DOUBLES = ((0x7FF0 << 48) + 1, 0x7FF8 << 48, (0xFFF0 << 48) + 1, 0xFFF8 << 48, 2**64 - 1, (0x7FF0 << 48) + (1 << 31))


def bits_word(rng, size, numbers_only=False):
    """A letter and the bits of a float, in capital letters or small ones or both."""
    numbers, others = (SINGLES, NO_SINGLES) if size == 4 else (DOUBLES, NO_DOUBLES)
    bits = rng.choice((*numbers, rng.randrange(0x70 << 8 * size - 8)))
    if not numbers_only and rng.random() < 0.12:
        bits = rng.choice(others)
    digits = f"{bits:0{2 * size}x}"
    digits = rng.choice((digits, digits, digits.upper(), "".join(rng.choice((d, d.upper())) for d in digits)))
    return f"{'s' if size == 4 else 'd'} {digits}"


def lawful_blocks(data):
    """The blocks of a document up to its first fault."""
    found = []
    try:
        for record in blocks(data, read_header(data)):
            found.append(record)
    except Fault:
        pass
    return found


class Story:
    """A list of calls that grows, for one document."""

    def __init__(self, rng, data):
        self.rng = rng
        self.length = len(data)
        self.found = lawful_blocks(data)
        self.lines = []
        self.taken = 0
        self.opened = False

    def say(self, *words):
        self.lines.append(" ".join(str(each) for each in words))

    def text(self):
        """The list; the last line may lack its line feed."""
        return "\n".join(self.lines) + self.rng.choice(("\n", "\n", "\n\n", "")) if self.lines else ""

    # -- reading

    def open(self):
        self.say("open")
        self.opened = True

    def next(self):
        self.say("next")
        if self.opened and self.taken < len(self.found):
            self.taken += 1

    def read(self, count):
        for _ in range(count):
            self.next()

    def read_all(self):
        """Reads to the end, and asks for more."""
        self.read(len(self.found) - self.taken + 2)

    # -- arguments

    def often(self, chance=0.85):
        return self.rng.random() < chance

    def block(self, kinds=None):
        """The number of a taken block of some kinds, where there is one; seldom another number."""
        taken = range(self.taken)
        foreign = self.rng.random() < 0.05
        some = [
            number
            for number in taken
            if kinds is None
            or (self.found[number].kind in kinds and (self.found[number].namespace != 0) == foreign)
        ]
        if some and self.often(0.9):
            return self.rng.choice(some)
        return self.rng.choice((*taken, *taken, self.taken, self.taken + 1, self.rng.choice(FAR)))

    def ident(self):
        """The ID of a block, taken or not; seldom 0 or an ID that no block has."""
        known = [record.id for record in self.found]
        return self.rng.choice(known if known and self.often(0.7) else (0, len(known), len(known) + 1, *FAR_ADDRESSES))

    def record(self, number):
        return self.found[number] if number < self.taken else None

    def address(self, number, kinds):
        """The ID of a block before and of the right kinds, or 0; seldom another's, or none's."""
        before = self.found[: min(number, self.taken)]
        right = [record.id for record in before if record.namespace == 0 and record.kind in kinds and record.id]
        if self.often(0.75):
            return self.rng.choice((0, *right, *right))
        known = [record.id for record in self.found]
        wrapping = 256 + self.rng.choice((0, *right))
        return self.rng.choice((*known, len(known) + 1, self.rng.choice(FAR_ADDRESSES), wrapping))

    # -- edits, each followed by questions for what it may have changed

    def reparent(self, number=None):
        number = self.block(SCENE_KINDS) if number is None else number
        self.say("reparent", number, self.address(number, SCENE_KINDS))
        if self.often(0.6):
            self.ask_record(number)

    def dress(self, number=None):
        number = self.dressed() if number is None else number
        record = self.record(number)
        count = len(record.fields.materials) if record else 0
        position = self.rng.randrange(count) if count and self.often() else self.rng.choice((0, count, count + 1, *FAR))
        self.say("dress", number, position, self.address(number, (make.MATERIAL,)))
        if self.often(0.6):
            self.say("material", number, position)
        if position < count:
            self.ask_bytes(record.fields.materials[position])

    def dressed(self):
        """The number of a mesh with materials where there is one; seldom another block's."""
        meshes = [number for number in range(self.taken) if self.found[number].fields.materials]
        return self.rng.choice(meshes) if meshes and self.often() else self.block((make.MESH,))

    def nudge(self, number=None):
        number = self.block(SCENE_KINDS) if number is None else number
        record = self.record(number)
        cell = self.rng.randrange(12) if self.often(0.9) else self.rng.choice((11, 12, 13, *FAR))
        size = record.fields.cells[0].size if record and record.fields.cells else self.rng.choice((4, 8))
        self.say("nudge", number, cell, bits_word(self.rng, size if self.often(0.9) else 12 - size))
        if self.often(0.6):
            self.say("cell", number, cell)
        if record and record.fields.cells and cell < 12:
            self.ask_bytes(record.fields.cells[cell])

    def edit(self):
        """An edit of any sort, seldom of a material where no taken block has one."""
        dressed = any(record.fields.materials for record in self.found[: self.taken])
        self.rng.choice((self.reparent, self.nudge, self.dress if dressed or not self.often() else self.nudge))()

    def edit_again(self):
        """Several edits of one field or of fields near it, and most of them undone."""
        deed, number = self.rng.choice(((self.reparent, self.block(SCENE_KINDS)), (self.dress, self.dressed())))
        if self.often(0.3):
            deed, number = self.nudge, self.block(SCENE_KINDS)
        for _ in range(self.rng.randrange(2, 6)):
            deed(number)
        for _ in range(self.rng.randrange(6)):
            self.say("undo")
            self.ask_all(number)

    def undo(self):
        self.say("undo")
        if self.often(0.5):
            self.question()

    def undo_all(self):
        """Undoes more than was done in most lists."""
        for _ in range(self.rng.choice((3, 12, 30))):
            self.undo()

    def fill(self):
        """Edits until none may be added, and some more of each sort; then one undone and put back."""
        scene = [n for n in range(self.taken) if self.found[n].fields.cells]
        for turn in range(270 if scene else 0):
            number = self.rng.choice(scene)
            size = self.record(number).fields.cells[0].size
            if turn % 3 == 0:
                self.say("reparent", number, 0)
            else:
                self.say("nudge", number, self.rng.randrange(12), bits_word(self.rng, size, numbers_only=True))
        for _ in range(12):
            self.edit()
        self.say("edits")
        self.say("undo")
        self.edit_again()

    # -- questions

    def ask_record(self, number):
        self.say("record", number)
        self.say("path", self.rng.choice((number, self.block(SCENE_KINDS))))
        if self.record(number) and self.record(number).fields.parent:
            self.ask_bytes(self.record(number).fields.parent)

    def ask_bytes(self, field):
        """Some of the bytes of a field, and those around it."""
        places = range(field.place - 1, field.place + field.size + 1)
        for place in places if self.often(0.1) else self.rng.sample(places, 2):
            self.say("byte", place)

    def ask_all(self, number):
        """All that is told of a block."""
        self.say("record", number)
        self.say("path", number)
        record = self.record(number)
        for cell in range(13) if record and record.fields.cells else (0,):
            if self.often(0.3):
                self.say("cell", number, cell)
        for position in range(len(record.fields.materials) + 1 if record else 1):
            self.say("material", number, position)

    def question(self):
        rng = self.rng
        rng.choice((
            lambda: self.say("count"),
            lambda: self.say("edits"),
            lambda: self.say("record", self.block()),
            lambda: self.say("number", self.ident()),
            lambda: self.say("material", self.dressed(), rng.choice((0, 0, 1, 2, 3, *FAR))),
            lambda: self.say("cell", self.block(SCENE_KINDS), rng.choice((*range(12), 11, 12, 13, *FAR))),
            lambda: self.say("path", self.block(SCENE_KINDS if self.often(0.8) else None)),
            lambda: self.say("length"),
            lambda: self.say("byte", rng.choice((rng.randrange(self.length + 1), self.length, self.length + 1, *FAR))),
        ))()

    def survey(self):
        """All that is told of all blocks, and some of the bytes."""
        self.say("count")
        self.say("edits")
        for number in range(self.taken + 1) if self.taken < 20 else self.rng.sample(range(self.taken), 8):
            self.ask_all(number)
        for place in sorted(self.rng.sample(range(self.length), min(self.length, 60))):
            self.say("byte", place)

    # -- lines that are no calls, and lines that are passed over

    def sound_line(self):
        """A call, as it may stand in a list."""
        rng, number, ident = self.rng, self.block(), self.address(self.taken, SCENE_KINDS)
        cell, bits = rng.randrange(13), bits_word(rng, rng.choice((4, 8)))
        words = ["open", "next", "undo", "count", "edits", "length", f"number {ident}"]
        words += [f"{question} {number}" for question in ("record", "path", "byte")]
        words += [f"material {number} {cell}", f"cell {number} {cell}"]
        words += [f"reparent {number} {ident}", f"dress {number} {cell} {ident}", f"nudge {number} {cell} {bits}"]
        return rng.choice(words)

    def odd_line(self):
        """A line that differs from a call by little: most are none, some are odd but lawful."""
        self.lines.append(self.rng.choice((*line_changes(self.sound_line()), self.rng.choice(NO_LINES))))

    def passed_over(self):
        self.lines.append(self.rng.choice(("", "", "#", "# open", "#next", "# caf\xe9", "##", "#\r")))


# a call of each sort, lawful where the first block is in the scene and has narrow or wide cells
SOUND_LINES = (
    "open",
    "next",
    "reparent 0 0",
    "dress 2 0 0",
    "nudge 0 11 s 3F80000a",
    "nudge 0 11 d 3ff000000000000A",
    "undo",
    "count",
    "edits",
    "record 0",
    "number 1",
    "material 0 0",
    "cell 0 11",
    "path 0",
    "length",
    "byte 75",
)

# lines that are no calls, nor near to one
NO_LINES = (" ", "  ", "\r", "\t", "\0", "?", "? 1", "ok", " #", " # open", "\r#", "-", "0", "\xff", "caf\xe9")
NO_LINES += ("some 0", "close", "begin", "header", "replicas agree")


def word_changes(line):
    """A line with something wrong about its words."""
    words = line.split(" ")
    name, rest = words[0], line[len(words[0]) :]
    changes = [" ".join(words[:-1]), " ".join(words[1:]), f"{line} 0", f"{line} s", f"{line} {line}", f"{line} # word"]
    changes += [f"{line}{more}" for more in (" ", "\r", "\0", "\t", ";")]
    changes += [f"{more}{line}" for more in (" ", "\t", "re", "\xef\xbb\xbf")]
    changes += [line.replace(" ", parting) for parting in ("  ", "\t", "\xa0", ",", "", "\x1c", " \r")]
    changes += [line.upper(), line.capitalize(), line.swapcase()]
    return [*changes, name + "s" + rest, name[:-1] + rest, name[1:] + rest]


def number_changes(value):
    """A number spelled oddly: too large, signed, with zeros in front, or with other letters."""
    lawful = [f"{value}", f"0{value}", f"{value:020}", f"{value:021}", f"{value:060}", "0" * 30]
    bounds = [2**32, 2**32 + value, 2**33, 2**63, 2**64 - 1, 2**64, 2**64 + value, 2**65, 2**128 + value]
    bounds += [2 * 10**19, 10**20]
    behind = [f"{value}{letter}" for letter in ("x", ".", ".0", "u64", "/", ":", "\r", "\xb2")]
    before = [f"{letter}{value}" for letter in ("-", "+", "x", "/", ":")]
    others = ["", "-", "+", "-0", "+0", "-1", "+1", "1e3", "1_0", "1,0", f"0x{value:x}", "ff", "a", "''"]
    return [*lawful, *map(str, bounds), *behind, *before, *others]


def bits_changes(letter, digits):
    """Bits that are too many or too few, or of other letters, or behind another letter."""
    odd = [digits[1:], f"{digits}0", f"0{digits}", f"0x{digits}", f"0x{digits[2:]}", f"{digits[:4]} {digits[4:]}", ""]
    odd += [f"{digits} ", f"{digits}\r", digits.upper(), digits.lower()]
    odd += [f"{digits[:3]}{other}{digits[4:]}" for other in "gGzZ-+_./:@`{\xb2"]
    letters = [letter.upper(), "d" if letter == "s" else "s", "f", "", "ss", digits]
    changes = [f"{letter} {each}" for each in odd] + [f"{each} {digits}" for each in letters]
    return [*changes, letter, digits, f"{letter}{digits}"]


def line_changes(line):
    """A line with each of its words changed, and with its words changed as a whole."""
    words = line.split(" ")
    changes = word_changes(line)
    for position, word in enumerate(words):
        if word in ("s", "d"):
            changes += [" ".join((*words[:position], bits)) for bits in bits_changes(word, words[position + 1])]
        elif word.isdecimal():
            front, behind = words[:position], words[position + 1 :]
            changes += [" ".join((*front, other, *behind)) for other in number_changes(int(word))]
    return changes


def every_odd_line():
    """All changes of the sound lines, and lastly questions that tell whether an edit was made."""
    lines = ["open", "next", "next", "next"]
    for line in SOUND_LINES:
        lines += [line, *line_changes(line)]
    return "\n".join([*lines, *NO_LINES, "count", "edits"])


# ---- lists


def anything(rng, data, deeds):
    """Calls of all sorts, edits while the reading goes on, and at the end a survey."""
    story = Story(rng, data)
    for _ in range(rng.choice((0, 0, 1, 6))):
        rng.choice((story.question, story.edit, story.undo, story.next, story.odd_line))()
    story.open()
    story.read(rng.choice((0, 2, len(story.found))))
    sorts = [story.edit] * 8 + [story.next] * 3 + [story.question] * 4 + [story.undo] * 2
    sorts += [story.edit_again, story.odd_line, story.odd_line, story.passed_over]
    for _ in range(deeds):
        rng.choice(sorts)()
    if rng.random() < 0.3:
        story.say("open")
    if rng.random() < 0.3:
        story.undo_all()
    story.read_all()
    story.survey()
    return story.text()


def full(rng, data):
    """More edits than may stand, and then more undone than stand."""
    story = Story(rng, data)
    story.open()
    story.read(len(story.found))
    story.fill()
    story.survey()
    for _ in range(rng.choice((0, 10, 260))):
        story.say("undo")
    story.survey()
    story.edit_again()
    story.read_all()
    return story.text()


def to_the_end(rng, data):
    """Many blocks, with edits between and behind the refusal for there being too many."""
    story = Story(rng, data)
    story.open()
    while story.taken < len(story.found):
        story.read(rng.randrange(1, 200))
        story.edit()
    story.read_all()
    for _ in range(6):
        rng.choice((story.edit, story.edit_again, story.undo, story.next))()
    story.read_all()
    story.survey()
    return story.text()


def unopened(rng, data):
    """Calls on a session that is not open, or was refused to be."""
    story = Story(rng, data)
    for _ in range(12):
        rng.choice((story.question, story.edit, story.undo, story.next, story.odd_line))()
        if rng.random() < 0.1:
            story.say("open")
            story.opened = bool(story.found)
    return story.text()


# ---- documents


def other_cells(rng, data):
    """A document with other floats in some of its cells, also such as are no numbers."""
    changed = bytearray(data)
    for record in lawful_blocks(data):
        for place, size in record.fields.cells:
            if rng.random() < 0.4:
                others = (*SINGLES, *NO_SINGLES) if size == 4 else (*DOUBLES, *NO_DOUBLES)
                bits = rng.choice((*others, rng.randrange(256**size)))
                changed[place : place + size] = bits.to_bytes(size, "little")
    return bytes(changed)


def scene(rng, flags, count):
    """A random lawful document with much that may be edited: few blocks of other kinds, materials early."""
    draft = make.Draft(rng, flags)
    for _ in range(2):
        draft.add(make.MATERIAL, temporary=rng.random() < 0.2)
    for _ in range(count):
        draft.grow((*make.SCENE, *make.SCENE, make.MESH, make.MESH, make.MATERIAL, make.PICKER))
    return other_cells(rng, make.pack(draft.pieces()))


def nested(depth, width=4):
    """Containers one in the other, and in the innermost a mesh of three materials."""
    widths = make.Widths(matrix=width)
    blocks_made = [make.block(1, make.PRIMITIVE), make.block(2, make.MATERIAL), make.block(3, make.MATERIAL)]
    for ident in range(4, 4 + depth):
        parent = ident - 1 if ident > 4 else make.ROOT
        blocks_made.append(make.block(ident, make.CONTAINER, make.container(parent, widths=widths)))
    blocks_made.append(make.block(0, make.MESH, make.mesh(3 + depth, 1, [2, 3, 0], b"mesh", widths=widths)))
    return make.pack(make.document(blocks_made, flags=0 if width == 4 else 2))


def faults_behind(rng):
    """A scene, and behind it a block with each fault that a block can have."""
    for flags in (0, 2):
        draft = make.Draft(rng, flags)
        for _ in range(6):
            draft.grow((make.CONTAINER, make.MESH))
        ident = draft.following
        at_root = make.container(make.ROOT, widths=draft.widths(0))
        lit = make.light(make.ROOT, 3, widths=draft.widths(0))
        triangle = make.sub_geometry([make.vertices(3), make.faces(0, 1, 3)])
        faulty = [
            make.block(ident, make.CONTAINER, [b"abc"]),
            make.block(ident, make.CONTAINER, at_root)[:-1],
            make.block(ident + 1, make.CONTAINER, at_root),
            make.block(ident, make.CONTAINER, at_root, flags=8),
            make.block(ident, make.LIGHT, lit),
            make.block(ident, make.CONTAINER, make.container(ident, widths=draft.widths(0))),
            make.block(ident, make.PICKER, make.picker([ident])),
            make.block(ident, make.CONTAINER, [*at_root, b"\0"]),
            make.block(ident, make.GEOMETRY, make.geometry([triangle])),
            make.block(ident, make.GEOMETRY, make.geometry([make.sub_geometry(), make.sub_geometry([make.faces()])])),
        ]
        for each in faulty:
            yield make.pack(make.document([*draft.blocks, each], flags))


def many(rng, count):
    """A document of so many blocks, most of them containers or carried."""
    draft = make.Draft(rng, flags=rng.choice((0, 2)))
    for number in range(count):
        if number % 16 < 3:
            draft.grow((make.CONTAINER, make.MATERIAL))
        else:
            draft.add(make.PRIMITIVE, temporary=number % 7 == 0)
        if len(draft.blocks) == count:
            break
    return make.pack(draft.pieces())


def small_documents():
    """Small documents worked out by hand: the kitchen, each kind with everything in it, wide and narrow."""
    return [make.pack(make.kitchen()), *(make.pack(each.pieces()) for each in make.NARROW + make.WIDE)]


def broken_headers(rng, count):
    """Documents that are not opened, and some that are."""
    found = list(make.header_inputs(rng))
    return rng.sample([data for data in found if len(data) < 300], count)


def stage_with_meshes(rng):
    """Blocks of all kinds that addresses can name or must not name, and meshes, containers and lights that name some.

    Blocks of other namespaces have bodies that would be read in namespace 0."""
    draft = make.stage(rng)
    for temporary in (False, True):
        draft.add(make.MESH, make.mesh(2, 1, [0, 5, 0]), temporary=temporary)
        draft.add(make.CONTAINER, make.container(3), temporary=temporary)
        draft.add(make.LIGHT, make.light(4), temporary=temporary)
        draft.add(make.MESH, make.mesh(2, 1, [5, 5]), namespace=1, temporary=temporary)
        draft.add(make.CONTAINER, make.container(2), namespace=255, temporary=temporary)
        draft.add(make.LIGHT, make.light(2), namespace=2, temporary=temporary)
    return draft


# ---- runs


SHORT_LISTS = (
    "",
    "\n",
    "#",
    "open",
    "\n\nopen\n\n\r\nlength\nlength\r",
    "next\nopen\nopen\nnext",
    "byte 0\nbyte 175\nbyte 176",
)


def small_runs(rng):
    """Small documents, and such as are not opened."""
    for data in (b"", b"AWD", make.pack(make.kitchen()), nested(1), nested(1, 8)):
        yield data, every_odd_line()
        yield from ((data, calls) for calls in SHORT_LISTS)
    for data in broken_headers(rng, 40):
        yield data, unopened(rng, data)
    for data in small_documents():
        yield data, anything(rng, data, 30)
        yield data, unopened(rng, data)


def scene_runs(rng):
    """Documents with much that may be edited, under all flags that matter and with free flag bits set in some."""
    for number in range(96):
        data = scene(rng, number % 32 | rng.choice((0, rng.randrange(2048) << 5)), rng.choice((3, 6, 10)))
        yield data, anything(rng, data, rng.choice((10, 30, 60)))
    for _ in range(20):
        data = other_cells(rng, make.pack(stage_with_meshes(rng).pieces()))
        yield data, anything(rng, data, 60)


def other_runs(rng):
    """Random documents of all sorts, sound ones and damaged ones."""
    for draft in make.drafts(rng, 32):
        data = make.pack(draft.pieces())
        yield data, anything(rng, data, 20)
    for data in (*faults_behind(rng), *make.damaged_inputs(rng, 60)):
        yield data, anything(rng, data, 15)


def limit_runs(rng):
    """As many edits as may stand, as many blocks as are taken, and more of both."""
    for depth, width in ((1, 4), (5, 8), (40, 4), (40, 8)):
        data = nested(depth, width)
        yield data, anything(rng, data, 60)
        yield data, full(rng, data)
    for number in range(6):
        data = scene(rng, 2 * number, 4)
        yield data, full(rng, data)
    for count in (512, 513):
        data = many(rng, count)
        yield data, to_the_end(rng, data)
        # the 513th is refused with 9
        yield make.zeros(12 + 11 * count), "open\n" + "next\n" * 514 + "count\n"
    # the 257th is refused with 20
    yield make.pack(make.kitchen()), "open\n" + "next\n" * 3 + "reparent 2 0\n" * 257 + "edits\n"


def runs(rng):
    """All documents with their lists."""
    yield from small_runs(rng)
    yield from scene_runs(rng)
    yield from other_runs(rng)
    yield from limit_runs(rng)
