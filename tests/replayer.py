"""A model in Python of sessions that edit, and of awdreplay, with which it shares no code.

It is by the same authors and from the same rules (docs/FORMAT.md has those of documents), so it catches mistakes of the
program and not a rule that was misread. A session here keeps what it was given, the edits that stand and how many
blocks are taken: after each edit and undo its bytes are made anew, by laying the edits over the source's in their
order, and its blocks are read anew from those bytes.

replay says what awdreplay has to write for a document and a list of calls.

One call a line, a word and its arguments, parted by single spaces. Lines that are empty or begin with # are passed
over; each other line is answered by one line, which is '? LINE-NUMBER' where the line is no call. The last line of a
list need not end in a line feed. A carriage return is a letter like any other, which no call has.
"""

import itertools
import re
from typing import Callable, NamedTuple

from reader import CALL, MATERIAL, MESH, SCENE_KINDS, Fault, blocks, read_header

EDIT_LIMIT = 256
CELLS = 12

# the causes that only calls have, and one that calls share with reading
ALREADY_OPEN = 1
NOT_OPEN = 8
ADDRESS_NOT_LAWFUL = 14
NO_SUCH_BLOCK = 18
NO_SUCH_FIELD = 19
TOO_MANY_EDITS = 20
NO_SUCH_MATERIAL = 21
NO_SUCH_CELL = 22
WRONG_WIDTH = 23
NOT_A_NUMBER = 24
NOTHING_TO_UNDO = 25

AGREEMENT = "replicas agree"


# ---- what cells hold


class Precision(NamedTuple):
    """A letter for a sort of float, its size in bytes, the bits of infinity, and those that no number is told by."""

    letter: str
    size: int
    infinity: int
    no_number: int


SINGLE = Precision("s", 4, 0x7F80_0000, 0x7FC0_0000)
DOUBLE = Precision("d", 8, 0x7FF0_0000_0000_0000, 0x7FF8_0000_0000_0000)


class Content(NamedTuple):
    """A float by its bits."""

    precision: Precision
    bits: int

    def is_number(self):
        """Whether the bits, without the sign, are not above those of infinity."""
        sign = 1 << 8 * self.precision.size - 1
        return self.bits & ~sign <= self.precision.infinity

    def __str__(self):
        bits = self.bits if self.is_number() else self.precision.no_number
        return f"{self.precision.letter} {bits:0{2 * self.precision.size}x}"


# ---- sessions


def refusal(cause, number=0):
    """A fault of a call as a whole."""
    return Fault(cause, 0, number, CALL)


class Edit(NamedTuple):
    """Bytes laid over others from a place on."""

    place: int
    content: bytes


class Session:
    """A session over a source's bytes. Calls that are refused raise a Fault; what is not there is None."""

    def __init__(self, source):
        self.source = source
        self.opened = False
        self.taken = 0
        self.standing = []
        self.data = source
        self.records = []

    def read_anew(self):
        """Lays the edits that stand over the source's bytes, and reads the taken blocks in what comes of that."""
        data = bytearray(self.source)
        for edit in self.standing:
            data[edit.place : edit.place + len(edit.content)] = edit.content
        self.data = bytes(data)
        try:
            self.records = self.first_blocks(self.taken)
        except Fault as fault:
            raise AssertionError("edits leave a taken block that is not lawful") from fault

    def first_blocks(self, count):
        """The records of so many blocks, or of all where there are fewer."""
        return list(itertools.islice(blocks(self.data, read_header(self.data)), count))

    # -- calls

    def open(self):
        if self.opened:
            raise refusal(ALREADY_OPEN)
        read_header(self.data)
        self.opened = True

    def next(self):
        """The number of the block that is taken, None at the end of the bytes."""
        self.must_be_open()
        records = self.first_blocks(self.taken + 1)
        if len(records) == self.taken:
            return None
        self.taken, self.records = len(records), records
        return self.taken - 1

    def reparent(self, number, address):
        record = self.taken_block(number)
        if not in_scene(record):
            raise refusal(NO_SUCH_FIELD, number)
        self.must_be_lawful(number, address, SCENE_KINDS)
        self.lay(number, record.fields.parent, address)

    def dress(self, number, position, address):
        record = self.taken_block(number)
        if not in_scene(record) or record.kind != MESH:
            raise refusal(NO_SUCH_FIELD, number)
        if position >= len(record.fields.materials):
            raise refusal(NO_SUCH_MATERIAL, number)
        self.must_be_lawful(number, address, (MATERIAL,))
        self.lay(number, record.fields.materials[position], address)

    def nudge(self, number, cell, content):
        record = self.taken_block(number)
        if not in_scene(record):
            raise refusal(NO_SUCH_FIELD, number)
        if cell >= CELLS:
            raise refusal(NO_SUCH_CELL, number)
        field = record.fields.cells[cell]
        if field.size != content.precision.size:
            raise refusal(WRONG_WIDTH, number)
        if not content.is_number():
            raise refusal(NOT_A_NUMBER, number)
        self.lay(number, field, content.bits)

    def undo(self):
        self.must_be_open()
        if not self.standing:
            raise refusal(NOTHING_TO_UNDO)
        self.standing.pop()
        self.read_anew()

    # -- what calls share

    def must_be_open(self, number=0):
        if not self.opened:
            raise refusal(NOT_OPEN, number)

    def taken_block(self, number):
        """The record of the block that is to be edited."""
        self.must_be_open(number)
        if number >= self.taken:
            raise refusal(NO_SUCH_BLOCK, number)
        return self.records[number]

    def must_be_lawful(self, number, address, kinds):
        """An address names a block before, of namespace 0 and one of the kinds; or it is 0."""
        before = self.records[:number]
        named = (each for each in before if each.id == address and each.namespace == 0 and each.kind in kinds)
        if address != 0 and not any(named):
            raise refusal(ADDRESS_NOT_LAWFUL, number)

    def lay(self, number, field, value):
        """Puts an edit on top of the others; that there are too many is the last thing that it is refused for."""
        if len(self.standing) == EDIT_LIMIT:
            raise refusal(TOO_MANY_EDITS, number)
        self.standing.append(Edit(field.place, value.to_bytes(field.size, "little")))
        self.read_anew()

    # -- questions

    def count(self):
        return self.taken

    def edits(self):
        return len(self.standing)

    def record(self, number):
        return at(self.records, number)

    def number(self, ident):
        """The number of the block with an ID, of any namespace and kind; temporary blocks, of ID 0, are not found."""
        found = (number for number, record in enumerate(self.records) if record.id == ident)
        return None if ident == 0 else next(found, None)

    def material(self, number, position):
        record = at(self.records, number)
        field = record and at(record.fields.materials, position)
        return field and self.value(field)

    def cell(self, number, cell):
        record = at(self.records, number)
        field = record and at(record.fields.cells, cell)
        return field and Content(SINGLE if field.size == SINGLE.size else DOUBLE, self.value(field))

    def path(self, number):
        """How many parents are passed on the way up to address 0; None for a block that has no parent's address."""
        record = at(self.records, number)
        if record is None or record.parent is None:
            return None
        passed = 0
        while record.parent != 0:
            record = self.records[self.number(record.parent)]
            passed += 1
        return passed

    def length(self):
        return len(self.data)

    def byte(self, place):
        return at(self.data, place)

    def value(self, field):
        """The number in a field."""
        return int.from_bytes(self.data[field.place : field.place + field.size], "little")


def at(items, position):
    """The item at a position, None at or beyond the end."""
    return items[position] if position < len(items) else None


def in_scene(record):
    """Whether a block has a scene head."""
    return record.namespace == 0 and record.kind in SCENE_KINDS


# ---- lines that are calls


class NoCall(Exception):
    """A line that is no call."""


def number(words):
    """The next word, decimal digits alone, for a number of 64 bits; zeros may lead it."""
    return bounded(words, 64)


def short_number(words):
    """The same for one of 32 bits, an address or an ID."""
    return bounded(words, 32)


def bounded(words, bits):
    digits = word(words, "[0-9]+").lstrip("0") or "0"
    # a number of so many digits is too large, and too long for being spelled out
    if len(digits) > 20 or int(digits) >= 1 << bits:
        raise NoCall
    return int(digits)


def content(words):
    """The next two words, a letter for the precision and the bits: as many hexadecimal digits as these have.

    Letters among the digits may be capital ones or not, even in one word; the letter in front and the words of calls
    may only be as they are written here."""
    precision = {"s": SINGLE, "d": DOUBLE}[word(words, "[sd]")]
    digits = word(words, f"[0-9A-Fa-f]{{{2 * precision.size}}}")
    return Content(precision, int(digits, 16))


def word(words, pattern):
    """The next word, which must be there and be as the pattern says."""
    found = next(words, None)
    if found is None or not re.fullmatch(pattern, found):
        raise NoCall
    return found


# ---- answers as lines


def done(_answer):
    return "ok"


def told(answer):
    """A number that is always there."""
    return str(answer)


def option(answer):
    """Something, or none."""
    return "none" if answer is None else f"some {answer}"


def record_option(record):
    """A record's numbers, with - for what is not there."""
    if record is None:
        return "none"
    items = (record.id, record.namespace, record.kind, record.place, record.size, record.parent)
    items += (None, None) if record.name is None else record.name
    return "some " + " ".join("-" if item is None else str(item) for item in items)


def fault_line(fault):
    index = "-" if fault.index is None else fault.index
    return f"fault {fault.cause} {fault.place} {fault.block} {fault.layer} {index}"


class Form(NamedTuple):
    """How a call is made of a line: the readers of its arguments, the deed, and how its answer is written."""

    arguments: list[Callable]
    deed: Callable
    written: Callable


FORMS = {
    "open": Form([], Session.open, done),
    "next": Form([], Session.next, option),
    "reparent": Form([number, short_number], Session.reparent, done),
    "dress": Form([number, number, short_number], Session.dress, done),
    "nudge": Form([number, number, content], Session.nudge, done),
    "undo": Form([], Session.undo, done),
    "count": Form([], Session.count, told),
    "edits": Form([], Session.edits, told),
    "record": Form([number], Session.record, record_option),
    "number": Form([short_number], Session.number, option),
    "material": Form([number, number], Session.material, option),
    "cell": Form([number, number], Session.cell, option),
    "path": Form([number], Session.path, option),
    "length": Form([], Session.length, told),
    "byte": Form([number], Session.byte, option),
}


def call_of(line):
    """The form and the arguments of the call that a line is."""
    words = iter(line.split(" "))
    form = FORMS.get(next(words))
    if form is None:
        raise NoCall
    arguments = [argument(words) for argument in form.arguments]
    if next(words, None) is not None:
        raise NoCall
    return form, arguments


def answer(session, line, line_number):
    """The line that answers a line, once the call that it is has been made."""
    try:
        form, arguments = call_of(line)
        return form.written(form.deed(session, *arguments))
    except NoCall:
        return f"? {line_number}"
    except Fault as fault:
        return fault_line(fault)


def answered_lines(calls):
    """The lines that are answered, each with its number, which counts all lines from 1."""
    for line_number, line in enumerate(calls.split("\n"), 1):
        if line and not line.startswith("#"):
            yield line_number, line


def replay(document, calls):
    """The lines that awdreplay has to write for a document and a list of calls, a text with a letter for each byte."""
    session = Session(document)
    return [answer(session, line, line_number) for line_number, line in answered_lines(calls)] + [AGREEMENT]
