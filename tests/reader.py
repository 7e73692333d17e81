"""A reader of AWD 2.1 documents in Python that shares no code with the program it is compared with.

It is by the same authors and from the same rules (docs/FORMAT.md has them), so it catches mistakes of the program and
not a rule that was misread. It is written for being read beside the rules and not for speed.

read_header opens a document, blocks takes its blocks one after another, and listing says what awdlist has to write. A
block's record also tells where its fields lie that a session may be asked for one by one (replayer.py needs them).
"""

import contextlib
import dataclasses
from typing import NamedTuple

# how many bytes awdlist reads, how long a document may be, and how many blocks are taken of one
INPUT_LIMIT = 65_536
DOCUMENT_LIMIT = 16_777_216
BLOCK_LIMIT = 512

# the layers that a fault can lie in
DOCUMENT_HEADER, BLOCK_HEADER, BODY_FIELD, ENTRY, CALL = range(5)

# the causes of faults
HEADER_TOO_SHORT = 2
DOCUMENT_TOO_LONG = 3
WRONG_MAGIC = 4
WRONG_VERSION = 5
COMPRESSED_DOCUMENT = 6
WRONG_BODY_LENGTH = 7
TOO_MANY_BLOCKS = 9
DOES_NOT_FIT = 10
ID_OUT_OF_SEQUENCE = 11
COMPRESSED_BLOCK = 12
VALUE_NOT_ALLOWED = 13
ADDRESS_NOT_LAWFUL = 14
BYTES_LEFT_OVER = 15
INDEX_TOO_LARGE = 16
STREAMS_NOT_LAWFUL = 17

# the kinds of blocks that the rules name; bodies are read of six of them
GEOMETRY, PRIMITIVE, CONTAINER, MESH, LIGHT, PICKER, MATERIAL, SKELETON = 1, 11, 22, 23, 41, 51, 81, 101
SCENE_KINDS = (CONTAINER, MESH, LIGHT)

# the size that a value has by the type of a user attribute; None is any
VALUE_SIZES = {1: 1, 2: 2, 3: 4, 4: 1, 5: 2, 6: 4, 7: 4, 8: 8, 21: 1, 22: 4, 23: 4, 31: None, 32: None}

VERTICES, FACES, UVS, NORMALS = 1, 2, 3, 4
NO_JOINT = 65_535


class Fault(Exception):
    """A refusal. A field of a body gives it cause and place; what the field lies in adds the rest on the way up."""

    def __init__(self, cause, place, block=0, layer=BODY_FIELD, index=None):
        super().__init__(cause, place)
        self.cause = cause
        self.place = place
        self.block = block
        self.layer = layer
        self.index = index

    def all(self):
        """Everything that the fault tells: cause, place, block, layer, index."""
        return self.cause, self.place, self.block, self.layer, self.index


@contextlib.contextmanager
def inside(layer, index=None):
    """Gives the faults of what is read inside a layer and an index.

    A fault in an entry of an entry comes through twice, through the outer entry last, whose index it keeps."""
    try:
        yield
    except Fault as fault:
        fault.layer, fault.index = layer, index
        raise


class Cursor:
    """A place in a document that moves from field to field, and the end of what holds these fields."""

    def __init__(self, data, place, end):
        self.data = data
        self.place = place
        self.end = end

    def at_end(self):
        return self.place == self.end

    def part(self, size):
        """A cursor over the next bytes, which are the holder for it; 10 at the first of them if they do not fit."""
        if size > self.end - self.place:
            raise Fault(DOES_NOT_FIT, self.place)
        start, self.place = self.place, self.place + size
        return Cursor(self.data, start, self.place)

    def number(self, size):
        """A number, lowest byte first."""
        field = self.part(size)
        return int.from_bytes(field.data[field.place : field.end], "little")

    def field(self, size):
        """Where a number lies that may have any value."""
        return Field(self.part(size).place, size)

    def judged(self, size, allowed, cause=VALUE_NOT_ALLOWED):
        """A number that must be allowed, else a fault at its first byte."""
        place = self.place
        value = self.number(size)
        if not allowed(value):
            raise Fault(cause, place)
        return value


@dataclasses.dataclass(frozen=True)
class Header:
    """What the document header says."""

    version: int
    revision: int
    flags: int


@dataclasses.dataclass(frozen=True)
class Widths:
    """How many bytes a number of a matrix, of a geometry and of a property has."""

    matrix: int
    geometry: int
    property: int


class Field(NamedTuple):
    """Where a number lies, and how many bytes it has."""

    place: int
    size: int


@dataclasses.dataclass(frozen=True)
class Fields:
    """Where the fields of a body lie that can be asked for, and edited, one by one."""

    parent: Field | None = None
    cells: tuple[Field, ...] = ()
    materials: tuple[Field, ...] = ()


@dataclasses.dataclass(frozen=True)
class Record:
    """What is kept of a block; the place is that of its header, the name is the place and the length of its bytes.

    The fields are where the bytes lie that say the rest, so records are compared without them."""

    id: int
    namespace: int
    kind: int
    place: int
    size: int
    parent: int | None = None
    name: tuple[int, int] | None = None
    fields: Fields = dataclasses.field(default=Fields(), compare=False)


class Earlier:
    """What matters of the blocks before: how many there are, the ID that comes next, and what addresses may name."""

    def __init__(self):
        self.count = 0
        self.following = 1
        self.kinds = {}

    def take(self, record):
        """Temporary blocks have ID 0, others 1, 2, 3 and so on in any namespace; addresses name only namespace 0."""
        self.count += 1
        if record.id != 0:
            self.following += 1
            if record.namespace == 0:
                self.kinds[record.id] = record.kind


@dataclasses.dataclass(frozen=True)
class Surroundings:
    """What the reading of a body depends on: the widths, and the kinds of the blocks that addresses may name."""

    widths: Widths
    kinds: dict[int, int]


# ---- the document header


def read_header(data):
    """Opens a document: judges its length, then its header byte by byte, and tells the first rule that is not kept."""
    with inside(DOCUMENT_HEADER):
        return judge_header(data)


def judge_header(data):
    if len(data) < 12:
        raise Fault(HEADER_TOO_SHORT, len(data))
    if len(data) > DOCUMENT_LIMIT:
        raise Fault(DOCUMENT_TOO_LONG, DOCUMENT_LIMIT)
    cursor = Cursor(data, 0, 12)
    for letter in b"AWD":
        cursor.judged(1, lambda value: value == letter, WRONG_MAGIC)
    version = cursor.judged(1, lambda value: value == 2, WRONG_VERSION)
    revision = cursor.judged(1, lambda value: value in (0, 1), WRONG_VERSION)
    flags = cursor.number(2)
    cursor.judged(1, lambda value: value == 0, COMPRESSED_DOCUMENT)
    streaming = bit(flags, 0)
    cursor.judged(4, lambda value: streaming or value == len(data) - 12, WRONG_BODY_LENGTH)
    return Header(version, revision, flags)


def bit(flags, position):
    return flags >> position & 1 == 1


def read_widths(header_flags, block_flags):
    """Bits 1 to 3 of the document's flags give the widths or, where its bit 4 is set, bits 0 to 2 of the block's."""
    bits = block_flags if bit(header_flags, 4) else header_flags >> 1
    return Widths(*(8 if bit(bits, position) else 4 for position in range(3)))


# ---- blocks


def blocks(data, header):
    """Takes the blocks one after another and hands out their records, up to the end of the document or to a fault.

    A document may end behind the last block that can be taken; only what comes behind that is refused."""
    earlier = Earlier()
    place = 12
    while place < len(data):
        if earlier.count == BLOCK_LIMIT:
            raise Fault(TOO_MANY_BLOCKS, place, BLOCK_LIMIT, CALL)
        try:
            record = read_block(data, header, place, earlier)
        except Fault as fault:
            fault.block = earlier.count
            raise
        earlier.take(record)
        place += 11 + record.size
        yield record


def read_block(data, header, place, earlier):
    """A block header of five fields, and a body that must fit.

    The body of a kind or a namespace that is not read may be any bytes; others must be filled exactly."""
    cursor = Cursor(data, place, len(data))
    with inside(BLOCK_HEADER):
        ident = cursor.judged(4, lambda value: value in (0, earlier.following), ID_OUT_OF_SEQUENCE)
        namespace = cursor.number(1)
        kind = cursor.number(1)
        flags = cursor.judged(1, lambda value: not bit(value, 3), COMPRESSED_BLOCK)
        size = cursor.number(4)
        body = cursor.part(size)
    if namespace != 0 or kind not in BODIES:
        return Record(ident, namespace, kind, place, size)
    around = Surroundings(read_widths(header.flags, flags), earlier.kinds)
    parent, name, fields = BODIES[kind](body, around)
    if not body.at_end():
        raise Fault(BYTES_LEFT_OVER, body.place, layer=BLOCK_HEADER)
    return Record(ident, namespace, kind, place, size, parent, name, fields)


# ---- what bodies are made of


def text(cursor):
    """A length and so many bytes; answers where these bytes begin and how many they are."""
    size = cursor.number(2)
    content = cursor.part(size)
    return content.place, size


def matrix(cursor, around):
    """Twelve fields of any bits; answers them."""
    return tuple(cursor.field(around.widths.matrix) for _ in range(12))


def address(cursor, around, kinds, zero_allowed=False):
    """The ID of an earlier block of namespace 0 and of one of the kinds, or 0 where that is allowed."""

    def lawful(value):
        return zero_allowed if value == 0 else around.kinds.get(value) in kinds

    return cursor.judged(4, lawful, ADDRESS_NOT_LAWFUL)


def counted_run(cursor, count, entry):
    """So many entries, one behind the other; answers them."""
    entries = []
    for index in range(count):
        with inside(ENTRY, index):
            entries.append(entry(cursor, index))
    return entries


def measured_run(cursor, total, entry):
    """Entries that fill so many bytes; answers them. The run must fit as a whole, before its first entry is read."""
    run = cursor.part(total)
    entries = []
    while not run.at_end():
        with inside(ENTRY, len(entries)):
            entries.append(entry(run, len(entries)))
    return entries


def properties(cursor):
    """A total and a measured run of numeric attributes."""
    measured_run(cursor, cursor.number(4), numeric_attribute)


def user_list(cursor):
    """A total and a measured run of user attributes."""
    measured_run(cursor, cursor.number(4), user_attribute)


def numeric_attribute(cursor, _index):
    """A key, a size and so many bytes."""
    cursor.number(2)
    cursor.part(cursor.number(4))


def user_attribute(cursor, _index):
    """A namespace, a key, a type, a size that suits the type, and so many bytes."""
    cursor.number(1)
    text(cursor)
    kind = cursor.judged(1, lambda value: value in VALUE_SIZES)
    size = cursor.judged(4, lambda value: VALUE_SIZES[kind] in (None, value))
    cursor.part(size)


# ---- bodies; each answers the parent, the name, and where its fields lie


def scene_head(cursor, around):
    """The parent or 0, a matrix and a name."""
    place = cursor.place
    parent = address(cursor, around, SCENE_KINDS, zero_allowed=True)
    cells = matrix(cursor, around)
    return parent, text(cursor), Fields(Field(place, 4), cells)


def container(cursor, around):
    """A scene head, properties and a user list."""
    found = scene_head(cursor, around)
    properties(cursor)
    user_list(cursor)
    return found


def mesh(cursor, around):
    """A scene head, a geometry, counted materials of which any may be 0, properties and a user list."""
    parent, name, fields = scene_head(cursor, around)
    address(cursor, around, (GEOMETRY, PRIMITIVE))
    count = cursor.number(2)
    materials = counted_run(cursor, count, lambda at, _index: material(at, around))
    properties(cursor)
    user_list(cursor)
    return parent, name, dataclasses.replace(fields, materials=tuple(materials))


def material(cursor, around):
    """The address of a material, or 0; answers where it lies."""
    place = cursor.place
    address(cursor, around, (MATERIAL,), zero_allowed=True)
    return Field(place, 4)


def light(cursor, around):
    """A scene head, a type of 1 or 2, properties and a user list."""
    found = scene_head(cursor, around)
    cursor.judged(1, lambda value: value in (1, 2))
    properties(cursor)
    user_list(cursor)
    return found


def picker(cursor, around):
    """A name, counted lights and a user list."""
    name = text(cursor)
    count = cursor.number(2)
    counted_run(cursor, count, lambda at, _index: address(at, around, (LIGHT,)))
    user_list(cursor)
    return None, name, Fields()


def group(cursor, entry):
    """A name, a count, properties, so many entries and a user list."""
    name = text(cursor)
    count = cursor.number(2)
    properties(cursor)
    counted_run(cursor, count, entry)
    user_list(cursor)
    return None, name, Fields()


def geometry(cursor, around):
    """A group of sub-geometries."""
    return group(cursor, lambda at, _index: sub_geometry(at, around.widths.geometry))


def skeleton(cursor, around):
    """A group of joints."""
    return group(cursor, lambda at, index: joint(at, index, around))


def joint(cursor, index, around):
    """An ID that is the joint's index, a parent below it or none, a name, a matrix, properties and a user list."""
    cursor.judged(2, lambda value: value == index)
    cursor.judged(2, lambda value: value == NO_JOINT or value < index)
    text(cursor)
    matrix(cursor, around)
    properties(cursor)
    user_list(cursor)


def sub_geometry(cursor, width):
    """The total of the streams, properties, a measured run of streams, and a user list.

    The streams are judged together when all of them are read, and before the user list is."""
    total = cursor.number(4)
    properties(cursor)
    streams = measured_run(cursor, total, lambda at, _index: stream(at, width))
    judge_streams(streams, width)
    user_list(cursor)


@dataclasses.dataclass(frozen=True)
class Stream:
    """Where a stream begins, its type, and a cursor over its content."""

    place: int
    kind: int
    content: Cursor


def stream(cursor, width):
    """A type, a field code, a size that the type's entries divide, and so many bytes."""
    place = cursor.place
    kind = cursor.number(1)
    cursor.number(1)
    entry_size = {VERTICES: 3 * width, FACES: 6, UVS: 2 * width, NORMALS: 3 * width}.get(kind, 1)
    size = cursor.judged(4, lambda value: value % entry_size == 0)
    return Stream(place, kind, cursor.part(size))


def judge_streams(streams, width):
    """At most one stream has vertices and at most one faces; faces need vertices, and each index names one of them."""
    met = {}
    for each in streams:
        if each.kind in (VERTICES, FACES):
            if each.kind in met:
                raise Fault(STREAMS_NOT_LAWFUL, each.place)
            met[each.kind] = each
    if FACES not in met:
        return
    if VERTICES not in met:
        raise Fault(STREAMS_NOT_LAWFUL, met[FACES].place)
    vertices, indices = met[VERTICES].content, met[FACES].content
    count = (vertices.end - vertices.place) // (3 * width)
    while not indices.at_end():
        indices.judged(2, lambda value: value < count, INDEX_TOO_LARGE)


BODIES = {
    GEOMETRY: geometry,
    CONTAINER: container,
    MESH: mesh,
    LIGHT: light,
    PICKER: picker,
    SKELETON: skeleton,
}


# ---- what awdlist writes


def listing(data):
    """What awdlist has to write for an input."""
    return "".join(f"{line}\n" for line in lines(data))


def lines(data):
    """A line for the header, one for each block, and one for the end; a fault takes the place of what is not read."""
    if len(data) > INPUT_LIMIT:
        yield f"input over {INPUT_LIMIT}"
        return
    count = 0
    try:
        header = read_header(data)
        yield f"AWD {header.version}.{header.revision} flags {header.flags} length {len(data)}"
        for record in blocks(data, header):
            yield block_line(count, record)
            count += 1
    except Fault as fault:
        yield f"fault {fault.cause} {fault.place} {fault.block}"
    else:
        yield f"end {count}"


def block_line(number, record):
    parent = "-" if record.parent is None else record.parent
    return f"{number} {record.id} {record.namespace} {record.kind} {record.place} {record.size} {parent}"
