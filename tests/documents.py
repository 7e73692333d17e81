"""Documents for comparing awdlist with the reader in Python: lawful ones, and others aimed at each refusal.

A document is built as a list of pieces, each a number of some bytes or a string of bytes. Hence the numbers of a lawful
document can be found again and changed one by one. What is built here is lawful as long as the arguments are; the
reader is not used for building, so that a mistake in it does not hide itself.

inputs gives all inputs, most of which open.
"""

import itertools
import struct
from typing import NamedTuple

# the longest input that awdlist reads, and how many blocks it takes of one
LIMIT = 65_536
MOST_BLOCKS = 512

STREAMING = 1
OWN_WIDTHS = 16

GEOMETRY, PRIMITIVE, CONTAINER, MESH, LIGHT, PICKER, MATERIAL, SKELETON = 1, 11, 22, 23, 41, 51, 81, 101
SCENE = (CONTAINER, MESH, LIGHT)
KINDS = (*SCENE, PICKER, GEOMETRY, SKELETON, PRIMITIVE, MATERIAL)
ROOT = 0
NO_JOINT = 65_535

# sizes of values by the type of a user attribute; None is any
VALUE_SIZES = {1: 1, 2: 2, 3: 4, 4: 1, 5: 2, 6: 4, 7: 4, 8: 8, 21: 1, 22: 4, 23: 4, 31: None, 32: None}


class Number(NamedTuple):
    """A number of so many bytes, lowest first."""

    value: int
    size: int


class Widths(NamedTuple):
    """The sizes of numbers in matrices and in geometries, and that of property numbers, which nothing uses here."""

    matrix: int = 4
    geometry: int = 4
    property: int = 4


def length(pieces):
    """How many bytes the pieces have."""
    return sum(piece.size if isinstance(piece, Number) else len(piece) for piece in pieces)


def pack(pieces):
    """The bytes of the pieces."""
    return b"".join(
        piece.value.to_bytes(piece.size, "little") if isinstance(piece, Number) else piece for piece in pieces
    )


# ---- pieces of documents


def header(body_length, flags=0, revision=1):
    return [b"AWD", Number(2, 1), Number(revision, 1), Number(flags, 2), Number(0, 1), Number(body_length, 4)]


HEADER_PIECES = len(header(0))


def document(blocks, flags=0, revision=1, body_length=None):
    """A document of some blocks."""
    body = [piece for each in blocks for piece in each]
    return header(length(body) if body_length is None else body_length, flags, revision) + body


def block(ident, kind, body=(), namespace=0, flags=0):
    return [Number(ident, 4), Number(namespace, 1), Number(kind, 1), Number(flags, 1), Number(length(body), 4), *body]


BLOCK_PIECES = len(block(0, 0))


def text(content):
    return [Number(len(content), 2), content]


def matrix(widths=Widths(), cells=(1, 0, 0, 0, 1, 0, 0, 0, 1, 0, 0, 0)):
    """Twelve floats; without cells the matrix that moves nothing."""
    return [struct.pack("<f" if widths.matrix == 4 else "<d", cell) for cell in cells]


def with_total(entries):
    """The total of the bytes of some entries, and these."""
    return [Number(length(entries), 4), *entries]


def numeric(key, content):
    """A numeric attribute."""
    return [Number(key, 2), Number(len(content), 4), content]


def user(namespace, key, kind, content):
    """A user attribute."""
    return [Number(namespace, 1), *text(key), Number(kind, 1), Number(len(content), 4), content]


def lists(properties=(), users=()):
    """Properties and a user list."""
    return with_total(properties) + with_total(users)


def scene_head(parent, name=b"", widths=Widths()):
    return [Number(parent, 4), *matrix(widths), *text(name)]


def addresses(ids):
    """A count and so many addresses."""
    return [Number(len(ids), 2), *(Number(ident, 4) for ident in ids)]


def container(parent, name=b"", properties=(), users=(), widths=Widths()):
    return scene_head(parent, name, widths) + lists(properties, users)


def mesh(parent, geometry_id, materials=(), name=b"", properties=(), users=(), widths=Widths()):
    head = scene_head(parent, name, widths)
    return [*head, Number(geometry_id, 4), *addresses(materials), *lists(properties, users)]


def light(parent, kind=1, name=b"", properties=(), users=(), widths=Widths()):
    return [*scene_head(parent, name, widths), Number(kind, 1), *lists(properties, users)]


def picker(lights, name=b"", users=()):
    return [*text(name), *addresses(lights), *with_total(users)]


def counted(name, properties, entries, users):
    """What geometries and skeletons share: name, count, properties, entries, user list."""
    return [
        *text(name),
        Number(len(entries), 2),
        *with_total(properties),
        *itertools.chain.from_iterable(entries),
        *with_total(users),
    ]


def geometry(sub_geometries=(), name=b"", properties=(), users=()):
    return counted(name, properties, sub_geometries, users)


def skeleton(joints=(), name=b"", properties=(), users=()):
    return counted(name, properties, joints, users)


def sub_geometry(streams=(), properties=(), users=()):
    """The total of the streams stands in front of the properties and counts only the streams."""
    run = [piece for each in streams for piece in each]
    return [Number(length(run), 4), *with_total(properties), *run, *with_total(users)]


def stream(kind, content, code=0):
    return [Number(kind, 1), Number(code, 1), Number(len(content), 4), content]


def vertices(count, width=4):
    return stream(1, bytes(3 * width * count))


def faces(*indices):
    return stream(2, struct.pack(f"<{len(indices)}H", *indices))


def joint(ident, parent=NO_JOINT, name=b"", properties=(), users=(), widths=Widths()):
    return [Number(ident, 2), Number(parent, 2), *text(name), *matrix(widths), *lists(properties, users)]


# ---- small lawful documents


def kitchen(flags=0):
    """An empty block, a container named "a" at the root, and in it an unnamed mesh of the first block."""
    blocks = [
        block(1, PRIMITIVE),
        block(2, CONTAINER, container(ROOT, b"a")),
        block(3, MESH, mesh(2, 1)),
    ]
    return document(blocks, flags)


SOME_PROPERTIES = numeric(1, b"xyz") + numeric(2, b"")
SOME_USERS = user(0, b"ab", 2, b"12") + user(1, b"", 31, b"hi")


class Small(NamedTuple):
    """A small lawful document: blocks that can be addressed, the block that matters, and a block behind it.

    The last keeps a reader that goes beyond the end of a body from being stopped by the end of the document."""

    front: list
    aimed: list
    behind: list

    def pieces(self, flags=0):
        """The whole of it, whose blocks say their widths themselves."""
        return document([*self.front, self.aimed, *self.behind], OWN_WIDTHS | flags)

    def start(self):
        """Where the block that matters begins."""
        return length(document(self.front))


def small_bodies(widths):
    """A body of each kind with everything in it, by kind; 200 is a kind that is carried, whatever it holds."""
    some = {"properties": SOME_PROPERTIES, "users": SOME_USERS}
    size = widths.geometry
    others = [stream(3, bytes(2 * size)), stream(4, bytes(3 * size)), stream(9, b"?")]
    subs = [
        sub_geometry([vertices(3, size), faces(0, 1, 2), *others], **some),
        sub_geometry([faces(0, 0, 0), vertices(1, size)]),
    ]
    joints = [joint(0, name=b"j", widths=widths, **some), joint(1, 0, widths=widths)]
    return {
        CONTAINER: container(2, b"name", widths=widths, **some),
        MESH: mesh(2, 1, [3, ROOT, 3], b"m", widths=widths, **some),
        LIGHT: light(ROOT, 2, b"l", widths=widths, **some),
        PICKER: picker([4, 4], b"p", SOME_USERS),
        GEOMETRY: geometry(subs, b"g", **some),
        SKELETON: skeleton(joints, b"s", **some),
        200: [b"any bytes"],
    }


def small(kind, widths):
    """A small document for a kind."""
    flags = sum(1 << position for position, width in enumerate(widths) if width == 8)
    front = [
        block(1, PRIMITIVE),
        block(2, CONTAINER, container(ROOT, widths=widths), flags=flags),
        block(3, MATERIAL),
        block(4, LIGHT, light(2, widths=widths), flags=flags),
    ]
    return Small(front, block(5, kind, small_bodies(widths)[kind], flags=flags), [block(0, 255)])


NARROW = [small(kind, Widths()) for kind in small_bodies(Widths())]
WIDE = [small(kind, Widths(8, 8, 8)) for kind in (MESH, GEOMETRY, SKELETON)]


# ---- random lawful documents


class Draft:
    """A lawful document that grows by random blocks, and the listing that it must have."""

    def __init__(self, rng, flags, revision=1):
        self.rng = rng
        self.flags = flags
        self.revision = revision
        self.blocks = []
        self.lines = []
        self.place = 12
        self.following = 1
        self.ids = {}

    def add(self, kind, body=(), namespace=0, flags=0, temporary=False, parent="-"):
        """Puts a block behind the others, and gives its ID, which is 0 for a temporary one."""
        ident = 0 if temporary else self.following
        pieces = block(ident, kind, body, namespace, flags)
        self.lines.append(f"{len(self.blocks)} {ident} {namespace} {kind} {self.place} {length(body)} {parent}")
        self.blocks.append(pieces)
        self.place += length(pieces)
        if not temporary:
            self.following += 1
            if namespace == 0:
                self.ids.setdefault(kind, []).append(ident)
        return ident

    def pieces(self):
        """The document; in a streaming one the length says nothing."""
        open_length = self.rng.choice((0, 1, 2**32 - 1)) if self.flags & STREAMING else None
        return document(self.blocks, self.flags, self.revision, open_length)

    def listing(self):
        """What awdlist must write for it."""
        first = f"AWD 2.{self.revision} flags {self.flags} length {self.place}"
        return "".join(f"{line}\n" for line in [first, *self.lines, f"end {len(self.lines)}"])

    def grow(self, kinds=KINDS):
        """Adds a random block of one of the kinds or of any other, and seldom an earlier one that it needs."""
        rng = self.rng
        kind = rng.choice((*kinds, rng.randrange(256)))
        namespace = rng.choice((0, 0, 0, 0, 0, rng.randrange(256)))
        if kind == MESH and namespace == 0 and not self.known(GEOMETRY, PRIMITIVE):
            self.add(PRIMITIVE, self.anything())
        flags = rng.randrange(256) & ~8
        parent = "-"
        if namespace == 0 and kind in self.makers():
            parent, body = self.makers()[kind](self.widths(flags))
        else:
            body = self.anything()
        self.add(kind, body, namespace, flags, rng.random() < 0.15, parent)

    def widths(self, flags):
        """The widths that a block with these flags has in this document."""
        first = (flags & 7) if self.flags & OWN_WIDTHS else (self.flags >> 1 & 7)
        return Widths(4 + 4 * (first & 1), 4 + 4 * (first >> 1 & 1), 4 + 4 * (first >> 2 & 1))

    def makers(self):
        return {
            CONTAINER: self.container,
            MESH: self.mesh,
            LIGHT: self.light,
            PICKER: self.picker,
            GEOMETRY: self.geometry,
            SKELETON: self.skeleton,
        }

    def known(self, *kinds):
        return [ident for kind in kinds for ident in self.ids.get(kind, [])]

    def anything(self, most=12):
        return [self.rng.randbytes(self.rng.randrange(most))]

    def word(self):
        return self.rng.randbytes(self.rng.choice((0, 1, 3, self.rng.randrange(20))))

    def some(self, most, maker):
        """None, or up to so many things, made for their indices."""
        count = self.rng.choice((0, self.rng.randrange(most + 1)))
        return [maker(index) for index in range(count)]

    def properties(self):
        return sum(self.some(3, lambda _: numeric(self.rng.randrange(65_536), self.word())), [])

    def users(self):
        return sum(self.some(4, lambda _: self.user()), [])

    def user(self):
        kind = self.rng.choice(list(VALUE_SIZES))
        size = self.rng.randrange(10) if VALUE_SIZES[kind] is None else VALUE_SIZES[kind]
        return user(self.rng.randrange(256), self.word(), kind, self.rng.randbytes(size))

    def common(self):
        return {"name": self.word(), "properties": self.properties(), "users": self.users()}

    def parent(self):
        return self.rng.choice([ROOT, *self.known(*SCENE)])

    def container(self, widths):
        parent = self.parent()
        return parent, container(parent, widths=widths, **self.common())

    def mesh(self, widths):
        parent = self.parent()
        shape = self.rng.choice(self.known(GEOMETRY, PRIMITIVE))
        materials = self.some(4, lambda _: self.rng.choice([0, *self.known(MATERIAL)]))
        return parent, mesh(parent, shape, materials, widths=widths, **self.common())

    def light(self, widths):
        parent = self.parent()
        return parent, light(parent, self.rng.choice((1, 2)), widths=widths, **self.common())

    def picker(self, _widths):
        lights = self.some(4, lambda _: self.rng.choice(self.known(LIGHT))) if self.known(LIGHT) else []
        return "-", picker(lights, self.word(), self.users())

    def geometry(self, widths):
        subs = self.some(3, lambda _: self.sub_geometry(widths.geometry))
        return "-", geometry(subs, **self.common())

    def sub_geometry(self, width):
        count = self.rng.choice((0, 1, 2, 3, 7, 300))
        streams = self.some(4, lambda _: self.stream(self.rng.choice((0, 3, 4, 5, self.rng.randrange(3, 256))), width))
        if self.rng.random() < 0.7:
            streams.append(vertices(count, width))
            if self.rng.random() < 0.7:
                triangles = self.rng.randrange(4) if count else 0
                streams.append(faces(*(self.rng.randrange(count) for _ in range(3 * triangles))))
        self.rng.shuffle(streams)
        return sub_geometry(streams, self.properties(), self.users())

    def stream(self, kind, width):
        """A stream that is neither vertices nor faces."""
        entry_size = {3: 2 * width, 4: 3 * width}.get(kind, 1)
        return stream(kind, self.rng.randbytes(entry_size * self.rng.randrange(4)), self.rng.randrange(256))

    def skeleton(self, widths):
        joints = self.some(4, lambda index: self.joint(index, widths))
        return "-", skeleton(joints, **self.common())

    def joint(self, index, widths):
        parent = self.rng.choice((NO_JOINT, *range(index)))
        return joint(index, parent, widths=widths, **self.common())


def drafts(rng, count):
    """Random lawful documents under all flags that matter, with free flag bits set in some."""
    for number in range(count):
        flags = number % 32 | rng.choice((0, rng.randrange(2048) << 5))
        draft = Draft(rng, flags, rng.choice((0, 1)))
        for _ in range(rng.choice((1, 2, 4, 8, 12))):
            draft.grow()
        yield draft


# ---- inputs, aimed at one thing after the other


def zeros(size, flags=0, revision=1):
    """A sound header, and zeros behind it: temporary blocks without bodies, and what is left."""
    return pack(header(size - 12, flags, revision)).ljust(size, b"\0")


def replaced(data, place, value):
    return data[:place] + bytes([value]) + data[place + 1 :]


def header_inputs(rng):
    """Every value of each header byte, cut, lengthened and random headers."""
    sound = [zeros(size) for size in (12, 13, 23, 176, 268, 524, LIMIT - 1, LIMIT, LIMIT + 1)]
    sound += [zeros(176, flags, revision) for flags in (1, 2, 0x8000, 0xFFFF) for revision in (0, 1)]
    yield from sound
    for base in (zeros(12), zeros(268), zeros(268, flags=STREAMING)):
        for place, value in itertools.product(range(12), range(256)):
            yield replaced(base, place, value)
        yield from (base[:size] for size in range(len(base)))
        yield from (base + bytes(more) for more in range(1, 4))
    for value in range(256):
        yield pack(kitchen(flags=value))
    for _ in range(200):
        data = bytearray(rng.choice(sound))
        for _ in range(rng.randrange(1, 4)):
            data[rng.randrange(12)] = rng.choice((0, 1, 2, 3, 65, 68, 87, 255, rng.randrange(256)))
        yield bytes(data[: rng.choice((len(data), rng.randrange(len(data) + 1)))])


def limit_inputs(rng):
    """As many blocks as are taken and one more or less, and inputs as long as is read and one byte more or less."""
    for count in (MOST_BLOCKS - 1, MOST_BLOCKS, MOST_BLOCKS + 1, MOST_BLOCKS + 2):
        for every in (0, 1, 2, 5):
            # every so many blocks, one is temporary
            draft = Draft(rng, flags=0)
            for number in range(count):
                draft.add(PRIMITIVE, temporary=every > 0 and number % every == 0)
            yield pack(draft.pieces())
            yield pack(document(draft.blocks + [[b"\0"]]))
    # bodies that are read, and a block behind the last that would be refused for other reasons
    full = [block(1, CONTAINER, container(ROOT))]
    full += [block(number, CONTAINER, container(number - 1)) for number in range(2, MOST_BLOCKS + 1)]
    yield pack(document(full))
    yield pack(document(full + [block(7, CONTAINER)]))
    yield pack(document(full + [block(513, CONTAINER, flags=8)]))
    yield pack(document(full[:-1] + [block(7, CONTAINER)]))
    for size in (LIMIT - 1, LIMIT, LIMIT + 1):
        yield pack(document([block(1, MATERIAL, [bytes(size - 23)])]))
        yield pack(document([block(1, PICKER, picker([], users=user(0, b"", 32, bytes(size - 23 - 8 - 8))))]))


def long_inputs():
    """Long runs, lawful and with a fault near their ends."""
    for width, flags in ((4, 0), (8, 4)):
        count = 60_000 // (3 * width)
        for index in (count - 1, count, count + 1, 65_535):
            for streams in ([vertices(count, width), faces(0, index, 0)], [faces(0, 0, index), vertices(count, width)]):
                yield pack(document([block(1, GEOMETRY, geometry([sub_geometry(streams)]))], flags))
    triangles = [number % 300 for number in range(30_000)]
    for change in (0, 1, 256):
        changed = triangles[:-1] + [triangles[-1] + change]
        subs = [sub_geometry([vertices(300), faces(*changed)])]
        yield pack(document([block(1, GEOMETRY, geometry(subs))]))
    for last in (0, 1, 2, 3):
        body = mesh(ROOT, 1, [2, 0] * 8_000 + [last])
        yield pack(document([block(1, PRIMITIVE), block(2, MATERIAL), block(3, MESH, body)]))
        body = picker([1] * 16_000 + [last])
        yield pack(document([block(1, LIGHT, light(ROOT)), block(2, PICKER, body)]))
    for last in (0, 799, 800, 801, NO_JOINT):
        joints = [joint(number, number - 1 if number else NO_JOINT) for number in range(800)]
        yield pack(document([block(1, SKELETON, skeleton(joints + [joint(800, last)]))]))
        yield pack(document([block(1, SKELETON, skeleton(joints + [joint(last)]))]))
    yield pack(document([block(1, GEOMETRY, geometry([sub_geometry()] * 4_000))]))
    yield pack(document([block(1, CONTAINER, container(ROOT, bytes(65_000), users=user(0, bytes(300), 31, b"")))]))
    body = container(ROOT, properties=numeric(7, b"") * 5_000, users=user(0, b"", 32, b"") * 4_000)
    yield pack(document([block(1, CONTAINER, body)]))


def stage(rng):
    """Blocks of all kinds that addresses can name or must not name."""
    draft = Draft(rng, flags=0)
    for kind in (PRIMITIVE, CONTAINER, MESH, LIGHT, MATERIAL, GEOMETRY, PICKER, SKELETON):
        bodies = {
            CONTAINER: container(ROOT),
            MESH: mesh(ROOT, 1),
            LIGHT: light(ROOT),
            GEOMETRY: geometry(),
            PICKER: picker([]),
            SKELETON: skeleton(),
        }
        draft.add(kind, bodies.get(kind, ()))
        draft.add(kind, bodies.get(kind, ()), temporary=True)
    for kind in (CONTAINER, GEOMETRY, PRIMITIVE, LIGHT, MATERIAL):
        draft.add(kind, namespace=kind)
    return draft


def address_inputs(rng):
    """All sorts of addresses in each place that has one: of other kinds, of itself, of later and of foreign blocks."""
    aimed = {
        "parent of container": (CONTAINER, lambda at: container(at)),
        "parent of mesh": (MESH, lambda at: mesh(at, 1)),
        "parent of light": (LIGHT, lambda at: light(at)),
        "geometry": (MESH, lambda at: mesh(2, at, [5])),
        "first material": (MESH, lambda at: mesh(2, 1, [at, 5])),
        "second material": (MESH, lambda at: mesh(2, 6, [5, at])),
        "first light": (PICKER, lambda at: picker([at, 4])),
        "second light": (PICKER, lambda at: picker([4, at])),
    }
    values = [*range(20), 255, 2**31, 2**32 - 1]
    values += [(1 << shift) + ident for shift in (8, 16, 24) for ident in (1, 2, 4, 5)]
    for (kind, maker), temporary, value in itertools.product(aimed.values(), (False, True), values):
        draft = stage(rng)
        draft.add(kind, maker(value), temporary=temporary)
        for later in (CONTAINER, PRIMITIVE, LIGHT, MATERIAL):
            draft.add(later, {CONTAINER: container(ROOT), LIGHT: light(ROOT)}.get(later, ()))
        yield pack(draft.pieces())


def block_header_inputs():
    """Carried blocks, block flags, and several faults in one block header, of which the first must be told."""
    # bodies that would be refused are carried in other namespaces and under other kinds, but not compressed
    carried = ((CONTAINER, 1), (MESH, 255), (LIGHT, 2), (PICKER, 22), (200, 0), (0, 0), (MATERIAL, 0))
    for (kind, namespace), flags in itertools.product(carried, (0, 7, 8, 16, 0xF7, 0xFF)):
        for ident in (0, 1):
            yield pack(document([block(ident, kind, [b"\xff" * 70], namespace, flags)]))
    for flags, header_flags in itertools.product((*range(16), 16, 32, 64, 128, 0xF0, 0xF7, 255), (0, OWN_WIDTHS)):
        yield pack(document([block(1, CONTAINER, container(ROOT), flags=flags)], header_flags))
    for ident, flags, size in itertools.product((0, 1, 2, 3), (0, 8), (0, 1, 2**32 - 1)):
        last = [Number(ident, 4), Number(0, 1), Number(CONTAINER, 1), Number(flags, 1), Number(size, 4)]
        for cut in range(12):
            yield pack(document([block(1, MATERIAL), [pack(last)[:cut]]]))


def attribute_inputs():
    """Types that there are and others with sizes that suit and others, alone and as a second attribute."""
    kinds = (0, *range(1, 10), 20, 21, 22, 23, 24, 30, 31, 32, 33, 255)
    for kind, size in itertools.product(kinds, (0, 1, 2, 3, 4, 8, 9)):
        yield pack(document([block(1, CONTAINER, container(0, b"", (), user(0, b"k", kind, bytes(size))))]))
        users = user(0, b"", 21, b"\1") + user(0, b"", kind, bytes(size))
        body = skeleton([joint(0), joint(1, users=users)])
        yield pack(document([block(1, SKELETON, body)]))
    for kind in range(256):
        yield pack(document([block(1, LIGHT, light(0, kind))]))


def lone_geometry(streams):
    """A geometry whose second sub-geometry has the streams; its user list is not lawful, which is found last."""
    sub = sub_geometry(streams, users=user(0, b"", 99, b""))
    return pack(document([block(1, GEOMETRY, geometry([sub_geometry(), sub]))]))


def stream_inputs():
    """Sizes that divide and others, streams in all orders, and indices around the count of vertices."""
    sizes = (0, 1, 2, 3, 4, 5, 6, 7, 8, 9, 12, 16, 18, 20, 23, 24, 25, 32, 36, 40, 48)
    for kind, size, width in itertools.product((0, 1, 2, 3, 4, 5, 6, 255), sizes, (4, 8)):
        content = stream(kind, bytes(size))
        streams = [content] if kind == 1 else [vertices(1, width), content]
        yield pack(document([block(1, GEOMETRY, geometry([sub_geometry(streams)]))], flags=0 if width == 4 else 4))
    # the last of these has a size that does not divide, which is told before the streams are judged together
    choices = [vertices(0), vertices(2), faces(), faces(0, 1, 2), stream(77, b"?"), stream(3, bytes(7))]
    for count in range(4):
        for streams in itertools.product(choices, repeat=count):
            yield lone_geometry(list(streams))
    for streams in itertools.product((vertices(1), faces(5, 5, 5), stream(4, bytes(12))), repeat=4):
        yield lone_geometry(list(streams))
    for width, count in itertools.product((4, 8), (0, 1, 2, 3, 255, 256, 257)):
        for value in {0, 1, 2, max(count, 1) - 1, count, count + 1, 256 * count % 65_536, 32_768, 65_535}:
            for position in (0, 4):
                indices = [0] * 6
                indices[position] = value
                for streams in ([vertices(count, width), faces(*indices)], [faces(*indices), vertices(count, width)]):
                    subs = [sub_geometry(streams), sub_geometry()]
                    yield pack(document([block(1, GEOMETRY, geometry(subs))], flags=0 if width == 4 else 4))


def other_values(value, size, place):
    """Other numbers for a number at a place: near ones, and near the bounds of widths and of wrapping around."""
    values = {0, 1, value - 1, value + 1, value + 2, value + 11, value ^ 8, 2 * value, 128, 255, 256}
    values |= {2**15, 2**16 - 1, 2**16, 2**16 + value, 2**24 + value, 2**31, 2**31 + value}
    values |= {2**32 - 1, 2**32 - 11, 2**32 - value, 2**32 - place, 2**32 - place - size}
    if size == 4 and value <= 40:
        values |= set(range(value))
    return sorted(other for other in values if 0 <= other < 256**size and other != value)


def changed_numbers(pieces, start):
    """The document with each of its numbers from a place on changed."""
    place = 0
    for position, piece in enumerate(pieces):
        if place >= start and isinstance(piece, Number):
            for value in other_values(piece.value, piece.size, place):
                yield pack(pieces[:position] + [Number(value, piece.size)] + pieces[position + 1 :])
        place += length([piece])


def number_inputs():
    """Small documents with each number changed: IDs, kinds, flags, sizes, counts, totals, addresses."""
    yield from changed_numbers(kitchen(), start=12)
    for each in NARROW:
        yield from changed_numbers(each.pieces(), each.start())


def cut_inputs():
    """Small documents cut at every length; the sizes are left as they are, and the header opens as it is streaming."""
    data = pack(kitchen(flags=STREAMING))
    yield from (data[:size] for size in range(len(data)))
    for each in NARROW:
        data = pack(each.pieces(STREAMING))
        yield from (data[:size] for size in range(each.start(), len(data)))


def body_inputs():
    """Small documents with a body cut at every length or lengthened, its size with it, and a block behind it."""
    for each in NARROW + WIDE:
        head, body = each.aimed[: BLOCK_PIECES - 1], pack(each.aimed[BLOCK_PIECES:])
        bodies = [body[:size] for size in range(len(body))]
        bodies += [body + more for more in (b"\0", b"\0\0", b"\1\0\0\0", bytes(11), body)]
        for other in bodies:
            yield pack(each._replace(aimed=[*head, Number(len(other), 4), other]).pieces())


def changed_bytes(data, start, values):
    """The document with each byte from a place on changed."""
    for place in range(start, len(data)):
        for value in sorted({*values, data[place] ^ 1} - {data[place]}):
            yield replaced(data, place, value)


def byte_inputs():
    """Small documents with every byte changed."""
    yield from changed_bytes(pack(kitchen()), 12, (0, 3, 8, 255))
    for each in NARROW:
        yield from changed_bytes(pack(each.pieces()), each.start(), (0, 255))


def mixed_inputs(rng, count):
    """Small documents with a number changed and the body cut behind or before it; the first fault must be told."""
    for _ in range(count):
        each = rng.choice(NARROW + WIDE)
        head, body = each.aimed[: BLOCK_PIECES - 1], each.aimed[BLOCK_PIECES:]
        numbers = [position for position, piece in enumerate(body) if isinstance(piece, Number)]
        if not numbers:
            continue
        position = rng.choice(numbers)
        piece = body[position]
        body[position] = Number(rng.choice(other_values(piece.value, piece.size, 0)), piece.size)
        near = length(body[:position]) + rng.randrange(-4, 12)
        data = pack(body)[: max(near, 0)]
        yield pack(each._replace(aimed=[*head, Number(len(data), 4), data]).pieces())


def damaged(rng, pieces):
    """The pieces with some of them changed, left out or put twice; the header stays."""
    pieces = list(pieces)
    for _ in range(rng.choice((1, 1, 1, 2, 3))):
        position = rng.randrange(HEADER_PIECES, len(pieces))
        piece = pieces[position]
        deed = rng.randrange(8)
        if deed == 0:
            del pieces[position]
        elif deed == 1:
            pieces.insert(position, piece)
        elif deed == 2:
            pieces.insert(position, rng.randbytes(rng.randrange(1, 5)))
        elif isinstance(piece, Number):
            value = rng.choice(other_values(piece.value, piece.size, 0))
            pieces[position] = Number(value, piece.size)
        if len(pieces) == HEADER_PIECES:
            break
    return pieces


def flipped(rng, data):
    """The bytes with some of them behind the header changed."""
    data = bytearray(data)
    for _ in range(rng.choice((1, 1, 2, 4))):
        if len(data) > 12:
            data[rng.randrange(12, len(data))] = rng.choice((0, 1, 2, 8, 255, rng.randrange(256)))
    return bytes(data)


def damaged_inputs(rng, count):
    """Random lawful documents that are damaged, most of them so that the header still opens."""
    for draft in drafts(rng, count):
        pieces = draft.pieces()
        if rng.random() < 0.5:
            data = flipped(rng, pack(pieces))
        else:
            body = damaged(rng, pieces)[HEADER_PIECES:]
            data = pack(document([body], draft.flags, draft.revision))
        yield data[: rng.randrange(len(data))] if rng.random() < 0.1 else data


def inputs(rng):
    """All inputs."""
    yield pack(kitchen())
    yield from header_inputs(rng)
    yield from limit_inputs(rng)
    yield from long_inputs()
    yield from (pack(draft.pieces()) for draft in drafts(rng, 1_000))
    yield from block_header_inputs()
    yield from address_inputs(rng)
    yield from attribute_inputs()
    yield from stream_inputs()
    yield from number_inputs()
    yield from cut_inputs()
    yield from body_inputs()
    yield from byte_inputs()
    yield from mixed_inputs(rng, 500)
    yield from damaged_inputs(rng, 1_200)
