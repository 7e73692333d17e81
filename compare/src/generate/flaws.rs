//! Faults that are no change of one field: those of the document's header, bytes left over, streams that do not go
//! together, and too many blocks.

use super::author::{Author, Plan};
use super::damage::fault_at;
use super::document::{Document, HEADER_SIZE, Sample, set_length};
use super::geometry::Stream;
use super::random::Random;
use super::writer::{Mark, Role, put};
use crate::interface::Fault;

/// Bytes of the header with what they may not be, and the fault that comes of it: cause and place.
type HeaderFlaw = (&'static [(usize, u8)], u8, u64);

const HEADER_FLAWS: [HeaderFlaw; 22] = [
    (&[(0, b'a')], 4, 0),
    (&[(0, 0)], 4, 0),
    (&[(1, b'w')], 4, 1),
    (&[(2, b'E')], 4, 2),
    (&[(0, b'D'), (2, b'A')], 4, 0),
    (&[(1, 0), (2, 0)], 4, 1),
    (&[(2, 0), (3, 0), (4, 9), (7, 1)], 4, 2),
    (&[(3, 0)], 5, 3),
    (&[(3, 1)], 5, 3),
    (&[(3, 3)], 5, 3),
    (&[(3, 255)], 5, 3),
    (&[(3, 1), (4, 2)], 5, 3),
    (&[(4, 2)], 5, 4),
    (&[(4, 3)], 5, 4),
    (&[(4, 128)], 5, 4),
    (&[(4, 255)], 5, 4),
    (&[(4, 2), (7, 1)], 5, 4),
    (&[(7, 1)], 6, 7),
    (&[(7, 2)], 6, 7),
    (&[(7, 128)], 6, 7),
    (&[(7, 255)], 6, 7),
    (&[(7, 1), (11, 1)], 6, 7),
];

fn header_fault(cause: u8, place: u64) -> Fault {
    Fault {
        cause,
        place,
        ..Fault::default()
    }
}

/// Documents whose header is wrong.
pub fn wrong_headers(document: &Document) -> Vec<Sample> {
    let bent = HEADER_FLAWS.iter().map(|&(changes, cause, place)| {
        let mut bytes = document.bytes.clone();
        for &(at, byte) in changes {
            bytes[at] = byte;
        }
        Sample::faulty(bytes, header_fault(cause, place), "a wrong header")
    });
    let short = (0..HEADER_SIZE).map(|length| {
        let bytes = document.bytes[..length].to_vec();
        Sample::faulty(
            bytes,
            header_fault(2, length as u64),
            "a header that is too short",
        )
    });
    bent.chain(short).collect()
}

/// Documents whose header does not give their length.
pub fn wrong_lengths(random: &mut Random, document: &Document) -> Vec<Sample> {
    let right = (document.bytes.len() - HEADER_SIZE) as u64;
    let any = random.number();
    let wrong = [
        right + 1,
        right.wrapping_sub(1),
        right + 12,
        right.wrapping_sub(12),
        right << 8 | 1,
        !right,
        any,
    ];
    let with_length = |&length: &u64| {
        let mut bytes = document.bytes.clone();
        bytes[5] &= !1;
        put(&mut bytes, 8, length, 4);
        Sample::faulty(bytes, header_fault(7, 8), "a wrong body length")
    };
    let differs = |length: &&u64| **length as u32 != right as u32;
    wrong.iter().filter(differs).map(with_length).collect()
}

/// Bytes put in behind the last field of a block that is not carried.
pub fn left_over(random: &mut Random, document: &Document, number: usize) -> Option<Sample> {
    let block = &document.blocks[number];
    if block.namespace != 0 || ![1, 22, 23, 41, 51, 101].contains(&block.kind) {
        return None;
    }
    let end = block.place as usize + 11 + block.size as usize;
    let more = random.length(1, 12);
    let mut bytes = document.bytes.clone();
    bytes.splice(end..end, random.bytes(more));
    put(
        &mut bytes,
        block.place as usize + 7,
        u64::from(block.size) + more as u64,
        4,
    );
    set_length(&mut bytes);
    let fault = Fault {
        cause: 15,
        place: end as u64,
        block: number as u64,
        layer: 1,
        ..Fault::default()
    };
    Some(Sample::faulty(bytes, fault, "bytes left over"))
}

/// Where a fault of streams lies: at a stream, or at an index of the faces.
#[derive(Clone, Copy)]
enum At {
    Stream(usize),
    Index(usize),
}

/// Streams that do not go together: type and number of items (or, of faces, indices), and the fault.
type Flaw = (&'static [(u8, usize, &'static [u16])], u8, At);

const NO: &[u16] = &[];

const STREAM_FLAWS: [Flaw; 18] = [
    (&[(1, 3, NO), (1, 3, NO)], 17, At::Stream(1)),
    (
        &[(1, 0, NO), (4, 2, NO), (1, 0, NO), (1, 1, NO)],
        17,
        At::Stream(2),
    ),
    (
        &[(2, 0, &[0, 0, 0]), (1, 1, NO), (2, 0, NO)],
        17,
        At::Stream(2),
    ),
    (&[(1, 1, NO), (2, 0, NO), (2, 0, NO)], 17, At::Stream(2)),
    (&[(2, 0, NO), (2, 0, NO)], 17, At::Stream(1)),
    (
        &[(2, 0, NO), (1, 1, NO), (1, 1, NO), (2, 0, NO)],
        17,
        At::Stream(2),
    ),
    (
        &[(2, 0, NO), (1, 1, NO), (2, 0, NO), (1, 1, NO)],
        17,
        At::Stream(2),
    ),
    (
        &[(1, 2, NO), (2, 0, &[9, 9, 9]), (1, 9, NO)],
        17,
        At::Stream(2),
    ),
    (&[(2, 0, NO)], 17, At::Stream(0)),
    (&[(2, 0, &[0, 0, 0])], 17, At::Stream(0)),
    (
        &[(3, 2, NO), (4, 1, NO), (2, 0, &[1, 2, 3]), (7, 3, NO)],
        17,
        At::Stream(2),
    ),
    (&[(1, 0, NO), (2, 0, &[0, 0, 0])], 16, At::Index(0)),
    (&[(1, 3, NO), (2, 0, &[0, 1, 3])], 16, At::Index(2)),
    (
        &[(1, 3, NO), (2, 0, &[0, 1, 2, 2, 1, 0, 65_535, 3, 4])],
        16,
        At::Index(6),
    ),
    (&[(2, 0, &[256, 0, 0]), (1, 3, NO)], 16, At::Index(0)),
    (
        &[
            (3, 1, NO),
            (2, 0, &[0, 2, 0, 0, 0, 5]),
            (5, 3, NO),
            (1, 2, NO),
        ],
        16,
        At::Index(1),
    ),
    (&[(1, 256, NO), (2, 0, &[255, 254, 256])], 16, At::Index(2)),
    (
        &[(1, 65_535, NO), (2, 0, &[65_534, 0, 65_535])],
        16,
        At::Index(2),
    ),
];

/// Documents of a geometry whose streams do not go together.
pub fn wrong_streams(random: &mut Random) -> Vec<Sample> {
    STREAM_FLAWS
        .iter()
        .map(|flaw| wrong_stream(random, flaw))
        .collect()
}

fn wrong_stream(random: &mut Random, &(streams, cause, at): &Flaw) -> Sample {
    let stream = |&(kind, items, indices): &(u8, usize, &[u16])| Stream {
        kind,
        items,
        indices: indices.to_vec(),
    };
    let streams: Vec<Stream> = streams.iter().map(stream).collect();
    let plan = Plan {
        blocks: random.index(3),
        ..Plan::any(random)
    };
    let lawful_before = random.index(3);
    let document = Document::with(random, plan, |author| {
        author.geometry_of(lawful_before, &streams)
    });
    let sub_geometry = lawful_before as u64;
    let inside =
        |mark: &&Mark| mark.block == plan.blocks as u64 && mark.index == Some(sub_geometry);
    let marks = document.marks.iter().filter(inside);
    let mark = match at {
        At::Stream(number) => marks
            .filter(|mark| mark.role == Role::StreamType)
            .nth(number),
        At::Index(number) => marks
            .filter(|mark| matches!(mark.role, Role::Index(_)))
            .nth(number),
    };
    let fault = mark.map_or(Fault::default(), |mark| fault_at(cause, mark));
    Sample::faulty(document.bytes, fault, "streams that do not go together")
}

impl Author<'_> {
    /// A geometry whose last sub-geometry has these streams.
    pub fn geometry_of(&mut self, lawful_before: usize, streams: &[Stream]) {
        self.block_with(1, 0, false, |author, block| {
            block.name = Some(author.text());
            author
                .writer
                .number(lawful_before as u64 + 1, 2, Role::Plain);
            author.properties();
            for index in 0..lawful_before {
                let lawful = author.streams();
                author.sub_geometry(index as u64, &lawful);
            }
            author.sub_geometry(lawful_before as u64, streams);
            author.user_list();
        });
    }
}

/// 512 blocks that are taken, and bytes behind them that are not looked at.
pub fn too_many_blocks(random: &mut Random) -> Vec<Sample> {
    let plan = Plan {
        blocks: 512,
        deep: true,
        plain: true,
        ..Plan::any(random)
    };
    let full = Document::new(random, plan);
    let more = Document::new(
        random,
        Plan {
            blocks: 513,
            ..plan
        },
    );
    let last = more.blocks[512].place;
    let mut samples = vec![
        Sample::whole(&full, "512 blocks"),
        Sample::faulty(more.bytes, too_many(last), "513 blocks"),
    ];
    for behind in [1, 4, 11, 100] {
        let mut bytes = full.bytes.clone();
        bytes.extend(random.bytes(behind));
        set_length(&mut bytes);
        let fault = too_many(full.bytes.len() as u64);
        samples.push(Sample::faulty(bytes, fault, "512 blocks and bytes behind"));
    }
    samples
}

fn too_many(place: u64) -> Fault {
    Fault {
        cause: 9,
        place,
        block: 512,
        layer: 4,
        ..Fault::default()
    }
}
