//! Documents at the ends of what the format allows: as long as can be, and counts of 65,535. They are slow to read, so
//! each is made once.

use super::author::{Author, Plan};
use super::document::{Document, HEADER_SIZE, Sample, header, set_length};
use super::geometry::Stream;
use super::random::Random;
use super::writer::{Role, Target, put};
use crate::interface::Fault;

/// The most bytes of a document.
const MOST_BYTES: usize = 16_777_216;
const BLOCK_HEADER: usize = 11;

/// A document of so many bytes that is one carried block.
fn of_length(length: usize) -> Vec<u8> {
    let mut bytes = header(0, 1);
    bytes.resize(length, 0xa5);
    let block = [1, 0, 0, 0, 0, 11, 0];
    bytes[HEADER_SIZE..HEADER_SIZE + block.len()].copy_from_slice(&block);
    put(
        &mut bytes,
        HEADER_SIZE + 7,
        (length - HEADER_SIZE - BLOCK_HEADER) as u64,
        4,
    );
    set_length(&mut bytes);
    bytes
}

/// Documents about as long as can be.
pub fn longest() -> Vec<Sample> {
    let fault = Fault {
        cause: 3,
        place: MOST_BYTES as u64,
        ..Fault::default()
    };
    let too_long = |length| Sample::faulty(of_length(length), fault, "a document that is too long");
    let mut cut = of_length(MOST_BYTES);
    put(
        &mut cut,
        HEADER_SIZE + 7,
        (MOST_BYTES - HEADER_SIZE - BLOCK_HEADER + 1) as u64,
        4,
    );
    let place = (HEADER_SIZE + BLOCK_HEADER) as u64;
    let does_not_fit = Fault {
        cause: 10,
        place,
        layer: 1,
        ..Fault::default()
    };
    vec![
        Sample::taken(
            of_length(MOST_BYTES - 1),
            1,
            "a document as long as can be, less one",
        ),
        Sample::taken(of_length(MOST_BYTES), 1, "a document as long as can be"),
        Sample::faulty(
            cut,
            does_not_fit,
            "the longest document, and a body that is longer",
        ),
        too_long(MOST_BYTES + 1),
    ]
}

/// Lawful documents with as many entries as can be, each also with faults in its last fields and anywhere.
pub fn fullest(random: &mut Random) -> Vec<Sample> {
    let plan = Plan {
        blocks: 3,
        ..Plan::any(random)
    };
    let mut samples = Vec::new();
    for write in [materials, joints, sub_geometries, attributes] {
        let document = Document::with(random, plan, write);
        samples.push(Sample::whole(&document, "as many entries as can be"));
        let count = document.marks.len();
        for mark in [
            count - 1,
            count - 2,
            count - 3,
            random.index(count),
            random.index(count),
        ] {
            samples.extend(document.damages(random, &document.marks[mark]));
        }
    }
    samples.extend(many_vertices(random, plan));
    samples
}

/// Lawful geometries with about as many vertices as an index can tell apart.
fn many_vertices(random: &mut Random, plan: Plan) -> Vec<Sample> {
    let streams = |vertices, index| [Stream::faces(&[0, index, 65_533]), Stream::new(1, vertices)];
    [
        (65_535, 65_534),
        (65_536, 65_535),
        (65_537, 65_535),
        (131_073, 65_535),
    ]
    .map(|(vertices, index)| streams(vertices, index))
    .map(|streams| Document::with(random, plan, |author| author.geometry_of(0, &streams)))
    .map(|document| Sample::whole(&document, "many vertices"))
    .into()
}

fn materials(author: &mut Author) {
    author.block_of(11, 0, false);
    let geometry = author.next_id() - 1;
    author.block_with(23, 0, false, |author, block| {
        author.scene_head(block);
        author
            .writer
            .number(u64::from(geometry), 4, Role::Address(Target::Geometry));
        author.writer.number(0xffff, 2, Role::Plain);
        block.materials = Some((author.writer.place() as u64, 0xffff));
        for index in 0..0xffff {
            let outside = author.writer.begin_entry(index);
            author.writer.number(0, 4, Role::Address(Target::Material));
            author.writer.end_entry(outside);
        }
        author.properties();
        author.user_list();
    });
}

fn joints(author: &mut Author) {
    author.block_with(101, 0, false, |author, block| {
        block.name = Some(author.text());
        author.writer.number(0xffff, 2, Role::Plain);
        author.properties();
        for id in 0..0xffff {
            author.joint(id);
        }
        author.user_list();
    });
}

fn sub_geometries(author: &mut Author) {
    author.block_with(1, 0, false, |author, block| {
        block.name = Some(author.text());
        author.writer.number(0xffff, 2, Role::Plain);
        author.properties();
        for index in 0..0xffff {
            author.sub_geometry(index, &[]);
        }
        author.user_list();
    });
}

fn attributes(author: &mut Author) {
    author.block_with(22, 0, false, |author, block| {
        author.scene_head(block);
        author.properties();
        author.writer.begin_list();
        for index in 0..70_000 {
            author.user_attribute(index);
        }
        author.writer.end_run();
    });
}
