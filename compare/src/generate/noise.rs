//! Documents of which only the two readers can say what is wrong: cut, flipped, random, and with numbers at the ends of
//! what a field can hold.

use super::document::{Document, HEADER_SIZE, Sample, header, set_length};
use super::random::Random;
use super::writer::{Mark, Role, put};

/// A document cut at every byte, its header made to fit or left as it was.
pub fn cut_everywhere(random: &mut Random, document: &Document) -> Vec<Sample> {
    let cut = |end: usize| {
        let bytes = if random.once_in(8) {
            document.bytes[..end].to_vec()
        } else {
            document.shortened(end)
        };
        Sample::any(bytes, "a document that is cut")
    };
    (0..document.bytes.len()).map(cut).collect()
}

/// One to eight bits or bytes changed.
pub fn flipped(random: &mut Random, document: &Document) -> Sample {
    let mut bytes = document.bytes.clone();
    let first = if random.once_in(10) {
        0
    } else {
        HEADER_SIZE.min(bytes.len() - 1)
    };
    for _ in 0..random.length(1, 8) {
        let at = random.length(first, bytes.len() - 1);
        bytes[at] = match random.below(4) {
            0 => random.byte(),
            1 => random.pick(&[0, 1, 2, 3, 255]),
            _ => bytes[at] ^ 1 << random.below(8),
        };
    }
    Sample::any(bytes, "changed bytes")
}

/// Two fields of a document exchanged for others of the same size.
pub fn swapped(random: &mut Random, document: &Document) -> Option<Sample> {
    let numbers: Vec<&Mark> = document
        .marks
        .iter()
        .filter(|mark| [2, 4].contains(&mark.size))
        .collect();
    if numbers.is_empty() {
        return None;
    }
    let mut bytes = document.bytes.clone();
    let (one, other) = (random.pick(&numbers), random.pick(&numbers));
    let size = one.size.min(other.size);
    bytes.copy_within(other.place..other.place + size, one.place);
    Some(Sample::any(bytes, "a field with another one's bytes"))
}

/// Random bytes behind a good header; small numbers are likelier, so that some of it looks like blocks.
pub fn random_bytes(random: &mut Random) -> Sample {
    let mut bytes = header(random.number() as u16, random.below(2) as u8);
    for _ in 0..random.length(0, 200) {
        let byte = match random.below(3) {
            0 => random.byte(),
            1 => 0,
            _ => random.pick(&[1, 2, 3, 4, 5, 11, 22, 23, 31, 41, 51, 81, 101]),
        };
        bytes.push(byte);
    }
    set_length(&mut bytes);
    Sample::any(bytes, "random bytes behind a header")
}

/// A number at the end of what two or four bytes hold, or one that passes 2^32 where it is added to a place.
fn extreme(random: &mut Random, mark: &Mark, base: usize) -> u64 {
    let near = random.below(20);
    let past = 1 << 32;
    match random.below(8) {
        0 => 0xffff - near,
        1 => 0x1_0000 + near,
        2 => 0xffff_ffff,
        3 => 0xffff_ffff - near,
        4 => past - (mark.place + mark.size) as u64 + near,
        5 => past - base as u64 + near,
        6 => past - mark.place as u64 - near,
        _ => random.pick(&[
            1 << 31,
            (1 << 31) - 1,
            1 << 24,
            (1 << 24) - 12,
            0x8000,
            0x7fff,
        ]),
    }
}

/// Counts and sizes at the ends of what they can be: one or two fields of a document.
pub fn extreme_numbers(random: &mut Random, document: &Document) -> Option<Sample> {
    let counts = |mark: &&Mark| {
        matches!(
            mark.role,
            Role::Length(_) | Role::Total(_) | Role::FixedLength | Role::Plain
        )
    };
    let sized = |mark: &&Mark| [2, 4].contains(&mark.size);
    let marks: Vec<&Mark> = document.marks.iter().filter(counts).filter(sized).collect();
    if marks.is_empty() {
        return None;
    }
    let mut bytes = document.bytes.clone();
    for _ in 0..random.length(1, 2) {
        let mark = random.pick(&marks);
        let value = extreme(random, mark, document.holders[mark.holder].from);
        put(&mut bytes, mark.place, value, mark.size);
    }
    Some(Sample::any(bytes, "numbers near 2^16 and 2^32"))
}

/// A document with bytes put in or taken out somewhere.
pub fn shifted(random: &mut Random, document: &Document) -> Sample {
    let mut bytes = document.bytes.clone();
    let at = random.length(HEADER_SIZE.min(bytes.len()), bytes.len());
    if random.once_in(2) {
        let more = random.length(1, 5);
        bytes.splice(at..at, random.bytes(more));
    } else {
        let end = (at + random.length(1, 5)).min(bytes.len());
        bytes.drain(at..end);
    }
    if !random.once_in(6) {
        set_length(&mut bytes);
    }
    Sample::any(bytes, "bytes put in or taken out")
}
