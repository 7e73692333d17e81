//! One fault put into a lawful document, and what a reader has to tell of it.

use super::author::{Block, TYPES, lawful};
use super::document::{Document, Sample};
use super::random::Random;
use super::writer::{Mark, Role, Target, put};
use crate::interface::Fault;

/// The fault of a field by its mark.
pub fn fault_at(cause: u8, mark: &Mark) -> Fault {
    Fault {
        place: mark.place as u64,
        block: mark.block,
        index: mark.index.unwrap_or(0),
        cause,
        layer: mark.layer,
        has_index: u8::from(mark.index.is_some()),
    }
}

impl Document {
    /// Every damage that a mark allows, each with random values.
    pub fn damages(&self, random: &mut Random, mark: &Mark) -> Vec<Sample> {
        let found = [
            self.cut(random, mark),
            self.too_long(random, mark),
            self.part_of_an_item(random, mark),
            self.wrong_value(random, mark),
            self.wrong_address(random, mark),
        ];
        found.into_iter().flatten().collect()
    }

    fn written(&self, place: usize, value: u64, size: usize) -> Vec<u8> {
        let mut bytes = self.bytes.clone();
        put(&mut bytes, place, value, size);
        bytes
    }

    /// The holder ends inside the field, or right before it where it is missed there.
    fn cut(&self, random: &mut Random, mark: &Mark) -> Option<Sample> {
        let least = usize::from(mark.opens);
        if mark.size <= least || matches!(mark.role, Role::Index(_)) {
            return None;
        }
        let anywhere = random.length(least, mark.size - 1);
        let end = mark.place + random.pick(&[least, anywhere, mark.size - 1]);
        let holder = &self.holders[mark.holder];
        let bytes = match holder.total {
            Some(total) => self.written(total, (end - holder.from) as u64, 4),
            None => self.shortened(end),
        };
        Some(Sample::faulty(
            bytes,
            fault_at(10, mark),
            "a field that does not fit",
        ))
    }

    /// A length, size or total counts more bytes than the holder has.
    fn too_long(&self, random: &mut Random, mark: &Mark) -> Option<Sample> {
        let (from, item) = match mark.role {
            Role::Length(item) => (mark.place + mark.size, u64::from(item)),
            Role::Total(run) => (self.holders[run].from, 1),
            _ => return None,
        };
        let room = (self.holders[mark.holder].end - from) as u64;
        let most = if mark.size == 2 { 0xffff } else { 0xffff_ffff };
        let (least, most) = (room / item + 1, most / item);
        if least > most {
            return None;
        }
        let items = match random.below(4) {
            0 => least,
            1 => most,
            2 => most - random.below((most - least + 1).min(20)),
            _ => least + random.below(most - least + 1),
        };
        let bytes = self.written(mark.place, items * item, mark.size);
        let aim = Fault {
            place: from as u64,
            ..fault_at(10, mark)
        };
        Some(Sample::faulty(bytes, aim, "a length that is too large"))
    }

    /// The size of a stream counts no whole items.
    fn part_of_an_item(&self, random: &mut Random, mark: &Mark) -> Option<Sample> {
        let item = match mark.role {
            Role::Length(item) if item > 1 => u64::from(item),
            _ => return None,
        };
        let most = 0xffff_ffff / item;
        let items = if random.once_in(2) {
            random.below(4)
        } else {
            random.below(most)
        };
        let size = items * item + 1 + random.below(item - 1);
        let bytes = self.written(mark.place, size, mark.size);
        Some(Sample::faulty(
            bytes,
            fault_at(13, mark),
            "a stream of a part of an item",
        ))
    }

    /// A value that is not allowed.
    fn wrong_value(&self, random: &mut Random, mark: &Mark) -> Option<Sample> {
        let now = self.bytes[mark.place..].first().copied().unwrap_or(0);
        let (cause, value, what) = match mark.role {
            Role::BlockId(next) => (11, wrong_id(random, next), "an ID out of sequence"),
            Role::BlockFlags => (12, u64::from(now) | 8, "a compressed block"),
            Role::AttributeType => (
                13,
                wrong_type(random),
                "a type of attribute that there is not",
            ),
            Role::FixedLength => (
                13,
                other_number(random, self.number(mark), 32),
                "a size against the type",
            ),
            Role::LightType => (13, random.pick(&[0, 3, 4, 128, 255]), "a light of no type"),
            Role::JointId => (
                13,
                other_number(random, self.number(mark), 16),
                "a joint's ID",
            ),
            Role::JointParent(id) => (13, wrong_joint(random, id), "a joint's parent"),
            Role::Index(vertices) if vertices < 0x1_0000 => (
                16,
                vertices + random.below(0x1_0000 - vertices),
                "an index that is too large",
            ),
            _ => return None,
        };
        let value = if random.once_in(2) {
            value
        } else {
            edge(cause, mark.role, value)
        };
        let bytes = self.written(mark.place, value, mark.size);
        Some(Sample::faulty(bytes, fault_at(cause, mark), what))
    }

    fn number(&self, mark: &Mark) -> u64 {
        let bytes = &self.bytes[mark.place..mark.place + mark.size];
        bytes
            .iter()
            .rev()
            .fold(0, |number, &byte| number << 8 | u64::from(byte))
    }

    fn wrong_address(&self, random: &mut Random, mark: &Mark) -> Option<Sample> {
        let Role::Address(target) = mark.role else {
            return None;
        };
        let number = usize::try_from(mark.block).ok()?;
        let address = unlawful_address(random, &self.blocks, number, target);
        let bytes = self.written(mark.place, u64::from(address), 4);
        Some(Sample::faulty(
            bytes,
            fault_at(14, mark),
            unlawful_name(target),
        ))
    }
}

/// Of the values that are wrong, the one nearest to those that are not.
fn edge(cause: u8, role: Role, value: u64) -> u64 {
    match role {
        Role::Index(vertices) => vertices,
        Role::JointParent(id) => u64::from(id),
        Role::LightType if cause == 13 => 3,
        _ => value,
    }
}

fn unlawful_name(target: Target) -> &'static str {
    match target {
        Target::Parent => "a parent that is not lawful",
        Target::Geometry => "a geometry that is not lawful",
        Target::Material => "a material that is not lawful",
        Target::Light => "a light that is not lawful",
    }
}

fn wrong_id(random: &mut Random, next: u32) -> u64 {
    let any = random.number() as u32;
    let wrong = [
        next + 1,
        next - 1,
        next + 2,
        1,
        u32::MAX,
        next << 8,
        next << 24,
        any,
    ];
    loop {
        let id = random.pick(&wrong);
        if id != 0 && id != next {
            return u64::from(id);
        }
    }
}

fn wrong_type(random: &mut Random) -> u64 {
    loop {
        let kind = if random.once_in(2) {
            random.byte()
        } else {
            random.pick(&[0, 9, 20, 24, 30, 33, 255])
        };
        if TYPES.iter().all(|&(known, _)| known != kind) {
            return u64::from(kind);
        }
    }
}

fn other_number(random: &mut Random, than: u64, bits: u32) -> u64 {
    let most = (1 << bits) - 1;
    let any = random.number() & most;
    let others = [
        than + 1,
        than.wrapping_sub(1) & most,
        0,
        1,
        2,
        4,
        8,
        most,
        than << 8 & most,
        any,
    ];
    loop {
        let other = random.pick(&others);
        if other != than {
            return other;
        }
    }
}

fn wrong_joint(random: &mut Random, id: u16) -> u64 {
    let id = u64::from(id);
    let any = id + random.below(0xffff - id);
    random.pick(&[id, id + 1, 0xfffe, any])
}

/// An address that is not lawful in the block of this number.
pub fn unlawful_address(
    random: &mut Random,
    blocks: &[Block],
    number: usize,
    target: Target,
) -> u32 {
    let before = &blocks[..number];
    let next = 1 + before.iter().filter(|block| block.id != 0).count() as u32;
    let mut choices = vec![
        0,
        next,
        next + 1,
        next + 2,
        u32::MAX,
        random.number() as u32,
        1 << 31,
    ];
    choices.extend(blocks.iter().map(|block| block.id));
    choices.extend(before.iter().map(|block| block.id << 8));
    choices.retain(|&address| !lawful(address, target, before));
    random.pick(&choices)
}
