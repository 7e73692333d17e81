//! Lawful documents, block by block. The parts of bodies that many kinds share are here.

use super::random::Random;
use super::writer::{Role, Target, Writer};

/// What is known of a block that was written.
#[derive(Clone, Copy, Debug, Default, PartialEq, Eq)]
pub struct Block {
    pub id: u32,
    pub namespace: u8,
    pub kind: u8,
    pub place: u64,
    pub size: u32,
    /// The place of the parent's address, and the address.
    pub parent: Option<(u64, u32)>,
    /// The place of the name's bytes, and how many they are.
    pub name: Option<(u64, u16)>,
    /// The place of the matrix, and the size of a cell.
    pub cells: Option<(u64, u64)>,
    /// The place of the first address of a material, and how many there are.
    pub materials: Option<(u64, u64)>,
}

/// Whether an address may stand in a block that comes after these.
pub fn lawful(address: u32, target: Target, before: &[Block]) -> bool {
    let named = |block: &Block| {
        block.id == address && block.namespace == 0 && target.kinds().contains(&block.kind)
    };
    match address {
        0 => target.may_be_none(),
        _ => before.iter().any(named),
    }
}

/// What documents are to be like.
#[derive(Clone, Copy, Debug)]
pub struct Plan {
    pub blocks: usize,
    /// The document's flags: widths and streaming.
    pub flags: u16,
    /// Each block with a parent takes the latest one that it can have.
    pub deep: bool,
    /// The first blocks are such as addresses name.
    pub stocked: bool,
    /// Only small containers.
    pub plain: bool,
    /// Now and then a text or value of thousands of bytes.
    pub large: bool,
}

/// Writes bodies. The widths are those of the block that is being written.
#[derive(Debug)]
pub struct Author<'a> {
    pub writer: Writer,
    pub random: &'a mut Random,
    pub plan: Plan,
    pub blocks: Vec<Block>,
    pub matrix_width: usize,
    pub geometry_width: usize,
}

/// The types of values, and the sizes that they may have; none stands for any size.
pub const TYPES: [(u8, Option<usize>); 13] = [
    (1, Some(1)),
    (2, Some(2)),
    (3, Some(4)),
    (4, Some(1)),
    (5, Some(2)),
    (6, Some(4)),
    (7, Some(4)),
    (8, Some(8)),
    (21, Some(1)),
    (22, Some(4)),
    (23, Some(4)),
    (31, None),
    (32, None),
];

/// Lengths about which something could go wrong.
const LARGE_LENGTHS: [usize; 8] = [255, 256, 257, 32_767, 32_768, 65_533, 65_534, 65_535];

impl<'a> Author<'a> {
    pub fn new(random: &'a mut Random, plan: Plan) -> Self {
        Self {
            writer: Writer::default(),
            random,
            plan,
            blocks: Vec::new(),
            matrix_width: 4,
            geometry_width: 4,
        }
    }
}

impl Author<'_> {
    /// A length of a text or value: mostly a few bytes.
    fn text_length(&mut self) -> usize {
        if self.plan.large && self.random.once_in(60) {
            return self.random.pick(&LARGE_LENGTHS);
        }
        match self.random.below(4) {
            0 => 0,
            _ => self.random.length(1, 8),
        }
    }

    /// How many entries a run gets: mostly few.
    pub fn entries(&mut self) -> u64 {
        match self.random.below(8) {
            0..=2 => 0,
            3..=5 => 1,
            6 => 2,
            _ => self.random.below(6),
        }
    }

    /// A text; where its bytes lie, and how many they are.
    pub fn text(&mut self) -> (u64, u16) {
        let length = self.text_length();
        let text = self.random.bytes(length);
        self.writer.text(&text);
        ((self.writer.place() - length) as u64, length as u16)
    }

    pub fn properties(&mut self) {
        self.writer.begin_list();
        for index in 0..self.entries() {
            let outside = self.writer.begin_entry(index);
            let key = self.random.below(0x1_0000);
            self.writer.number(key, 2, Role::Plain);
            let length = self.text_length();
            let value = self.random.bytes(length);
            self.writer.number(length as u64, 4, Role::Length(1));
            self.writer.raw(&value);
            self.writer.end_entry(outside);
        }
        self.writer.end_run();
    }

    pub fn user_list(&mut self) {
        self.writer.begin_list();
        for index in 0..self.entries() {
            self.user_attribute(index);
        }
        self.writer.end_run();
    }

    pub fn user_attribute(&mut self, index: u64) {
        let outside = self.writer.begin_entry(index);
        let namespace = self.random.byte();
        self.writer.number(u64::from(namespace), 1, Role::Plain);
        self.text();
        let types = if self.random.once_in(3) {
            &TYPES[11..]
        } else {
            &TYPES[..]
        };
        let (kind, size) = self.random.pick(types);
        self.writer.number(u64::from(kind), 1, Role::AttributeType);
        let role = if size.is_some() {
            Role::FixedLength
        } else {
            Role::Length(1)
        };
        let length = size.unwrap_or_else(|| self.text_length());
        self.writer.number(length as u64, 4, role);
        let value = self.value(length);
        self.writer.raw(&value);
        self.writer.end_entry(outside);
    }

    /// Bytes of a value: now and then those of a number that stands out.
    fn value(&mut self, length: usize) -> Vec<u8> {
        if length > 8 || self.random.once_in(2) {
            return self.random.bytes(length);
        }
        let bits = match length {
            4 => u64::from(self.random.pick(&SINGLES)),
            _ => self.random.pick(&DOUBLES),
        };
        bits.to_le_bytes()[..length].to_vec()
    }

    /// A lawful address, if there is one.
    pub fn lawful_address(&mut self, target: Target) -> Option<u32> {
        let before = &self.blocks;
        let named: Vec<u32> = before
            .iter()
            .map(|block| block.id)
            .filter(|&id| id != 0 && lawful(id, target, before))
            .collect();
        let none =
            target.may_be_none() && (named.is_empty() || !self.plan.deep && self.random.once_in(4));
        match named.last() {
            _ if none => Some(0),
            None => None,
            Some(&last) if self.plan.deep => Some(last),
            Some(_) => Some(self.random.pick(&named)),
        }
    }

    /// A counted run of addresses: where the first lies, and how many they are.
    pub fn addresses(&mut self, target: Target) -> (u64, u64) {
        let wanted = self.entries() + self.random.below(3);
        let found: Vec<u32> = (0..wanted)
            .filter_map(|_| self.lawful_address(target))
            .collect();
        let count = found.len() as u64;
        self.writer.number(count, 2, Role::Plain);
        let place = self.writer.place() as u64;
        for (index, &address) in (0..).zip(&found) {
            let outside = self.writer.begin_entry(index);
            self.writer
                .number(u64::from(address), 4, Role::Address(target));
            self.writer.end_entry(outside);
        }
        (place, count)
    }

    /// A matrix: where it lies, and how wide a cell is.
    pub fn matrix(&mut self) -> (u64, u64) {
        let place = self.writer.place() as u64;
        for _ in 0..12 {
            let bits = self.float(self.matrix_width);
            self.writer.number(bits, self.matrix_width, Role::Plain);
        }
        (place, self.matrix_width as u64)
    }

    /// The bits of a float: numbers, and now and then something else.
    fn float(&mut self, width: usize) -> u64 {
        match (width, self.random.below(3)) {
            (4, 0) => u64::from(self.random.pick(&SINGLES)),
            (_, 0) => self.random.pick(&DOUBLES),
            _ => self.random.number(),
        }
    }
}

/// Single floats by their bits: zeros, one, the smallest and the largest, infinities, and what is not a number.
pub const SINGLES: [u32; 16] = [
    0,
    0x8000_0000,
    0x3f80_0000,
    0xbf80_0000,
    1,
    0x8000_0001,
    0x007f_ffff,
    0x0080_0000,
    0x7f7f_ffff,
    0x7f80_0000,
    0xff80_0000,
    0x7f80_0001,
    0xff80_0001,
    0x7fc0_0000,
    0xffc0_0000,
    0xffff_ffff,
];

/// Double floats by their bits, as the single ones.
pub const DOUBLES: [u64; 16] = [
    0,
    0x8000_0000_0000_0000,
    0x3ff0_0000_0000_0000,
    0xbff0_0000_0000_0000,
    1,
    0x8000_0000_0000_0001,
    0x000f_ffff_ffff_ffff,
    0x0010_0000_0000_0000,
    0x7fef_ffff_ffff_ffff,
    0x7ff0_0000_0000_0000,
    0xfff0_0000_0000_0000,
    0x7ff0_0000_0000_0001,
    0xfff0_0000_0000_0001,
    0x7ff8_0000_0000_0000,
    0xfff8_0000_0000_0000,
    0xffff_ffff_ffff_ffff,
];
