//! Whole documents.

use super::author::{Author, Block, Plan};
use super::random::Random;
use super::writer::{BlockHeader, Holder, Mark, Target, Writer, put};
use crate::interface::Fault;

pub const HEADER_SIZE: usize = 12;
const BODY_LENGTH: usize = 8;
const STREAMING: u16 = 1;
const MATRIX_WIDE: u16 = 1 << 1;
const GEOMETRY_WIDE: u16 = 1 << 2;
const BLOCKS_SAY: u16 = 1 << 4;

/// A lawful document and what is known of it.
#[derive(Clone, Debug)]
pub struct Document {
    pub bytes: Vec<u8>,
    pub marks: Vec<Mark>,
    pub holders: Vec<Holder>,
    pub blocks: Vec<Block>,
    /// It begins with a document's header; else it is a part of one.
    headed: bool,
}

/// A document to be read, and what a reader has to tell of it where that is known.
#[derive(Clone, Debug)]
pub struct Sample {
    pub bytes: Vec<u8>,
    pub what: &'static str,
    pub aim: Option<Aim>,
}

/// How many blocks are taken, and the fault that comes then; one of cause 0 where the bytes are used up.
#[derive(Clone, Copy, Debug, PartialEq, Eq)]
pub struct Aim {
    pub count: u64,
    pub fault: Fault,
}

impl Sample {
    /// A document that a reader takes whole.
    pub fn whole(document: &Document, what: &'static str) -> Self {
        Self::taken(document.bytes.clone(), document.blocks.len() as u64, what)
    }

    /// A document of which so many blocks are taken, and then nothing is left.
    pub fn taken(bytes: Vec<u8>, count: u64, what: &'static str) -> Self {
        Self {
            bytes,
            what,
            aim: Some(Aim {
                count,
                fault: Fault::default(),
            }),
        }
    }

    /// A document that is read up to a fault.
    pub fn faulty(bytes: Vec<u8>, fault: Fault, what: &'static str) -> Self {
        Self {
            bytes,
            what,
            aim: Some(Aim {
                count: fault.block,
                fault,
            }),
        }
    }

    /// A document of which nothing is known.
    pub fn any(bytes: Vec<u8>, what: &'static str) -> Self {
        Self {
            bytes,
            what,
            aim: None,
        }
    }
}

impl Plan {
    /// A plan for a small document.
    pub fn any(random: &mut Random) -> Self {
        let blocks = random.length(0, 14);
        let flags = random.number() as u16;
        let widths = random.pick(&[flags, flags & !BLOCKS_SAY, flags & 0xffe0, flags & 0xffe1]);
        let stocked = !random.once_in(3);
        Self {
            blocks,
            flags: widths,
            deep: random.once_in(4),
            stocked,
            plain: false,
            large: false,
        }
    }
}

impl Document {
    pub fn new(random: &mut Random, plan: Plan) -> Self {
        Self::with(random, plan, |_| ())
    }

    /// A document of the blocks that are planned, and what is written behind them.
    pub fn with(random: &mut Random, plan: Plan, behind: impl FnOnce(&mut Author)) -> Self {
        let mut author = Author::new(random, plan);
        author.header();
        for _ in 0..plan.blocks {
            author.block();
        }
        behind(&mut author);
        author.finish()
    }

    pub fn any(random: &mut Random) -> Self {
        let plan = Plan::any(random);
        Self::new(random, plan)
    }

    /// The document ends at a place, and its header says so.
    pub fn shortened(&self, end: usize) -> Vec<u8> {
        let mut bytes = self.bytes[..end].to_vec();
        if self.headed {
            set_length(&mut bytes);
        }
        bytes
    }
}

/// Gives the header the document's length, unless the document leaves it open.
pub fn set_length(bytes: &mut [u8]) {
    if bytes.len() >= HEADER_SIZE && u16::from(bytes[5]) & STREAMING == 0 {
        let length = bytes.len() - HEADER_SIZE;
        put(bytes, BODY_LENGTH, length as u64, 4);
    }
}

/// Twelve bytes: what a document begins with; the length is that of a document without blocks.
pub fn header(flags: u16, revision: u8) -> Vec<u8> {
    let [low, high] = flags.to_le_bytes();
    vec![b'A', b'W', b'D', 2, revision, low, high, 0, 0, 0, 0, 0]
}

/// The kinds that bodies are made for, those that addresses name, and others.
const KINDS: [u8; 16] = [
    22, 22, 23, 23, 41, 41, 51, 1, 1, 101, 11, 81, 81, 0, 21, 255,
];

/// The kinds of the first blocks of a stocked document: those that addresses name.
const STOCK: [u8; 5] = [11, 81, 41, 22, 23];

impl Author<'_> {
    fn header(&mut self) {
        let revision = self.random.below(2) as u8;
        let mut bytes = header(self.plan.flags, revision);
        if self.plan.flags & STREAMING != 0 {
            let left_open = self.random.number();
            put(&mut bytes, BODY_LENGTH, left_open, 4);
        }
        self.writer.bytes = bytes;
    }

    fn finish(self) -> Document {
        let mut document = Document {
            headed: true,
            ..self.finish_part()
        };
        set_length(&mut document.bytes);
        document
    }

    /// Ends what was written, which is no whole document.
    pub fn finish_part(mut self) -> Document {
        self.writer.finish();
        let Writer {
            bytes,
            marks,
            holders,
            ..
        } = self.writer;
        Document {
            bytes,
            marks,
            holders,
            blocks: self.blocks,
            headed: false,
        }
    }

    pub fn next_id(&self) -> u32 {
        1 + self.blocks.iter().filter(|block| block.id != 0).count() as u32
    }

    fn block(&mut self) {
        let kind = self.kind();
        let namespace = if !self.plan.plain && self.random.once_in(8) {
            self.random.byte()
        } else {
            0
        };
        let temporary = !self.plan.plain && self.random.once_in(7);
        self.block_of(kind, namespace, temporary);
    }

    /// A kind whose addresses can be lawful here.
    fn kind(&mut self) -> u8 {
        let kind = match STOCK.get(self.blocks.len()) {
            _ if self.plan.plain => 22,
            Some(&kind) if self.plan.stocked => kind,
            _ => self.random.pick(&KINDS),
        };
        match kind {
            23 if self.lawful_address(Target::Geometry).is_none() => 1,
            0 => self.random.byte().max(102),
            kind => kind,
        }
    }

    /// A block of this kind and namespace.
    pub fn block_of(&mut self, kind: u8, namespace: u8, temporary: bool) {
        let carried = namespace != 0;
        self.block_with(kind, namespace, temporary, |author, block| {
            if carried {
                author.carried()
            } else {
                author.body(block)
            }
        });
    }

    /// A block with this body.
    pub fn block_with(
        &mut self,
        kind: u8,
        namespace: u8,
        temporary: bool,
        body: impl FnOnce(&mut Self, &mut Block),
    ) {
        let next = self.next_id();
        let id = if temporary { 0 } else { next };
        let flags = self.random.byte() & !8;
        self.set_widths(flags);
        let place = self.writer.place();
        let mut block = Block {
            id,
            namespace,
            kind,
            place: place as u64,
            ..Block::default()
        };
        self.writer.begin_block(
            BlockHeader {
                id,
                next,
                namespace,
                kind,
                flags,
            },
            self.blocks.len() as u64,
        );
        body(self, &mut block);
        self.writer.end_block();
        block.size = (self.writer.place() - place - 11) as u32;
        self.blocks.push(block);
    }

    fn set_widths(&mut self, block_flags: u8) {
        let width = |wide: bool| if wide { 8 } else { 4 };
        let flags = self.plan.flags;
        if flags & BLOCKS_SAY != 0 {
            self.matrix_width = width(block_flags & 1 != 0);
            self.geometry_width = width(block_flags & 2 != 0);
        } else {
            self.matrix_width = width(flags & MATRIX_WIDE != 0);
            self.geometry_width = width(flags & GEOMETRY_WIDE != 0);
        }
    }
}
