//! The C interface of `include/awd.h` as numbers and slices: what the two readers are asked by, and what they answer.
//! Field by field the structs are those of the header.

/// A refusal; all 0 where there is none.
#[repr(C)]
#[derive(Clone, Copy, Debug, Default, PartialEq, Eq)]
pub struct Fault {
    pub place: u64,
    pub block: u64,
    pub index: u64,
    pub cause: u8,
    pub layer: u8,
    /// A bool of C. As a byte it may have any value, and any but the expected one is a difference.
    pub has_index: u8,
}

#[repr(C)]
#[derive(Clone, Copy, Debug, Default, PartialEq, Eq)]
pub struct Header {
    pub flags: u16,
    pub version: u8,
    pub revision: u8,
}

#[repr(C)]
#[derive(Clone, Copy, Debug, Default, PartialEq, Eq)]
pub struct Block {
    pub place: u64,
    pub name_place: u64,
    pub id: u32,
    pub size: u32,
    pub parent: u32,
    pub name_length: u16,
    pub name_space: u8,
    pub kind: u8,
    pub has_parent: u8,
    pub has_name: u8,
}

#[repr(C)]
#[derive(Clone, Copy, Debug, Default, PartialEq, Eq)]
pub struct Listing {
    pub length: u64,
    pub count: u64,
    pub fault: Fault,
    pub header: Header,
    pub opened: u8,
}

/// What a call is: `Call::what`.
pub mod call {
    pub const OPEN: u32 = 0;
    pub const NEXT: u32 = 1;
    pub const REPARENT: u32 = 2;
    pub const DRESS: u32 = 3;
    pub const NUDGE_SINGLE: u32 = 4;
    pub const NUDGE_DOUBLE: u32 = 5;
    pub const UNDO: u32 = 6;
    pub const COUNT: u32 = 7;
    pub const EDITS: u32 = 8;
    pub const RECORD: u32 = 9;
    pub const NUMBER: u32 = 10;
    pub const MATERIAL: u32 = 11;
    pub const CELL: u32 = 12;
    pub const PATH: u32 = 13;
    pub const LENGTH: u32 = 14;
    pub const BYTE: u32 = 15;
}

#[repr(C)]
#[derive(Clone, Copy, Debug, Default, PartialEq, Eq)]
pub struct Call {
    pub number: u64,
    pub which: u64,
    pub content: u64,
    pub address: u32,
    pub what: u32,
}

/// What an answer is: `Answer::what`.
pub mod answer {
    pub const NO_CALL: u32 = 0;
    pub const REFUSED: u32 = 1;
    pub const DONE: u32 = 2;
    pub const OPENED: u32 = 3;
    pub const NONE: u32 = 4;
    pub const NUMBER: u32 = 5;
    pub const BLOCK: u32 = 6;
    pub const SINGLE: u32 = 7;
    pub const DOUBLE: u32 = 8;
}

#[repr(C)]
#[derive(Clone, Copy, Debug, Default, PartialEq, Eq)]
pub struct Answer {
    pub number: u64,
    pub fault: Fault,
    pub block: Block,
    pub header: Header,
    pub what: u32,
}

/// What an attribute's value is: `Attribute::meaning`.
pub mod meaning {
    pub const TEXT: u8 = 0;
    pub const RAW: u8 = 1;
    pub const SIGNED: u8 = 2;
    pub const UNSIGNED: u8 = 3;
    pub const SINGLE: u8 = 4;
    pub const DOUBLE: u8 = 5;
    pub const YES_NO: u8 = 6;
}

#[repr(C)]
#[derive(Clone, Copy, Debug, Default, PartialEq, Eq)]
pub struct Attribute {
    pub key_place: u64,
    pub key_length: u64,
    pub value_place: u64,
    pub value_length: u64,
    pub number: u64,
    pub name_space: u8,
    pub kind: u8,
    pub meaning: u8,
}

#[repr(C)]
#[derive(Clone, Copy, Debug, Default, PartialEq, Eq)]
pub struct Attributes {
    pub count: u64,
    pub fault: Fault,
}

/// What the upper session of layers stands over, and the calls of the lower one.
#[derive(Clone, Debug, Default)]
pub struct Layers {
    pub run: Vec<u8>,
    pub pages: Vec<u16>,
    pub size: u64,
    pub start: u64,
    pub shown: u64,
    pub lower: Vec<Call>,
}

/// The functions of the header.
pub trait Interface {
    fn list(&self, document: &[u8], blocks: &mut [Block]) -> Listing;
    fn replay(&self, document: &[u8], calls: &[Call], answers: &mut [Answer]) -> u64;
    fn save(&self, document: &[u8], calls: &[Call], buffer: &mut [u8]) -> Fault;
    fn replay_layers(&self, below: &Layers, calls: &[Call], answers: &mut [Answer]) -> Fault;
    fn save_layers(&self, below: &Layers, calls: &[Call], buffer: &mut [u8]) -> Fault;
    fn read_attributes(&self, part: &[u8], attributes: &mut [Attribute]) -> Attributes;
    fn cause_text(&self, cause: u8, buffer: &mut [u8]) -> u64;
}
