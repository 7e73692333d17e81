//! The 12 bytes in front of a document.

use crate::fault::{Cause, Fault};
use crate::fields::bytes;
use crate::source::Source;

/// The size of the header, and the place of the first block.
pub const HEADER: u64 = 12;
/// The most bytes of a document.
pub const LONGEST: u64 = 16_777_216;

const MAGIC: [u8; 3] = *b"AWD";
const STREAMING: u16 = 1;
const WIDTHS_BY_BLOCK: u16 = 1 << 4;

/// What the header of an opened document says.
#[derive(Clone, Copy, Debug, PartialEq, Eq)]
pub struct Header {
    pub version: u8,
    pub revision: u8,
    pub flags: u16,
}

/// How many bytes a float of a block has, 4 or 8.
#[derive(Clone, Copy, Debug, PartialEq, Eq)]
pub(crate) struct Widths {
    pub(crate) matrix: u64,
    pub(crate) geometry: u64,
}

impl Header {
    /// The widths of a block, by the document's flags or by the block's own.
    pub(crate) fn widths(&self, block: u8) -> Widths {
        let flags = if self.flags & WIDTHS_BY_BLOCK != 0 {
            u16::from(block)
        } else {
            self.flags >> 1
        };
        let width = |bit| if flags & bit != 0 { 8 } else { 4 };
        Widths {
            matrix: width(1),
            geometry: width(2),
        }
    }
}

/// Judges the header of a document and tells what it says.
pub(crate) fn read<S: Source>(source: &S) -> Result<Header, Fault> {
    let length = source.length();
    let too_short = Fault::of_document(Cause::HeaderTooShort, length);
    if length < HEADER {
        return Err(too_short);
    }
    if length > LONGEST {
        return Err(Fault::of_document(Cause::DocumentTooLong, LONGEST));
    }
    let header: [u8; HEADER as usize] = bytes(source, 0).ok_or(too_short)?;
    judge(&header, length - HEADER)
}

fn judge(header: &[u8; HEADER as usize], behind: u64) -> Result<Header, Fault> {
    let refuse = |cause, place| Err(Fault::of_document(cause, place));
    let &[
        m0,
        m1,
        m2,
        version,
        revision,
        f0,
        f1,
        compression,
        b0,
        b1,
        b2,
        b3,
    ] = header;
    let differs = [m0, m1, m2]
        .iter()
        .zip(MAGIC)
        .position(|(&byte, magic)| byte != magic);
    if let Some(place) = differs {
        return refuse(Cause::WrongMagic, place as u64);
    }
    if version != 2 {
        return refuse(Cause::WrongVersion, 3);
    }
    if revision > 1 {
        return refuse(Cause::WrongVersion, 4);
    }
    if compression != 0 {
        return refuse(Cause::CompressedDocument, 7);
    }
    let flags = u16::from_le_bytes([f0, f1]);
    let body = u64::from(u32::from_le_bytes([b0, b1, b2, b3]));
    if flags & STREAMING == 0 && body != behind {
        return refuse(Cause::WrongBodyLength, 8);
    }
    Ok(Header {
        version,
        revision,
        flags,
    })
}
