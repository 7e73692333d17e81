//! The edits that stand, and the bytes that are seen through them.
//!
//! The document is cut into lines of 64 bytes. A line that an edit touches is copied, and edits are written to the copy;
//! a table tells for every line whether there is a copy and which. So a byte is found at once, however many edits stand.
//! Edits are taken away in the opposite order of their coming: each of them keeps the bytes that it replaced, and the
//! lines that it was the first to touch are the last ones that were copied.

use std::mem;

use crate::session::MOST_EDITS;
use crate::source::Source;

/// The size of a line.
const LINE: usize = 64;
/// The most bytes that an edit lays.
const WIDEST: usize = 8;

/// The parent of a block before it was edited.
#[derive(Clone, Copy, Debug, PartialEq, Eq)]
pub(crate) struct OldParent {
    pub(crate) block: u64,
    pub(crate) parent: Option<u32>,
}

/// An edit that stands, and what it replaced.
#[derive(Clone, Debug)]
struct Edit {
    place: u64,
    size: usize,
    bytes: [u8; WIDEST],
    /// How many lines were copied before.
    copies: usize,
    parent: Option<OldParent>,
}

/// A copied line.
#[derive(Clone, Debug)]
struct CopiedLine {
    line: usize,
    bytes: [u8; LINE],
}

/// The standing edits, in the order in which they came.
#[derive(Clone, Debug)]
pub(crate) struct Edits {
    standing: Vec<Edit>,
    copies: Vec<CopiedLine>,
    /// For each line of the document the index of its copy, plus 1; 0 where it has none. Empty before the first edit.
    table: Vec<u16>,
    /// The document's length, once there is a table.
    length: u64,
}

impl Edits {
    pub(crate) fn new() -> Self {
        let standing = Vec::with_capacity(MOST_EDITS);
        Self {
            standing,
            copies: Vec::new(),
            table: Vec::new(),
            length: 0,
        }
    }

    pub(crate) fn count(&self) -> u64 {
        self.standing.len() as u64
    }

    pub(crate) fn is_full(&self) -> bool {
        self.standing.len() >= MOST_EDITS
    }

    /// The byte at a place of a copied line; none where the source's own byte is to be seen.
    #[inline]
    pub(crate) fn byte(&self, at: u64) -> Option<u8> {
        if at >= self.length {
            return None;
        }
        let (line, offset) = split(at);
        let copy = self.table.get(line)?.checked_sub(1)?;
        Some(self.copies.get(usize::from(copy))?.bytes[offset])
    }

    /// Lays bytes over those of an opened document, from a place on.
    pub(crate) fn lay<S: Source>(
        &mut self,
        source: &S,
        place: u64,
        bytes: &[u8],
        parent: Option<OldParent>,
    ) {
        if self.table.is_empty() {
            self.length = source.length();
            self.table = vec![0; split(self.length).0 + 1];
        }
        let copies = self.copies.len();
        let mut replaced = [0; WIDEST];
        for ((at, &new), old) in (place..).zip(bytes).zip(&mut replaced) {
            self.copy_line(source, at);
            *old = self.replace(at, new);
        }
        let edit = Edit {
            place,
            size: bytes.len(),
            bytes: replaced,
            copies,
            parent,
        };
        self.standing.push(edit);
    }

    /// Takes the latest edit away, and answers the parent that it had replaced; none where no edit stands.
    pub(crate) fn undo(&mut self) -> Option<Option<OldParent>> {
        let edit = self.standing.pop()?;
        for (at, &old) in (edit.place..).zip(edit.bytes.iter().take(edit.size)) {
            self.replace(at, old);
        }
        for copy in self.copies.drain(edit.copies..) {
            self.table[copy.line] = 0;
        }
        Some(edit.parent)
    }

    /// Copies the line of a place, where it has no copy yet.
    fn copy_line<S: Source>(&mut self, source: &S, at: u64) {
        let (line, offset) = split(at);
        if self.table[line] != 0 {
            return;
        }
        let mut bytes = [0; LINE];
        for (at, byte) in (at - offset as u64..self.length).zip(&mut bytes) {
            *byte = source.byte(at).unwrap_or_default();
        }
        self.copies.push(CopiedLine { line, bytes });
        self.table[line] = self.copies.len() as u16;
    }

    /// Puts a byte into a copied line, and answers the one that was there.
    fn replace(&mut self, at: u64, new: u8) -> u8 {
        let (line, offset) = split(at);
        let copy = usize::from(self.table[line]) - 1;
        mem::replace(&mut self.copies[copy].bytes[offset], new)
    }
}

/// The line of a place, and how far behind the line's start the place is.
fn split(at: u64) -> (usize, usize) {
    const SIZE: u64 = LINE as u64;
    ((at / SIZE) as usize, (at % SIZE) as usize)
}
