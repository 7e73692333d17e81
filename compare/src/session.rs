//! A session: reads a document block by block, answers questions about it and edits it.

use crate::attributes::{double, single};
use crate::bodies;
use crate::calls::Content;
use crate::edits::{Edits, OldParent};
use crate::fault::{Cause, Fault};
use crate::fields::bytes;
use crate::header::{self, HEADER, Header};
use crate::roster::{Head, Named, Record, Roster, Taken};
use crate::source::Source;

/// The most blocks that a session takes.
pub const MOST_BLOCKS: usize = 512;
/// The most edits that stand at a time.
pub const MOST_EDITS: usize = 256;

/// A session over a source. Its own bytes are those of the source with the standing edits laid over them.
#[derive(Clone, Debug)]
pub struct Session<S> {
    source: S,
    header: Option<Header>,
    roster: Roster,
    /// The place where the taken blocks end.
    end: u64,
    edits: Edits,
}

impl<S: Source> Session<S> {
    pub fn new(source: S) -> Self {
        Self {
            source,
            header: None,
            roster: Roster::new(),
            end: HEADER,
            edits: Edits::new(),
        }
    }

    /// Opens the document.
    pub fn open(&mut self) -> Result<Header, Fault> {
        if self.header.is_some() {
            return Err(Fault::of_call(Cause::AlreadyOpen, 0));
        }
        let header = header::read(&self.source)?;
        self.header = Some(header);
        Ok(header)
    }

    /// The document's header; none before it is open.
    pub fn header(&self) -> Option<Header> {
        self.header
    }

    /// Takes the next block and answers its number; none where the bytes are used up.
    #[expect(
        clippy::should_implement_trait,
        reason = "a fault would come for ever from an iterator"
    )]
    pub fn next(&mut self) -> Result<Option<u64>, Fault> {
        let header = self.opened(0)?;
        if self.end >= self.source.length() {
            return Ok(None);
        }
        let number = self.roster.count();
        if self.roster.is_full() {
            return Err(Fault {
                place: self.end,
                ..Fault::of_call(Cause::TooManyBlocks, number)
            });
        }
        // No edit lies behind the taken blocks, so the source's own bytes are those of the session.
        let (block, end) = bodies::read(&self.source, self.end, header, &self.roster)?;
        self.roster.take(block);
        self.end = end;
        Ok(Some(number))
    }

    /// Lays another parent's address over that of a block.
    pub fn reparent(&mut self, block: u64, address: u32) -> Result<(), Fault> {
        let taken = self.taken(block)?;
        let head = head(taken, block)?;
        let parent = Some(OldParent {
            block,
            parent: taken.record.parent,
        });
        self.judge_address(address, Named::Parent, block)?;
        self.judge_room(block)?;
        self.edits
            .lay(&self.source, head.parent, &address.to_le_bytes(), parent);
        self.set_parent(block, Some(address));
        Ok(())
    }

    /// Lays another material's address over the one at a position of a mesh instance.
    pub fn dress(&mut self, block: u64, position: u64, address: u32) -> Result<(), Fault> {
        let materials = self.taken(block)?.materials;
        let materials = materials.ok_or(Fault::of_call(Cause::NoSuchField, block))?;
        let place = materials
            .at(position)
            .ok_or(Fault::of_call(Cause::NoSuchMaterial, block))?;
        self.judge_address(address, Named::Material, block)?;
        self.judge_room(block)?;
        self.edits
            .lay(&self.source, place, &address.to_le_bytes(), None);
        Ok(())
    }

    /// Lays another float over a cell of a block's matrix.
    pub fn nudge(&mut self, block: u64, cell: u64, content: Content) -> Result<(), Fault> {
        let refuse = |cause| Err(Fault::of_call(cause, block));
        let head = head(self.taken(block)?, block)?;
        let Some(place) = head.cell(cell) else {
            return refuse(Cause::NoSuchCell);
        };
        let (width, is_number) = match content {
            Content::Single(bits) => (4, !f32::from_bits(bits).is_nan()),
            Content::Double(bits) => (8, !f64::from_bits(bits).is_nan()),
        };
        if width != head.width {
            return refuse(Cause::WrongWidth);
        }
        if !is_number {
            return refuse(Cause::NotANumber);
        }
        self.judge_room(block)?;
        match content {
            Content::Single(bits) => self
                .edits
                .lay(&self.source, place, &bits.to_le_bytes(), None),
            Content::Double(bits) => self
                .edits
                .lay(&self.source, place, &bits.to_le_bytes(), None),
        }
        Ok(())
    }

    /// Takes the latest standing edit away.
    pub fn undo(&mut self) -> Result<(), Fault> {
        self.opened(0)?;
        let replaced = self
            .edits
            .undo()
            .ok_or(Fault::of_call(Cause::NothingToUndo, 0))?;
        if let Some(OldParent { block, parent }) = replaced {
            self.set_parent(block, parent);
        }
        Ok(())
    }

    /// How many blocks are taken.
    pub fn count(&self) -> u64 {
        self.roster.count()
    }

    /// How many edits stand.
    pub fn edits(&self) -> u64 {
        self.edits.count()
    }

    /// What a block tells.
    pub fn record(&self, block: u64) -> Option<Record> {
        self.roster.get(block).map(|taken| taken.record)
    }

    /// The number of the block with an ID.
    pub fn number(&self, id: u32) -> Option<u64> {
        self.roster.number(id)
    }

    /// The address of the material at a position of a mesh instance, as edited.
    pub fn material(&self, block: u64, position: u64) -> Option<u32> {
        let place = self.roster.get(block)?.materials?.at(position)?;
        bytes(self, place).map(u32::from_le_bytes)
    }

    /// The float in a cell of a block's matrix, as edited.
    pub fn cell(&self, block: u64, cell: u64) -> Option<Content> {
        let head = self.roster.get(block)?.head?;
        let place = head.cell(cell)?;
        if head.width == 8 {
            bytes(self, place).map(|bytes| Content::Double(double(u64::from_le_bytes(bytes))))
        } else {
            bytes(self, place).map(|bytes| Content::Single(single(u32::from_le_bytes(bytes))))
        }
    }

    /// How many parents are passed from a block up to the root.
    pub fn path(&self, block: u64) -> Option<u64> {
        let mut parent = self.record(block)?.parent?;
        let mut passed = 0;
        // This ends, since a parent is always an earlier block.
        while parent != 0 {
            parent = self.record(self.number(parent)?)?.parent?;
            passed += 1;
        }
        Some(passed)
    }

    /// Ends the session and gives the source back as it was.
    pub fn close(self) -> S {
        self.source
    }

    /// The header of the document, where it is open; `block` is the number that a refusal tells.
    fn opened(&self, block: u64) -> Result<Header, Fault> {
        self.header.ok_or(Fault::of_call(Cause::NotOpen, block))
    }

    /// The block of a number that was given to a call.
    fn taken(&self, block: u64) -> Result<&Taken, Fault> {
        self.opened(block)?;
        self.roster
            .get(block)
            .ok_or(Fault::of_call(Cause::NoSuchBlock, block))
    }

    fn judge_address(&self, address: u32, named: Named, block: u64) -> Result<(), Fault> {
        if self.roster.is_lawful(address, named, block) {
            Ok(())
        } else {
            Err(Fault::of_call(Cause::AddressNotLawful, block))
        }
    }

    fn judge_room(&self, block: u64) -> Result<(), Fault> {
        if self.edits.is_full() {
            Err(Fault::of_call(Cause::TooManyEdits, block))
        } else {
            Ok(())
        }
    }

    fn set_parent(&mut self, block: u64, parent: Option<u32>) {
        if let Some(taken) = self.roster.get_mut(block) {
            taken.record.parent = parent;
        }
    }
}

fn head(taken: &Taken, block: u64) -> Result<Head, Fault> {
    taken.head.ok_or(Fault::of_call(Cause::NoSuchField, block))
}

impl<S: Source> Source for Session<S> {
    fn length(&self) -> u64 {
        self.source.length()
    }

    #[inline]
    fn byte(&self, at: u64) -> Option<u8> {
        self.edits.byte(at).or_else(|| self.source.byte(at))
    }
}
