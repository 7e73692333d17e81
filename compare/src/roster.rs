//! The blocks that are taken, and which of them an address may name.

use crate::session::MOST_BLOCKS;

/// What a taken block tells.
#[derive(Clone, Copy, Debug, PartialEq, Eq)]
pub struct Record {
    pub id: u32,
    pub namespace: u8,
    pub kind: u8,
    /// The place of the block's header.
    pub place: u64,
    /// The size of the block's body.
    pub size: u32,
    /// The parent's address as edited, 0 at the root; none where the block's kind has no parent.
    pub parent: Option<u32>,
    /// Place and length of the name's bytes; none where the block's kind has no name.
    pub name: Option<(u64, u16)>,
}

/// The cells of a matrix.
pub(crate) const CELLS: u64 = 12;

/// The scene head of a block, where it may be edited.
#[derive(Clone, Copy, Debug)]
pub(crate) struct Head {
    /// The place of the parent's address.
    pub(crate) parent: u64,
    /// The place of the matrix.
    pub(crate) matrix: u64,
    /// The size of a cell of the matrix.
    pub(crate) width: u64,
}

impl Head {
    /// The place of a cell of the matrix.
    pub(crate) fn cell(&self, cell: u64) -> Option<u64> {
        (cell < CELLS).then(|| self.matrix + self.width * cell)
    }
}

/// The addresses of a mesh instance's materials.
#[derive(Clone, Copy, Debug)]
pub(crate) struct Materials {
    /// The place of the first address.
    pub(crate) place: u64,
    pub(crate) count: u16,
}

impl Materials {
    /// The place of the address at a position.
    pub(crate) fn at(&self, position: u64) -> Option<u64> {
        (position < self.count.into()).then(|| self.place + 4 * position)
    }
}

/// A block that is taken, and where its fields are that may be edited.
#[derive(Clone, Copy, Debug)]
pub(crate) struct Taken {
    pub(crate) record: Record,
    pub(crate) head: Option<Head>,
    pub(crate) materials: Option<Materials>,
}

/// What an address is to name.
#[derive(Clone, Copy, Debug, PartialEq, Eq)]
pub(crate) enum Named {
    Parent,
    Geometry,
    Material,
    Light,
}

impl Named {
    /// Whether the address may be 0, which names no block.
    fn may_be_none(self) -> bool {
        matches!(self, Self::Parent | Self::Material)
    }

    fn may_be(self, kind: u8) -> bool {
        match self {
            Self::Parent => matches!(kind, 22 | 23 | 41),
            Self::Geometry => matches!(kind, 1 | 11),
            Self::Material => kind == 81,
            Self::Light => kind == 41,
        }
    }
}

/// The taken blocks in document order.
#[derive(Clone, Debug)]
pub(crate) struct Roster {
    blocks: Vec<Taken>,
    /// The indices of the blocks that have an ID, by their ID less 1: IDs other than 0 count from 1 without a gap.
    by_id: Vec<usize>,
}

impl Roster {
    pub(crate) fn new() -> Self {
        Self {
            blocks: Vec::with_capacity(MOST_BLOCKS),
            by_id: Vec::with_capacity(MOST_BLOCKS),
        }
    }

    pub(crate) fn count(&self) -> u64 {
        self.blocks.len() as u64
    }

    pub(crate) fn is_full(&self) -> bool {
        self.blocks.len() >= MOST_BLOCKS
    }

    /// Whether a block behind those that are taken may have this ID.
    pub(crate) fn may_follow(&self, id: u32) -> bool {
        id == 0 || u64::from(id) == self.by_id.len() as u64 + 1
    }

    /// Takes a block whose ID may follow.
    pub(crate) fn take(&mut self, block: Taken) {
        if block.record.id != 0 {
            self.by_id.push(self.blocks.len());
        }
        self.blocks.push(block);
    }

    pub(crate) fn get(&self, number: u64) -> Option<&Taken> {
        self.blocks.get(usize::try_from(number).ok()?)
    }

    pub(crate) fn get_mut(&mut self, number: u64) -> Option<&mut Taken> {
        self.blocks.get_mut(usize::try_from(number).ok()?)
    }

    /// The number of the block with an ID; none for 0, which is no block's own.
    pub(crate) fn number(&self, id: u32) -> Option<u64> {
        let index = usize::try_from(id.checked_sub(1)?).ok()?;
        self.by_id.get(index).map(|&number| number as u64)
    }

    /// Whether an address may stand in the block of a number.
    pub(crate) fn is_lawful(&self, address: u32, named: Named, block: u64) -> bool {
        if address == 0 {
            return named.may_be_none();
        }
        let number = self.number(address).filter(|&number| number < block);
        number
            .and_then(|number| self.get(number))
            .is_some_and(|Taken { record, .. }| record.namespace == 0 && named.may_be(record.kind))
    }
}
