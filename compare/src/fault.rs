//! Why something is refused, and where.

/// Why something is refused. The numbers are those of the page.
#[repr(u8)]
#[derive(Clone, Copy, Debug, PartialEq, Eq)]
pub enum Cause {
    AlreadyOpen = 1,
    HeaderTooShort = 2,
    DocumentTooLong = 3,
    WrongMagic = 4,
    WrongVersion = 5,
    CompressedDocument = 6,
    WrongBodyLength = 7,
    NotOpen = 8,
    TooManyBlocks = 9,
    DoesNotFit = 10,
    IdOutOfSequence = 11,
    CompressedBlock = 12,
    ValueNotAllowed = 13,
    AddressNotLawful = 14,
    BytesLeftOver = 15,
    IndexTooLarge = 16,
    StreamOutOfPlace = 17,
    NoSuchBlock = 18,
    NoSuchField = 19,
    TooManyEdits = 20,
    NoSuchMaterial = 21,
    NoSuchCell = 22,
    WrongWidth = 23,
    NotANumber = 24,
    NothingToUndo = 25,
    BufferTooShort = 26,
    LengthOverPages = 27,
    PageOutsideRun = 28,
}

/// The layer of the document's header.
pub const DOCUMENT_HEADER: u8 = 0;
/// The layer of a block's header.
pub const BLOCK_HEADER: u8 = 1;
/// The layer of a field of a body.
pub const BODY_FIELD: u8 = 2;
/// The layer of an entry of a run; only here a fault has an index.
pub const ENTRY: u8 = 3;
/// The layer of a call that is refused as a whole.
pub const CALL: u8 = 4;

/// What a refusal tells.
#[derive(Clone, Copy, Debug, PartialEq, Eq)]
pub struct Fault {
    pub cause: u8,
    pub place: u64,
    pub block: u64,
    pub layer: u8,
    pub index: Option<u64>,
}

impl Fault {
    /// A refusal by the document's header.
    pub(crate) fn of_document(cause: Cause, place: u64) -> Self {
        Self {
            cause: cause as u8,
            place,
            block: 0,
            layer: DOCUMENT_HEADER,
            index: None,
        }
    }

    /// A call that is refused as a whole.
    pub(crate) fn of_call(cause: Cause, block: u64) -> Self {
        Self {
            cause: cause as u8,
            place: 0,
            block,
            layer: CALL,
            index: None,
        }
    }
}

/// A refusal on its way up: in the reading of a block, where the block is not known yet.
#[derive(Clone, Copy, Debug, PartialEq, Eq)]
pub(crate) struct Refusal {
    cause: Cause,
    place: u64,
    /// The entry of the outermost run that was passed on the way so far.
    index: Option<u64>,
}

impl Refusal {
    pub(crate) fn new(cause: Cause, place: u64) -> Self {
        Self {
            cause,
            place,
            index: None,
        }
    }

    /// The refusal as one inside an entry of a run. The index of an entry inside the entry is lost.
    pub(crate) fn inside(self, index: u64) -> Self {
        Self {
            index: Some(index),
            ..self
        }
    }

    /// The refusal of a field of a block's header.
    pub(crate) fn of_header(self, block: u64) -> Fault {
        Fault {
            cause: self.cause as u8,
            place: self.place,
            block,
            layer: BLOCK_HEADER,
            index: None,
        }
    }

    /// The refusal of a field of a body.
    pub(crate) fn of_body(self, block: u64) -> Fault {
        let layer = if self.index.is_some() {
            ENTRY
        } else {
            BODY_FIELD
        };
        Fault {
            cause: self.cause as u8,
            place: self.place,
            block,
            layer,
            index: self.index,
        }
    }
}
