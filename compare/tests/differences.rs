//! The comparison finds a reader that is wrong in one thing only.

use compare::comparison::parts::PARTS;
use compare::comparison::{Comparison, met::Met, texts};
use compare::interface::{
    Answer, Attribute, Attributes, Block, Call, Fault, Interface, Layers, Listing, answer, call,
};
use compare::reference::Reference;

/// What a bent reader does wrong.
#[derive(Clone, Copy, Debug, PartialEq, Eq)]
enum Bend {
    ListingCount,
    ListingOpened,
    FaultPlace,
    FaultIndex,
    NoIndex,
    NameOfEmpty,
    BlockBehind,
    Revision,
    AnswerBehind,
    LastBit,
    NumberBesides,
    BufferBehind,
    BufferOfRefused,
    LowerCalls,
    AnswersOfRefusedPages,
    ValuePlace,
    AttributeBehind,
    YesNo,
}

const BENDS: [Bend; 18] = [
    Bend::ListingCount,
    Bend::ListingOpened,
    Bend::FaultPlace,
    Bend::FaultIndex,
    Bend::NoIndex,
    Bend::NameOfEmpty,
    Bend::BlockBehind,
    Bend::Revision,
    Bend::AnswerBehind,
    Bend::LastBit,
    Bend::NumberBesides,
    Bend::BufferBehind,
    Bend::BufferOfRefused,
    Bend::LowerCalls,
    Bend::AnswersOfRefusedPages,
    Bend::ValuePlace,
    Bend::AttributeBehind,
    Bend::YesNo,
];

impl Bend {
    fn fault(self, mut fault: Fault) -> Fault {
        match self {
            Self::FaultPlace if fault.cause == 16 => fault.place += 2,
            Self::FaultIndex if fault.layer == 3 => fault.index += 1,
            Self::NoIndex if fault.layer == 3 => fault.has_index = 0,
            _ => (),
        }
        fault
    }

    fn answers(self, answers: &mut [Answer], written: usize) {
        if self == Self::AnswerBehind && written < answers.len() {
            answers[written].what = 0;
        }
        for answer in answers.iter_mut().take(written) {
            match self {
                Self::LastBit if answer.what == answer::DOUBLE => answer.number ^= 1,
                Self::NumberBesides if answer.what == answer::DONE => answer.number = 1,
                _ => (),
            }
        }
    }

    fn buffer(self, buffer: &mut [u8], fault: Fault, length: usize) {
        if self == Self::BufferBehind && length < buffer.len() {
            buffer[length] = 0;
        }
        if self == Self::BufferOfRefused && fault.cause == 26 && !buffer.is_empty() {
            buffer[0] = b'A';
        }
    }
}

impl Interface for Bend {
    fn list(&self, document: &[u8], blocks: &mut [Block]) -> Listing {
        let mut listing = Reference.list(document, blocks);
        let taken = listing.count as usize;
        listing.fault = self.fault(listing.fault);
        match self {
            Self::ListingCount if taken > blocks.len() => listing.count = blocks.len() as u64,
            Self::ListingOpened if listing.opened == 1 => listing.opened = 255,
            Self::Revision => listing.header.revision = 1,
            Self::BlockBehind if taken < blocks.len() => blocks[taken].has_name = 0,
            Self::NameOfEmpty => {
                for block in blocks
                    .iter_mut()
                    .filter(|block| block.has_name == 1 && block.name_length == 0)
                {
                    block.name_place = 0;
                }
            }
            _ => (),
        }
        listing
    }

    fn replay(&self, document: &[u8], calls: &[Call], answers: &mut [Answer]) -> u64 {
        let count = Reference.replay(document, calls, answers);
        self.answers(answers, count as usize);
        count
    }

    fn save(&self, document: &[u8], calls: &[Call], buffer: &mut [u8]) -> Fault {
        let fault = Reference.save(document, calls, buffer);
        self.buffer(buffer, fault, document.len());
        fault
    }

    fn replay_layers(&self, below: &Layers, calls: &[Call], answers: &mut [Answer]) -> Fault {
        let fault = Reference.replay_layers(below, calls, answers);
        if *self == Self::AnswersOfRefusedPages && fault.cause != 0 && !answers.is_empty() {
            answers[0] = Answer::default();
        }
        fault
    }

    fn save_layers(&self, below: &Layers, calls: &[Call], buffer: &mut [u8]) -> Fault {
        let mut below = below.clone();
        if *self == Self::LowerCalls {
            below.lower.retain(|made| made.what != call::UNDO);
        }
        Reference.save_layers(&below, calls, buffer)
    }

    fn read_attributes(&self, part: &[u8], attributes: &mut [Attribute]) -> Attributes {
        let read = Reference.read_attributes(part, attributes);
        let count = read.count as usize;
        match self {
            Self::AttributeBehind if count < attributes.len() => attributes[count].number = 0,
            Self::ValuePlace | Self::YesNo => {
                for attribute in attributes.iter_mut().take(count) {
                    let bend = [attribute.value_length == 0, attribute.kind == 21];
                    attribute.value_place -= u64::from(bend[0] && *self == Self::ValuePlace);
                    attribute.number <<= u64::from(bend[1] && *self == Self::YesNo);
                }
            }
            _ => (),
        }
        read
    }

    fn cause_text(&self, cause: u8, buffer: &mut [u8]) -> u64 {
        Reference.cause_text(cause, buffer)
    }
}

/// Whether a part finds a difference within some rounds.
fn found(bend: Bend) -> bool {
    PARTS.iter().any(|part| {
        let mut comparison = Comparison {
            first: &bend,
            second: &Reference,
            seed: 3,
            met: Met::default(),
        };
        let rounds = part.share / 10;
        (0..rounds).any(|round| comparison.round(part, round).is_err())
    })
}

#[test]
fn a_bent_reader_is_found() {
    for bend in BENDS {
        assert!(found(bend), "{bend:?}");
    }
}

#[test]
fn the_texts_of_the_second_reader_pass() {
    assert!(texts::check(&Reference).is_ok());
}
