//! What both readers are asked, and what they answer.

use crate::generate::document::{Aim, Sample};
use crate::interface::{
    Answer, Attribute, Attributes, Block, Call, Fault, Header, Interface, Layers, Listing,
};

/// A function of the interface and what is given to it.
#[derive(Clone, Debug)]
pub enum Input {
    List(Vec<u8>),
    Replay(Vec<u8>, Vec<Call>),
    Save(Vec<u8>, Vec<Call>),
    ReplayLayers(Layers, Vec<Call>),
    SaveLayers(Layers, Vec<Call>),
    ReadAttributes(Vec<u8>),
}

#[derive(Clone, Debug)]
pub struct Case {
    pub what: &'static str,
    pub input: Input,
    /// How many places there are to write to.
    pub room: usize,
    /// What the generator says that comes of it.
    pub aim: Option<Aim>,
}

/// All that a function gives back and all that it could write to.
#[derive(Clone, Debug, PartialEq, Eq)]
pub enum Outcome {
    Listed(Listing, Vec<Block>),
    Replayed(u64, Vec<Answer>),
    Saved(Fault, Vec<u8>),
    ReplayedLayers(Fault, Vec<Answer>),
    Read(Attributes, Vec<Attribute>),
}

/// What stands in a buffer before a call.
const UNUSED_BYTE: u8 = 0xee;

const UNUSED_FAULT: Fault = Fault {
    place: 0xe1,
    block: 0xe2,
    index: 0xe3,
    cause: 0xe4,
    layer: 0xe5,
    has_index: 1,
};

const UNUSED_BLOCK: Block = Block {
    place: 0xe6,
    name_place: 0xe7,
    id: 0xe8,
    size: 0xe9,
    parent: 0xea,
    name_length: 0xeb,
    name_space: 0xec,
    kind: 0xed,
    has_parent: 1,
    has_name: 1,
};

const UNUSED_ANSWER: Answer = Answer {
    number: 0xee,
    fault: UNUSED_FAULT,
    block: UNUSED_BLOCK,
    header: Header {
        flags: 0xef,
        version: 0xf0,
        revision: 0xf1,
    },
    what: 0xf2,
};

const UNUSED_ATTRIBUTE: Attribute = Attribute {
    key_place: 0xf3,
    key_length: 0xf4,
    value_place: 0xf5,
    value_length: 0xf6,
    number: 0xf7,
    name_space: 0xf8,
    kind: 0xf9,
    meaning: 0xfa,
};

impl Case {
    /// The listing of a sample.
    pub fn list(sample: Sample, room: usize) -> Self {
        Self {
            what: sample.what,
            input: Input::List(sample.bytes),
            room,
            aim: sample.aim,
        }
    }

    /// The attributes of a sample.
    pub fn attributes(sample: Sample, room: usize) -> Self {
        Self {
            what: sample.what,
            input: Input::ReadAttributes(sample.bytes),
            room,
            aim: sample.aim,
        }
    }

    pub fn ask(&self, reader: &dyn Interface) -> Outcome {
        let mut blocks = vec![];
        let mut answers = vec![];
        let mut buffer = vec![];
        match &self.input {
            Input::List(document) => {
                blocks.resize(self.room, UNUSED_BLOCK);
                Outcome::Listed(reader.list(document, &mut blocks), blocks)
            }
            Input::Replay(document, calls) => {
                answers.resize(self.room, UNUSED_ANSWER);
                Outcome::Replayed(reader.replay(document, calls, &mut answers), answers)
            }
            Input::Save(document, calls) => {
                buffer.resize(self.room, UNUSED_BYTE);
                Outcome::Saved(reader.save(document, calls, &mut buffer), buffer)
            }
            Input::ReplayLayers(below, calls) => {
                answers.resize(self.room, UNUSED_ANSWER);
                Outcome::ReplayedLayers(reader.replay_layers(below, calls, &mut answers), answers)
            }
            Input::SaveLayers(below, calls) => {
                buffer.resize(self.room, UNUSED_BYTE);
                Outcome::Saved(reader.save_layers(below, calls, &mut buffer), buffer)
            }
            Input::ReadAttributes(part) => {
                let mut attributes = vec![UNUSED_ATTRIBUTE; self.room];
                Outcome::Read(reader.read_attributes(part, &mut attributes), attributes)
            }
        }
    }

    /// Whether an outcome is what the generator aims at.
    pub fn hit_by(&self, outcome: &Outcome) -> bool {
        let Some(aim) = self.aim else { return true };
        match outcome {
            Outcome::Listed(listing, _) => {
                aim == Aim {
                    count: listing.count,
                    fault: listing.fault,
                }
            }
            Outcome::Read(read, _) => {
                aim == Aim {
                    count: read.count,
                    fault: read.fault,
                }
            }
            Outcome::Saved(fault, _) | Outcome::ReplayedLayers(fault, _) => aim.fault == *fault,
            Outcome::Replayed(..) => true,
        }
    }
}

impl Outcome {
    /// Every fault that is told in it.
    pub fn faults(&self) -> Vec<Fault> {
        let told = |answers: &[Answer]| {
            answers
                .iter()
                .filter(|&&answer| answer != UNUSED_ANSWER)
                .map(|a| a.fault)
                .collect()
        };
        let mut faults: Vec<Fault> = match self {
            Self::Listed(listing, _) => vec![listing.fault],
            Self::Replayed(_, answers) => told(answers),
            Self::Saved(fault, _) => vec![*fault],
            Self::ReplayedLayers(fault, answers) => {
                let mut faults: Vec<Fault> = told(answers);
                faults.push(*fault);
                faults
            }
            Self::Read(read, _) => vec![read.fault],
        };
        faults.retain(|fault| fault.cause != 0);
        faults
    }

    /// The first thing in which this outcome is not another one, in words.
    pub fn told_beside(&self, other: &Self) -> String {
        match (self, other) {
            (Self::Listed(one, blocks), Self::Listed(two, others)) => {
                told(one, two, blocks, others)
            }
            (Self::Replayed(one, answers), Self::Replayed(two, others)) => {
                told(one, two, answers, others)
            }
            (Self::Saved(one, bytes), Self::Saved(two, others)) => told(one, two, bytes, others),
            (Self::ReplayedLayers(one, answers), Self::ReplayedLayers(two, others)) => {
                told(one, two, answers, others)
            }
            (Self::Read(one, attributes), Self::Read(two, others)) => {
                told(one, two, attributes, others)
            }
            _ => format!("{self:?}"),
        }
    }
}

/// The result where it differs, else the first written thing that differs.
fn told<R, W>(one: &R, other: &R, written: &[W], others: &[W]) -> String
where
    R: std::fmt::Debug + PartialEq,
    W: std::fmt::Debug + PartialEq,
{
    if one != other {
        return format!("{one:?}");
    }
    let differs = written
        .iter()
        .zip(others)
        .position(|(one, other)| one != other);
    differs.map_or_else(
        || format!("{one:?}"),
        |index| format!("at {index}: {:?}", written[index]),
    )
}
