//! One piece of work, for either side.

use compare::ffi::Library;
use compare::interface::{Answer, Block, Call, Fault, Interface, Layers, Listing};
use compare::reference::Reference;
use std::rc::Rc;

#[derive(Clone, Copy, Debug, PartialEq, Eq)]
pub enum Side {
    Verified,
    Rust,
}

impl Side {
    pub const BOTH: [Self; 2] = [Self::Verified, Self::Rust];

    pub fn name(self) -> &'static str {
        match self {
            Self::Verified => "verified",
            Self::Rust => "rust",
        }
    }
}

/// What is done, and how many bytes the buffer has that is written to.
pub enum Work {
    List {
        document: Rc<[u8]>,
    },
    Replay {
        document: Rc<[u8]>,
        calls: Vec<Call>,
    },
    Save {
        document: Rc<[u8]>,
        calls: Rc<[Call]>,
        room: usize,
    },
    SaveLayers {
        below: Rc<Layers>,
        calls: Rc<[Call]>,
        room: usize,
    },
}

/// What a side tells and writes. The arrays are made once and written again and again.
#[derive(PartialEq, Debug)]
pub struct Output {
    listing: Listing,
    blocks: Vec<Block>,
    answers: Vec<Answer>,
    made: u64,
    buffer: Vec<u8>,
    pub fault: Fault,
}

impl Work {
    pub fn output(&self) -> Output {
        let (blocks, answers, buffer) = match self {
            Self::List { .. } => (512, 0, 0),
            Self::Replay { calls, .. } => (0, calls.len(), 0),
            Self::Save { room, .. } | Self::SaveLayers { room, .. } => (0, 0, *room),
        };
        Output {
            listing: Listing::default(),
            blocks: vec![Block::default(); blocks],
            answers: vec![Answer::default(); answers],
            made: 0,
            buffer: vec![0; buffer],
            fault: Fault::default(),
        }
    }

    pub fn run(&self, side: Side, output: &mut Output) {
        match side {
            Side::Verified => self.run_on(&Library, output),
            Side::Rust => self.run_on(&Reference, output),
        }
    }

    fn run_on<I: Interface>(&self, library: &I, output: &mut Output) {
        match self {
            Self::List { document } => output.listing = library.list(document, &mut output.blocks),
            Self::Replay { document, calls } => output.made = library.replay(document, calls, &mut output.answers),
            Self::Save { document, calls, .. } => output.fault = library.save(document, calls, &mut output.buffer),
            Self::SaveLayers { below, calls, .. } => {
                output.fault = library.save_layers(below, calls, &mut output.buffer);
            }
        }
    }
}

impl Output {
    /// Whether nothing was refused and every question had an answer, so that a row does not measure a refusal by mistake.
    pub fn finished(&self) -> bool {
        self.fault.cause == 0 && self.listing.fault.cause == 0 && self.answers.iter().all(|answer| !matches!(answer.what, 0 | 1 | 4))
    }
}
