//! Calls of a session and their answers, as values.

use crate::fault::Fault;
use crate::header::Header;
use crate::roster::Record;
use crate::session::Session;
use crate::source::Source;

/// A float, by its bits.
#[derive(Clone, Copy, Debug, PartialEq, Eq)]
pub enum Content {
    Single(u32),
    Double(u64),
}

/// A call of a session.
#[derive(Clone, Copy, Debug, PartialEq, Eq)]
pub enum Call {
    Open,
    Next,
    /// A block's number and the address of its new parent.
    Reparent(u64, u32),
    /// A mesh instance's number, a position and the address of a material.
    Dress(u64, u64, u32),
    /// A block's number, a cell and what is laid there.
    Nudge(u64, u64, Content),
    Undo,
    Count,
    Edits,
    /// A block's number.
    Record(u64),
    /// An ID.
    NumberOf(u32),
    /// A mesh instance's number and a position.
    Material(u64, u64),
    /// A block's number and a cell.
    Cell(u64, u64),
    /// A block's number.
    Path(u64),
    Length,
    /// A place.
    Byte(u64),
}

/// What a call answers.
#[derive(Clone, Copy, Debug, PartialEq, Eq)]
pub enum Answer {
    Refused(Fault),
    Done,
    Opened(Header),
    /// There is none of what was asked for.
    None,
    Number(u64),
    Block(Record),
    /// A float that is not a number has one pattern of bits only.
    Cell(Content),
}

/// Makes a call on a session.
pub fn make<S: Source>(session: &mut Session<S>, call: Call) -> Answer {
    match call {
        Call::Open => session.open().map_or_else(Answer::Refused, Answer::Opened),
        Call::Next => session.next().map_or_else(Answer::Refused, number),
        Call::Reparent(block, address) => done(session.reparent(block, address)),
        Call::Dress(block, position, address) => done(session.dress(block, position, address)),
        Call::Nudge(block, cell, content) => done(session.nudge(block, cell, content)),
        Call::Undo => done(session.undo()),
        Call::Count => Answer::Number(session.count()),
        Call::Edits => Answer::Number(session.edits()),
        Call::Record(block) => session.record(block).map_or(Answer::None, Answer::Block),
        Call::NumberOf(id) => number(session.number(id)),
        Call::Material(block, position) => number(session.material(block, position).map(u64::from)),
        Call::Cell(block, cell) => session.cell(block, cell).map_or(Answer::None, Answer::Cell),
        Call::Path(block) => number(session.path(block)),
        Call::Length => Answer::Number(session.length()),
        Call::Byte(at) => number(session.byte(at).map(u64::from)),
    }
}

fn done(result: Result<(), Fault>) -> Answer {
    result.map_or_else(Answer::Refused, |()| Answer::Done)
}

fn number(number: Option<u64>) -> Answer {
    number.map_or(Answer::None, Answer::Number)
}
