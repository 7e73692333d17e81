//! A difference in words, and what was given to the readers as text for a file.

use std::fmt::{self, Write as _};

use super::Difference;
use super::case::Input;
use crate::interface::{Call, Layers};

impl fmt::Display for Difference {
    fn fmt(&self, f: &mut fmt::Formatter<'_>) -> fmt::Result {
        let Self {
            part,
            round,
            number,
            case,
            ..
        } = self;
        writeln!(
            f,
            "part: {part}; round {round}, case {number}: {}, room {}",
            case.what, case.room
        )?;
        writeln!(f, "first:  {}", self.first)?;
        write!(f, "second: {}", self.second)
    }
}

impl Input {
    /// Each thing that was given under its name; bytes as hexadecimal numbers, a call in each line.
    pub fn text(&self) -> String {
        match self {
            Self::List(document) => format!("list\ndocument {}\n", hex(document)),
            Self::Replay(document, calls) => {
                format!("replay\ndocument {}\n{}", hex(document), lines(calls))
            }
            Self::Save(document, calls) => {
                format!("save\ndocument {}\n{}", hex(document), lines(calls))
            }
            Self::ReplayLayers(below, calls) => {
                format!("replay layers\n{}{}", layers(below), lines(calls))
            }
            Self::SaveLayers(below, calls) => {
                format!("save layers\n{}{}", layers(below), lines(calls))
            }
            Self::ReadAttributes(part) => format!("attributes\npart {}\n", hex(part)),
        }
    }
}

fn hex(bytes: &[u8]) -> String {
    bytes.iter().fold(String::new(), |mut text, byte| {
        let _ = write!(text, "{byte:02x}");
        text
    })
}

fn lines(calls: &[Call]) -> String {
    calls.iter().enumerate().fold(String::new(), |mut text, (index, call)| {
        let Call { number, which, content, address, what } = call;
        let _ = writeln!(
            text,
            "call {index} what {what} number {number} which {which} content {content:#x} address {address}"
        );
        text
    })
}

fn layers(below: &Layers) -> String {
    let Layers {
        run,
        pages,
        size,
        start,
        shown,
        lower,
    } = below;
    let places = format!("size {size} start {start} shown {shown}");
    format!(
        "run {}\npages {pages:?}\n{places}\nlower calls\n{}upper calls\n",
        hex(run),
        lines(lower)
    )
}
