//! The second reader behind the C interface: its answers as the header's structs have them.

use crate::attributes::{self, Attributes, Number, Value};
use crate::calls::{self, Answer, Call, Content};
use crate::fault::Fault;
use crate::header::Header;
use crate::interface::{self, Interface, Layers, answer, call, meaning};
use crate::roster::Record;
use crate::session::Session;
use crate::source::{Pages, Run, Source, Window, copy};

/// The second reader.
#[derive(Clone, Copy, Debug)]
pub struct Reference;

impl Interface for Reference {
    fn list(&self, document: &[u8], blocks: &mut [interface::Block]) -> interface::Listing {
        let mut session = Session::new(Run::new(document));
        let length = document.len() as u64;
        let header = match session.open() {
            Ok(header) => header_code(header),
            Err(fault) => {
                return interface::Listing {
                    length,
                    fault: fault_code(fault),
                    ..Default::default()
                };
            }
        };
        let fault = take_all(&mut session);
        for (number, block) in (0..session.count()).zip(blocks) {
            *block = session.record(number).map_or(*block, block_code);
        }
        interface::Listing {
            length,
            count: session.count(),
            fault,
            header,
            opened: 1,
        }
    }

    fn replay(
        &self,
        document: &[u8],
        calls: &[interface::Call],
        answers: &mut [interface::Answer],
    ) -> u64 {
        let mut session = Session::new(Run::new(document));
        answer_all(&mut session, calls, answers);
        calls.len().min(answers.len()) as u64
    }

    fn save(
        &self,
        document: &[u8],
        calls: &[interface::Call],
        buffer: &mut [u8],
    ) -> interface::Fault {
        let mut session = Session::new(Run::new(document));
        make_all(&mut session, calls);
        copied(&session, buffer)
    }

    fn replay_layers(
        &self,
        below: &Layers,
        calls: &[interface::Call],
        answers: &mut [interface::Answer],
    ) -> interface::Fault {
        with_lower(below, |lower| {
            answer_all(&mut Session::new(lower), calls, answers);
            interface::Fault::default()
        })
    }

    fn save_layers(
        &self,
        below: &Layers,
        calls: &[interface::Call],
        buffer: &mut [u8],
    ) -> interface::Fault {
        with_lower(below, |lower| {
            let mut session = Session::new(lower);
            make_all(&mut session, calls);
            copied(&session, buffer)
        })
    }

    fn read_attributes(
        &self,
        part: &[u8],
        attributes: &mut [interface::Attribute],
    ) -> interface::Attributes {
        let mut reader = Attributes::new(part);
        let mut room = attributes.iter_mut();
        let mut count = 0;
        loop {
            match reader.next() {
                Ok(Some(read)) => {
                    if let Some(attribute) = room.next() {
                        *attribute = attribute_code(&read);
                    }
                    count += 1;
                }
                Ok(None) => {
                    return interface::Attributes {
                        count,
                        ..Default::default()
                    };
                }
                Err(fault) => {
                    return interface::Attributes {
                        count,
                        fault: fault_code(fault),
                    };
                }
            }
        }
    }

    /// The format page does not say the texts: a word for each cause stands here.
    fn cause_text(&self, cause: u8, buffer: &mut [u8]) -> u64 {
        let text = if (1..=28).contains(&cause) {
            format!("cause {cause}")
        } else {
            String::new()
        };
        for (to, byte) in buffer.iter_mut().zip(text.bytes()) {
            *to = byte;
        }
        text.len() as u64
    }
}

/// Takes blocks until the bytes are used up or something is refused.
fn take_all<S: Source>(session: &mut Session<S>) -> interface::Fault {
    loop {
        match session.next() {
            Ok(Some(_)) => (),
            Ok(None) => return interface::Fault::default(),
            Err(fault) => return fault_code(fault),
        }
    }
}

fn answer_all<S: Source>(
    session: &mut Session<S>,
    calls: &[interface::Call],
    answers: &mut [interface::Answer],
) {
    for (call, answer) in calls.iter().zip(answers) {
        *answer = answer_code(made(session, call));
    }
}

fn make_all<S: Source>(session: &mut Session<S>, calls: &[interface::Call]) {
    for call in calls {
        made(session, call);
    }
}

/// None where what is given is no call.
fn made<S: Source>(session: &mut Session<S>, call: &interface::Call) -> Option<Answer> {
    Some(calls::make(session, call_of(call)?))
}

fn copied<S: Source>(source: &S, buffer: &mut [u8]) -> interface::Fault {
    copy(source, buffer).map_or_else(fault_code, |()| interface::Fault::default())
}

/// Fills the pages, makes the lower session's calls, and does the rest over that session.
fn with_lower(
    below: &Layers,
    then: impl FnOnce(&Session<Window<&Pages<'_>>>) -> interface::Fault,
) -> interface::Fault {
    let mut pages = Pages::new();
    if let Err(fault) = pages.fill(&below.run, &below.pages, below.size) {
        return fault_code(fault);
    }
    let mut lower = Session::new(Window::new(&pages, below.start, below.shown));
    make_all(&mut lower, &below.lower);
    then(&lower)
}

fn call_of(call: &interface::Call) -> Option<Call> {
    let &interface::Call {
        number,
        which,
        content,
        address,
        what,
    } = call;
    Some(match what {
        call::OPEN => Call::Open,
        call::NEXT => Call::Next,
        call::REPARENT => Call::Reparent(number, address),
        call::DRESS => Call::Dress(number, which, address),
        call::NUDGE_SINGLE => {
            Call::Nudge(number, which, Content::Single(u32::try_from(content).ok()?))
        }
        call::NUDGE_DOUBLE => Call::Nudge(number, which, Content::Double(content)),
        call::UNDO => Call::Undo,
        call::COUNT => Call::Count,
        call::EDITS => Call::Edits,
        call::RECORD => Call::Record(number),
        call::NUMBER => Call::NumberOf(address),
        call::MATERIAL => Call::Material(number, which),
        call::CELL => Call::Cell(number, which),
        call::PATH => Call::Path(number),
        call::LENGTH => Call::Length,
        call::BYTE => Call::Byte(number),
        _ => return None,
    })
}

fn answer_code(made: Option<Answer>) -> interface::Answer {
    let code = |what| interface::Answer {
        what,
        ..Default::default()
    };
    match made {
        None => code(answer::NO_CALL),
        Some(Answer::Refused(fault)) => interface::Answer {
            fault: fault_code(fault),
            ..code(answer::REFUSED)
        },
        Some(Answer::Done) => code(answer::DONE),
        Some(Answer::Opened(header)) => interface::Answer {
            header: header_code(header),
            ..code(answer::OPENED)
        },
        Some(Answer::None) => code(answer::NONE),
        Some(Answer::Number(number)) => interface::Answer {
            number,
            ..code(answer::NUMBER)
        },
        Some(Answer::Block(record)) => interface::Answer {
            block: block_code(record),
            ..code(answer::BLOCK)
        },
        Some(Answer::Cell(Content::Single(bits))) => interface::Answer {
            number: u64::from(bits),
            ..code(answer::SINGLE)
        },
        Some(Answer::Cell(Content::Double(bits))) => interface::Answer {
            number: bits,
            ..code(answer::DOUBLE)
        },
    }
}

fn fault_code(fault: Fault) -> interface::Fault {
    interface::Fault {
        place: fault.place,
        block: fault.block,
        index: fault.index.unwrap_or(0),
        cause: fault.cause,
        layer: fault.layer,
        has_index: u8::from(fault.index.is_some()),
    }
}

fn header_code(header: Header) -> interface::Header {
    interface::Header {
        flags: header.flags,
        version: header.version,
        revision: header.revision,
    }
}

fn block_code(record: Record) -> interface::Block {
    let (name_place, name_length) = record.name.unwrap_or((0, 0));
    interface::Block {
        place: record.place,
        name_place,
        id: record.id,
        size: record.size,
        parent: record.parent.unwrap_or(0),
        name_length,
        name_space: record.namespace,
        kind: record.kind,
        has_parent: u8::from(record.parent.is_some()),
        has_name: u8::from(record.name.is_some()),
    }
}

fn attribute_code(read: &attributes::Attribute<'_>) -> interface::Attribute {
    let (bytes, of_bytes) = match read.value {
        Value::Text(bytes) => (bytes, meaning::TEXT),
        Value::Raw(bytes) => (bytes, meaning::RAW),
        Value::Number(bytes) => (bytes, u8::MAX),
    };
    let (meaning, number) = match read.number() {
        None => (of_bytes, 0),
        Some(Number::Signed(number)) => (meaning::SIGNED, number as u64),
        Some(Number::Unsigned(number)) => (meaning::UNSIGNED, number),
        Some(Number::Single(bits)) => (meaning::SINGLE, u64::from(bits)),
        Some(Number::Double(bits)) => (meaning::DOUBLE, bits),
        Some(Number::YesNo(yes)) => (meaning::YES_NO, u64::from(yes)),
    };
    interface::Attribute {
        key_place: read.key_place,
        key_length: read.key.len() as u64,
        value_place: read.value_place,
        value_length: bytes.len() as u64,
        number,
        name_space: read.namespace,
        kind: read.kind,
        meaning,
    }
}
