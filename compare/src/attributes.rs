//! Attributes, and a reader that walks over user attributes one after another.

use crate::fault::{Cause, Fault, Refusal};
use crate::fields::Reader;
use crate::source::{Run, Source};

const TEXT: u8 = 31;
const RAW: u8 = 32;

/// The value of an attribute, as its bytes stand in the part that is read.
#[derive(Clone, Copy, Debug, PartialEq, Eq)]
pub enum Value<'a> {
    Text(&'a [u8]),
    Raw(&'a [u8]),
    Number(&'a [u8]),
}

/// What a number's bytes say. Floats are told by their bits; a float that is not a number has one pattern of bits only.
#[derive(Clone, Copy, Debug, PartialEq, Eq)]
pub enum Number {
    Signed(i64),
    Unsigned(u64),
    Single(u32),
    Double(u64),
    YesNo(bool),
}

/// A user attribute. Places are counted from the start of the part that is read.
#[derive(Clone, Copy, Debug, PartialEq, Eq)]
pub struct Attribute<'a> {
    pub namespace: u8,
    pub key: &'a [u8],
    pub key_place: u64,
    /// The type, as the file has it.
    pub kind: u8,
    pub value: Value<'a>,
    pub value_place: u64,
}

impl Attribute<'_> {
    /// The value of a number; none for text and raw bytes.
    pub fn number(&self) -> Option<Number> {
        match self.value {
            Value::Number(bytes) => number(self.kind, bytes),
            Value::Text(_) | Value::Raw(_) => None,
        }
    }
}

/// The value of a number, from its type and bytes; none where the type is no number's or the bytes have not its size.
pub fn number(kind: u8, bytes: &[u8]) -> Option<Number> {
    Some(match (kind, bytes) {
        (1, &[a]) => Number::Signed(i8::from_le_bytes([a]).into()),
        (2, &[a, b]) => Number::Signed(i16::from_le_bytes([a, b]).into()),
        (3, &[a, b, c, d]) => Number::Signed(i32::from_le_bytes([a, b, c, d]).into()),
        (4, &[a]) => Number::Unsigned(a.into()),
        (5, &[a, b]) => Number::Unsigned(u16::from_le_bytes([a, b]).into()),
        (6 | 22 | 23, &[a, b, c, d]) => Number::Unsigned(u32::from_le_bytes([a, b, c, d]).into()),
        (7, &[a, b, c, d]) => Number::Single(single(u32::from_le_bytes([a, b, c, d]))),
        (8, &[a, b, c, d, e, f, g, h]) => {
            Number::Double(double(u64::from_le_bytes([a, b, c, d, e, f, g, h])))
        }
        (21, &[a]) => Number::YesNo(a != 0),
        _ => return None,
    })
}

/// The bits of a single float as they are told: all that are not a number have the same.
pub(crate) fn single(bits: u32) -> u32 {
    if f32::from_bits(bits).is_nan() {
        0x7fc0_0000
    } else {
        bits
    }
}

/// The bits of a double float as they are told: all that are not a number have the same.
pub(crate) fn double(bits: u64) -> u64 {
    if f64::from_bits(bits).is_nan() {
        0x7ff8_0000_0000_0000
    } else {
        bits
    }
}

/// Where the parts of a user attribute are.
pub(crate) struct Layout {
    namespace: u8,
    key: (u64, u16),
    kind: u8,
    value: (u64, u32),
}

/// Reads a numeric attribute.
pub(crate) fn numeric<S: Source>(reader: &mut Reader<S>) -> Result<(), Refusal> {
    reader.u16()?;
    let size = reader.u32()?;
    reader.skip(size.into())?;
    Ok(())
}

/// Reads a user attribute.
pub(crate) fn user<S: Source>(reader: &mut Reader<S>) -> Result<Layout, Refusal> {
    let namespace = reader.u8()?;
    let key = reader.text()?;
    let (kind, value) = typed(reader)?;
    Ok(Layout {
        namespace,
        key,
        kind,
        value,
    })
}

/// Reads a typed value: its type, and the place and the size of its bytes.
fn typed<S: Source>(reader: &mut Reader<S>) -> Result<(u8, (u64, u32)), Refusal> {
    let place = reader.place();
    let kind = reader.u8()?;
    let lawful = size_of(kind).ok_or(Refusal::new(Cause::ValueNotAllowed, place))?;
    let place = reader.place();
    let size = reader.u32()?;
    if lawful.is_some_and(|lawful| lawful != size) {
        return Err(Refusal::new(Cause::ValueNotAllowed, place));
    }
    let place = reader.skip(size.into())?;
    Ok((kind, (place, size)))
}

/// The size of a value of a type, where it is not any; none where there is no such type.
fn size_of(kind: u8) -> Option<Option<u32>> {
    match kind {
        1 | 4 | 21 => Some(Some(1)),
        2 | 5 => Some(Some(2)),
        3 | 6 | 7 | 22 | 23 => Some(Some(4)),
        8 => Some(Some(8)),
        TEXT | RAW => Some(None),
        _ => None,
    }
}

/// Walks over a part of a run that holds user attributes one after another.
#[derive(Clone, Copy, Debug)]
pub struct Attributes<'a> {
    part: &'a [u8],
    at: u64,
    given: u64,
}

impl<'a> Attributes<'a> {
    pub fn new(part: &'a [u8]) -> Self {
        Self {
            part,
            at: 0,
            given: 0,
        }
    }

    /// The next attribute; none at the end, again and again. A fault does not move the reader.
    #[expect(
        clippy::should_implement_trait,
        reason = "a fault would come for ever from an iterator"
    )]
    pub fn next(&mut self) -> Result<Option<Attribute<'a>>, Fault> {
        let run = Run::new(self.part);
        let mut reader = Reader::new(&run, self.at, run.length());
        if reader.is_done() {
            return Ok(None);
        }
        let layout = user(&mut reader).map_err(|refusal| refusal.inside(self.given).of_body(0))?;
        self.at = reader.place();
        self.given += 1;
        Ok(Some(attribute(run, &layout)))
    }
}

/// The attribute of a layout that was read from a run.
fn attribute<'a>(run: Run<'a>, layout: &Layout) -> Attribute<'a> {
    let (key_place, key_length) = layout.key;
    let (value_place, size) = layout.value;
    // What was read fits the run, so that both parts are there.
    let key = run.part(key_place, key_length.into()).unwrap_or_default();
    let bytes = run.part(value_place, size.into()).unwrap_or_default();
    let value = match layout.kind {
        TEXT => Value::Text(bytes),
        RAW => Value::Raw(bytes),
        _ => Value::Number(bytes),
    };
    Attribute {
        namespace: layout.namespace,
        key,
        key_place,
        kind: layout.kind,
        value,
        value_place,
    }
}
