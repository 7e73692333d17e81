//! Sub-geometries and their streams.

use crate::attributes::{numeric, user};
use crate::fault::{Cause, Refusal};
use crate::fields::{Reader, bytes};
use crate::source::Source;

const VERTICES: u8 = 1;
const FACES: u8 = 2;

/// A stream that is read.
struct Stream {
    /// The place of its first byte, the type.
    start: u64,
    kind: u8,
    /// The place of its bytes.
    place: u64,
    size: u64,
}

/// What the streams of a sub-geometry are judged by, once all are read.
#[derive(Default)]
struct Streams {
    vertices: Option<Stream>,
    faces: Option<Stream>,
    /// The start of the first stream of a type that may not be repeated and is.
    repeated: Option<u64>,
}

impl Streams {
    fn add(&mut self, stream: Stream) {
        let slot = match stream.kind {
            VERTICES => &mut self.vertices,
            FACES => &mut self.faces,
            _ => return,
        };
        if slot.is_some() {
            self.repeated.get_or_insert(stream.start);
        } else {
            *slot = Some(stream);
        }
    }

    /// Judges the streams together; `width` is that of the coordinates.
    fn judge<S: Source>(&self, source: &S, width: u64) -> Result<(), Refusal> {
        if let Some(start) = self.repeated {
            return Err(Refusal::new(Cause::StreamOutOfPlace, start));
        }
        let Some(faces) = &self.faces else {
            return Ok(());
        };
        let Some(vertices) = &self.vertices else {
            return Err(Refusal::new(Cause::StreamOutOfPlace, faces.start));
        };
        let count = vertices.size / (3 * width);
        let places = (faces.place..faces.place + faces.size).step_by(2);
        for place in places {
            let index = bytes(source, place).map(u16::from_le_bytes);
            let index = index.ok_or(Refusal::new(Cause::DoesNotFit, place))?;
            if u64::from(index) >= count {
                return Err(Refusal::new(Cause::IndexTooLarge, place));
            }
        }
        Ok(())
    }
}

/// Reads a sub-geometry; `width` is that of the coordinates.
pub(crate) fn sub_geometry<S: Source>(reader: &mut Reader<S>, width: u64) -> Result<(), Refusal> {
    let total = reader.u32()?;
    reader.list(numeric)?;
    let mut streams = Streams::default();
    reader.entries(total.into(), |run| {
        stream(run, width).map(|stream| streams.add(stream))
    })?;
    streams.judge(reader.source(), width)?;
    reader.list(user)
}

fn stream<S: Source>(reader: &mut Reader<S>, width: u64) -> Result<Stream, Refusal> {
    let start = reader.place();
    let kind = reader.u8()?;
    reader.u8()?;
    let place = reader.place();
    let size = u64::from(reader.u32()?);
    if !size.is_multiple_of(item(kind, width)) {
        return Err(Refusal::new(Cause::ValueNotAllowed, place));
    }
    let place = reader.skip(size)?;
    Ok(Stream {
        start,
        kind,
        place,
        size,
    })
}

/// The size of an item of a stream.
fn item(kind: u8, width: u64) -> u64 {
    match kind {
        VERTICES | 4 => 3 * width,
        FACES => 6,
        3 => 2 * width,
        _ => 1,
    }
}
