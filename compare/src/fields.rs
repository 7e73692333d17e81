//! Fields, texts and runs: reading in document order, each field within its holder.

use crate::fault::{Cause, Refusal};
use crate::source::Source;

/// A place to read at, and the holder that the next field must fit.
pub(crate) struct Reader<'a, S> {
    source: &'a S,
    at: u64,
    end: u64,
}

impl<'a, S: Source> Reader<'a, S> {
    /// Reads from a place on, within a holder that ends at `end`.
    pub(crate) fn new(source: &'a S, at: u64, end: u64) -> Self {
        Self { source, at, end }
    }

    /// The place of the next field.
    pub(crate) fn place(&self) -> u64 {
        self.at
    }

    /// Whether the holder is used up.
    pub(crate) fn is_done(&self) -> bool {
        self.at >= self.end
    }

    /// The source that is read.
    pub(crate) fn source(&self) -> &'a S {
        self.source
    }

    /// Passes over all that is left of the holder.
    pub(crate) fn skip_rest(&mut self) {
        self.at = self.end;
    }

    /// Passes over bytes of any content, and answers where they begin.
    pub(crate) fn skip(&mut self, size: u64) -> Result<u64, Refusal> {
        let place = self.at;
        match place.checked_add(size) {
            Some(end) if end <= self.end => self.at = end,
            _ => return Err(Refusal::new(Cause::DoesNotFit, place)),
        }
        Ok(place)
    }

    fn bytes<const N: usize>(&mut self) -> Result<[u8; N], Refusal> {
        let place = self.skip(N as u64)?;
        bytes(self.source, place).ok_or(Refusal::new(Cause::DoesNotFit, place))
    }

    pub(crate) fn u8(&mut self) -> Result<u8, Refusal> {
        self.bytes().map(u8::from_le_bytes)
    }

    pub(crate) fn u16(&mut self) -> Result<u16, Refusal> {
        self.bytes().map(u16::from_le_bytes)
    }

    pub(crate) fn u32(&mut self) -> Result<u32, Refusal> {
        self.bytes().map(u32::from_le_bytes)
    }

    /// A text: the place and the length of its bytes.
    pub(crate) fn text(&mut self) -> Result<(u64, u16), Refusal> {
        let length = self.u16()?;
        let place = self.skip(length.into())?;
        Ok((place, length))
    }

    /// Passes over fields of the same size, and answers where the first begins. What does not fit is one of the fields.
    pub(crate) fn fields(&mut self, count: u64, size: u64) -> Result<u64, Refusal> {
        let first = self.at;
        for _ in 0..count {
            self.skip(size)?;
        }
        Ok(first)
    }

    /// Passes over a measured run, and answers a reader whose holder is that run.
    pub(crate) fn run(&mut self, size: u64) -> Result<Self, Refusal> {
        let place = self.skip(size)?;
        Ok(Self {
            source: self.source,
            at: place,
            end: self.at,
        })
    }

    /// Passes over a measured run of entries.
    pub(crate) fn entries<T>(
        &mut self,
        size: u64,
        mut entry: impl FnMut(&mut Self) -> Result<T, Refusal>,
    ) -> Result<(), Refusal> {
        let mut run = self.run(size)?;
        let mut index = 0;
        while !run.is_done() {
            entry(&mut run).map_err(|refusal| refusal.inside(index))?;
            index += 1;
        }
        Ok(())
    }

    /// Passes over a list: a total and a measured run of so many bytes.
    pub(crate) fn list<T>(
        &mut self,
        entry: impl FnMut(&mut Self) -> Result<T, Refusal>,
    ) -> Result<(), Refusal> {
        let total = self.u32()?;
        self.entries(total.into(), entry)
    }
}

/// The bytes of a field that fits its holder.
#[inline]
pub(crate) fn bytes<const N: usize>(source: &impl Source, place: u64) -> Option<[u8; N]> {
    let mut bytes = [0; N];
    for (byte, at) in bytes.iter_mut().zip(place..) {
        *byte = source.byte(at)?;
    }
    Some(bytes)
}
