//! What documents are read from: lists of bytes that answer for their length and for one byte at a time.

use crate::fault::{Cause, Fault};

/// The size of a page in bytes.
pub const PAGE: usize = 512;

/// A list of bytes. Being asked never changes it.
pub trait Source {
    /// How many bytes there are.
    fn length(&self) -> u64;

    /// The byte at a place; none at or beyond the length.
    fn byte(&self, at: u64) -> Option<u8>;
}

impl<S: Source + ?Sized> Source for &S {
    fn length(&self) -> u64 {
        (**self).length()
    }

    #[inline]
    fn byte(&self, at: u64) -> Option<u8> {
        (**self).byte(at)
    }
}

/// Memory that the caller holds.
#[derive(Clone, Copy, Debug, Default)]
pub struct Run<'a> {
    bytes: &'a [u8],
}

impl<'a> Run<'a> {
    pub fn new(bytes: &'a [u8]) -> Self {
        Self { bytes }
    }

    /// The caller's very memory at a place and of a size; none where it is not wholly inside the run.
    pub fn part(&self, place: u64, size: u64) -> Option<&'a [u8]> {
        let start = usize::try_from(place).ok()?;
        let end = usize::try_from(place.checked_add(size)?).ok()?;
        self.bytes.get(start..end)
    }
}

impl Source for Run<'_> {
    fn length(&self) -> u64 {
        self.bytes.len() as u64
    }

    #[inline]
    fn byte(&self, at: u64) -> Option<u8> {
        self.bytes.get(usize::try_from(at).ok()?).copied()
    }
}

/// Listed pages of a run, joined in the list's order and cut to a length. New pages are empty.
#[derive(Clone, Copy, Debug, Default)]
pub struct Pages<'a> {
    /// The whole pages of the run.
    run: &'a [[u8; PAGE]],
    list: &'a [u16],
    length: u64,
}

impl<'a> Pages<'a> {
    pub fn new() -> Self {
        Self::default()
    }

    /// Shows other pages from now on. A refused fill leaves the old ones.
    pub fn fill(&mut self, run: &'a [u8], list: &'a [u16], length: u64) -> Result<(), Fault> {
        if length > (PAGE as u64).saturating_mul(list.len() as u64) {
            return Err(Fault::of_call(Cause::LengthOverPages, 0));
        }
        let (run, _) = run.as_chunks();
        if let Some(index) = list.iter().position(|&page| usize::from(page) >= run.len()) {
            let place = index as u64;
            return Err(Fault {
                place,
                ..Fault::of_call(Cause::PageOutsideRun, 0)
            });
        }
        *self = Self { run, list, length };
        Ok(())
    }
}

impl Source for Pages<'_> {
    fn length(&self) -> u64 {
        self.length
    }

    #[inline]
    fn byte(&self, at: u64) -> Option<u8> {
        if at >= self.length {
            return None;
        }
        let at = usize::try_from(at).ok()?;
        let page = *self.list.get(at / PAGE)?;
        Some(self.run.get(usize::from(page))?[at % PAGE])
    }
}

/// The bytes of the source below from a start on, at most a size of them.
#[derive(Clone, Copy, Debug)]
pub struct Window<S> {
    below: S,
    start: u64,
    size: u64,
}

impl<S: Source> Window<S> {
    pub fn new(below: S, start: u64, size: u64) -> Self {
        Self { below, start, size }
    }
}

impl<S: Source> Source for Window<S> {
    fn length(&self) -> u64 {
        self.below
            .length()
            .saturating_sub(self.start)
            .min(self.size)
    }

    #[inline]
    fn byte(&self, at: u64) -> Option<u8> {
        if at >= self.size {
            return None;
        }
        self.below.byte(self.start.checked_add(at)?)
    }
}

/// Copies a source to the start of a buffer; the rest of the buffer stays as it was.
pub fn copy<S: Source>(source: &S, buffer: &mut [u8]) -> Result<(), Fault> {
    let length = source.length();
    let front = usize::try_from(length)
        .ok()
        .and_then(|length| buffer.get_mut(..length));
    let Some(front) = front else {
        return Err(Fault::of_call(Cause::BufferTooShort, 0));
    };
    for (at, to) in (0..length).zip(front) {
        if let Some(byte) = source.byte(at) {
            *to = byte;
        }
    }
    Ok(())
}
