//! The verified library, by the C interface of `include/awd.h`. This is the only unsafe code of the package.
#![allow(unsafe_code)]

use crate::interface::{
    Answer, Attribute, Attributes, Block, Call, Fault, Interface, Layers, Listing,
};

unsafe extern "C" {
    fn awd_list(document: *const u8, length: usize, blocks: *mut Block, room: usize) -> Listing;
    fn awd_replay(
        document: *const u8,
        length: usize,
        calls: *const Call,
        count: usize,
        answers: *mut Answer,
        room: usize,
    ) -> usize;
    fn awd_save(
        document: *const u8,
        length: usize,
        calls: *const Call,
        count: usize,
        buffer: *mut u8,
        room: usize,
    ) -> Fault;
    fn awd_replay_layers(
        run: *const u8,
        length: usize,
        pages: *const u16,
        page_count: usize,
        size: u64,
        start: u64,
        shown: u64,
        lower: *const Call,
        lower_count: usize,
        calls: *const Call,
        count: usize,
        answers: *mut Answer,
        room: usize,
    ) -> Fault;
    fn awd_save_layers(
        run: *const u8,
        length: usize,
        pages: *const u16,
        page_count: usize,
        size: u64,
        start: u64,
        shown: u64,
        lower: *const Call,
        lower_count: usize,
        calls: *const Call,
        count: usize,
        buffer: *mut u8,
        room: usize,
    ) -> Fault;
    fn awd_read_attributes(
        part: *const u8,
        length: usize,
        attributes: *mut Attribute,
        room: usize,
    ) -> Attributes;
    fn awd_cause_text(cause: u8, buffer: *mut u8, room: usize) -> usize;
}

/// The verified library.
#[derive(Clone, Copy, Debug)]
pub struct Library;

/// Every pointer comes from a slice with its length, and what is written to is borrowed for writing alone: nothing
/// overlaps, and no pointer is null, also where a slice is empty.
impl Interface for Library {
    fn list(&self, document: &[u8], blocks: &mut [Block]) -> Listing {
        // SAFETY: see the block above.
        unsafe {
            awd_list(
                document.as_ptr(),
                document.len(),
                blocks.as_mut_ptr(),
                blocks.len(),
            )
        }
    }

    fn replay(&self, document: &[u8], calls: &[Call], answers: &mut [Answer]) -> u64 {
        let (place, room) = (answers.as_mut_ptr(), answers.len());
        // SAFETY: see the block above.
        let count = unsafe {
            awd_replay(
                document.as_ptr(),
                document.len(),
                calls.as_ptr(),
                calls.len(),
                place,
                room,
            )
        };
        count as u64
    }

    fn save(&self, document: &[u8], calls: &[Call], buffer: &mut [u8]) -> Fault {
        let (place, room) = (buffer.as_mut_ptr(), buffer.len());
        // SAFETY: see the block above.
        unsafe {
            awd_save(
                document.as_ptr(),
                document.len(),
                calls.as_ptr(),
                calls.len(),
                place,
                room,
            )
        }
    }

    fn replay_layers(&self, below: &Layers, calls: &[Call], answers: &mut [Answer]) -> Fault {
        // SAFETY: see the block above.
        unsafe {
            awd_replay_layers(
                below.run.as_ptr(),
                below.run.len(),
                below.pages.as_ptr(),
                below.pages.len(),
                below.size,
                below.start,
                below.shown,
                below.lower.as_ptr(),
                below.lower.len(),
                calls.as_ptr(),
                calls.len(),
                answers.as_mut_ptr(),
                answers.len(),
            )
        }
    }

    fn save_layers(&self, below: &Layers, calls: &[Call], buffer: &mut [u8]) -> Fault {
        // SAFETY: see the block above.
        unsafe {
            awd_save_layers(
                below.run.as_ptr(),
                below.run.len(),
                below.pages.as_ptr(),
                below.pages.len(),
                below.size,
                below.start,
                below.shown,
                below.lower.as_ptr(),
                below.lower.len(),
                calls.as_ptr(),
                calls.len(),
                buffer.as_mut_ptr(),
                buffer.len(),
            )
        }
    }

    fn read_attributes(&self, part: &[u8], attributes: &mut [Attribute]) -> Attributes {
        let (place, room) = (attributes.as_mut_ptr(), attributes.len());
        // SAFETY: see the block above.
        unsafe { awd_read_attributes(part.as_ptr(), part.len(), place, room) }
    }

    fn cause_text(&self, cause: u8, buffer: &mut [u8]) -> u64 {
        // SAFETY: see the block above.
        let length = unsafe { awd_cause_text(cause, buffer.as_mut_ptr(), buffer.len()) };
        length as u64
    }
}
