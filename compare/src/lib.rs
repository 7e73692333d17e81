//! A second reader and editing session for AWD 2.1.
//!
//! It is written from `docs/FORMAT.md` alone, so that where it and the verified library answer differently, the page or
//! one of the two is wrong. It is also the yardstick of speed: safe Rust, as fast as plain code gets.
#![deny(unsafe_code)]

pub mod attributes;
mod bodies;
pub mod calls;
pub mod comparison;
mod edits;
pub mod fault;
#[cfg(feature = "library")]
pub mod ffi;
mod fields;
pub mod generate;
mod geometry;
pub mod header;
pub mod interface;
pub mod reference;
pub mod roster;
pub mod session;
pub mod source;
