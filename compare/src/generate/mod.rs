//! Documents, calls, layers and attribute parts by docs/FORMAT.md: lawful ones, ones with one fault that is aimed at,
//! and random ones. All of it comes again from the same seed.

pub mod author;
mod bodies;
pub mod calls;
pub mod damage;
pub mod document;
pub mod extremes;
pub mod flaws;
pub mod geometry;
pub mod layers;
pub mod noise;
pub mod parts;
pub mod random;
pub mod writer;
