//! Minimum-delay routing, one round at a time: the five public calls of the proved library
//! (module [`library`], taken up here), a [`second`] implementation written from document 01
//! alone to compare it with, and a [`rival`] written for speed to time it against.
//!
//! Every call takes slices and answers `Ok(value)` or `Err(Refusal { number, place })`.

pub mod calls;
pub mod differ;
pub mod draft;
pub mod generate;
pub mod library;
pub mod orders;
pub mod plates;
pub mod random;
pub mod refusal;
pub mod rival;
pub mod second;

pub use library::{check, frame, house, next, play};
pub use refusal::{Answer, Refusal};

/// Bytes of the longest sheet there is: 64 nodes and 512 links.
pub const LONGEST_SHEET: usize = 4488;
/// Most nodes a sheet can have.
pub const MOST_NODES: usize = 64;
/// Most links a sheet can have.
pub const MOST_LINKS: usize = 512;
/// Bytes that Frame writes for each node.
pub const FRAME_BYTES: usize = 6;
