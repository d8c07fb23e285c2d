//! A museum visitor's comment as token ids: a safe face over the proved library.
//!
//! ```
//! use soahkimal::{Fault, Unigram};
//!
//! let vocabulary = [("<unk>", 0.0), ("a", -1.0), ("b", -1.0), ("ab", -2.0)];
//! let unigram = Unigram::from_rows(&vocabulary, 0)?;
//! assert_eq!(unigram.segment("ab")?, [3]);
//! assert_eq!(unigram.segment("")?, []);
//! assert_eq!(unigram.segment(b"\xff").unwrap_err().fault, Fault::Text);
//! # Ok::<(), soahkimal::Refusal>(())
//! ```
//!
//! What the library promises is proved; this face is tested. It owns the memory that the library is lent and gives it
//! as much as it needs, so that refusals 7, 9 and 10 can't come. A trie is held privately and never changed: what was
//! sound when it was made stays sound, and is not tested again for each text. The functions as they are stand in
//! [`raw`].

#![warn(missing_docs)]

#[macro_use]
mod call;
mod pack;
#[allow(missing_docs)]
pub mod raw;
mod refusal;
mod rows;
pub mod text;
mod trie;
mod unigram;
mod wordpiece;

pub use pack::{Pack, print};
pub use refusal::{Fault, Refusal};
pub use trie::Parts;
pub use unigram::{Cutting, Record, Unigram};
pub use wordpiece::WordPiece;

/// The mark for no id: the id of a node that ends no token.
pub const NO_ID: u32 = u32::MAX;

// the page's example in Rust is run as a test
#[cfg(doctest)]
#[doc = include_str!("../../README.md")]
struct Readme;

// answers of 2^32 and more are numbers of the type usize
const _: () = assert!(size_of::<usize>() == 8);
