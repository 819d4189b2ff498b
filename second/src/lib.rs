//! The second program: document 01, and requests [1], [2] and [4] of document 02, written again,
//! plainly, by another hand.

#![forbid(unsafe_code)]

pub mod aes;
pub mod brute;
pub mod calls;
#[cfg(test)]
mod chance;
pub mod combine;
pub mod exam;
pub mod expander;
pub mod field;
pub mod judge;
pub mod kept;
pub mod key_text;
pub mod keys;
pub mod query;
pub mod rng;
pub mod search;
pub mod share;
pub mod space;
pub mod text;

pub use calls::{add_shares, block, key, share};
pub use combine::combine;
pub use exam::{exam, exam_into, respond_into};
pub use kept::{roots, share_kept};
pub use key_text::key_text;
pub use keys::Node;
pub use search::search;
pub use space::{list_space, record_space};

/// Answer of a call that writes one space.
#[derive(Clone, Copy, Debug, PartialEq, Eq)]
pub struct Reply {
    pub number: u64,
    pub length: u64,
}

/// Answer of combining; kind 0 refused, 1 next query, 2 list, 3 ended.
#[derive(Clone, Copy, Debug, PartialEq, Eq)]
pub struct Combined {
    pub number: u64,
    pub kind: u64,
    pub length: u64,
}

/// Answer of the whole search.
#[derive(Clone, Copy, Debug, PartialEq, Eq)]
pub struct Found {
    pub number: u64,
    pub record_length: u64,
    pub list_length: u64,
}
