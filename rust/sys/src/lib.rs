//! The functions of the proved library libcapi.a, declared once for all Rust that calls them, and the same functions on numbers and slices.
//!
//! Each unsafe block below is sound for the same reasons. The declarations agree with the library's: a slice is a pointer and a length, that of
//! nodes a pointer and a count, and the structs have C's layout. A slice's pointer is never null, its length is right, and the borrow lasts for
//! the whole call. An area that is written comes from `&mut`, so it overlaps nothing else. The library is proved, for all inputs, to do nothing
//! undefined and to return; it borrows its slices for the call alone, and what it returns are numbers. The bit of a node that it writes is a
//! `bool`. The proof does not cover the compiler's back end, nor these declarations.

mod library;

use std::fmt;

/// A node of one report at one prefix: its seed and its control bit, 17 bytes without padding. `Debug` shows neither.
#[repr(C)]
#[derive(Clone, Copy, Default, PartialEq, Eq)]
pub struct Node {
    pub seed: [u8; 16],
    pub bit: bool,
}

impl fmt::Debug for Node {
    fn fmt(&self, f: &mut fmt::Formatter<'_>) -> fmt::Result {
        f.debug_struct("Node").finish_non_exhaustive()
    }
}

/// The number of a refusal, or 0, and how many bytes were written.
#[repr(C)]
#[derive(Clone, Copy, Debug, PartialEq, Eq)]
pub struct Reply {
    pub number: u64,
    pub length: u64,
}

/// The number of a refusal, or 0; the kind of the answer; how many bytes were written.
#[repr(C)]
#[derive(Clone, Copy, Debug, PartialEq, Eq)]
pub struct CombineReply {
    pub number: u64,
    pub kind: u64,
    pub length: u64,
}

/// The number of a refusal, or 0, and how many bytes of the record and of the list were written.
#[repr(C)]
#[derive(Clone, Copy, Debug, PartialEq, Eq)]
pub struct Found {
    pub number: u64,
    pub record_length: u64,
    pub list_length: u64,
}

/// Block `j` of a seed, into `block`.
#[inline]
pub fn block(expander: u64, seed: &[u8], j: u64, block: &mut [u8]) -> Reply {
    // SAFETY: each pointer and length come from one live slice, and `block` is borrowed mutably.
    unsafe {
        library::tally_block(
            expander,
            seed.as_ptr(),
            seed.len(),
            j,
            block.as_mut_ptr(),
            block.len(),
        )
    }
}

/// The public share of a packed string with a weight, into `public_share`.
#[inline]
#[allow(clippy::too_many_arguments)]
pub fn key(
    n: u64,
    expander: u64,
    weight: i16,
    string: &[u8],
    seed0: &[u8],
    seed1: &[u8],
    public_share: &mut [u8],
) -> Reply {
    // SAFETY: each pointer and length come from one live slice, and `public_share` is borrowed mutably.
    unsafe {
        library::tally_key(
            n,
            expander,
            weight,
            string.as_ptr(),
            string.len(),
            seed0.as_ptr(),
            seed0.len(),
            seed1.as_ptr(),
            seed1.len(),
            public_share.as_mut_ptr(),
            public_share.len(),
        )
    }
}

/// A server's share for a query, into `share`.
#[inline]
pub fn share(
    n: u64,
    expander: u64,
    server: bool,
    seeds: &[u8],
    public_shares: &[u8],
    query: &[u8],
    share: &mut [u8],
) -> Reply {
    // SAFETY: each pointer and length come from one live slice, and `share` is borrowed mutably.
    unsafe {
        library::tally_share(
            n,
            expander,
            server,
            seeds.as_ptr(),
            seeds.len(),
            public_shares.as_ptr(),
            public_shares.len(),
            query.as_ptr(),
            query.len(),
            share.as_mut_ptr(),
            share.len(),
        )
    }
}

/// A list of nodes at the roots, a node for each seed, into `nodes`; the number of a refusal, or 0.
#[inline]
pub fn roots(server: bool, seeds: &[u8], nodes: &mut [Node]) -> u64 {
    // SAFETY: each pointer and length or count come from one live slice, and `nodes` is borrowed mutably.
    unsafe {
        library::tally_roots(
            server,
            seeds.as_ptr(),
            seeds.len(),
            nodes.as_mut_ptr(),
            nodes.len(),
        )
    }
}

/// A server's share for a query from the nodes kept at the last query, into `share`; the nodes of the new query, into `nodes`.
#[inline]
#[allow(clippy::too_many_arguments)]
pub fn share_kept(
    n: u64,
    expander: u64,
    server: bool,
    public_shares: &[u8],
    last_query: &[u8],
    query: &[u8],
    nodes: &mut [Node],
    share: &mut [u8],
) -> Reply {
    // SAFETY: each pointer and length or count come from one live slice; `nodes` and `share` are borrowed mutably, so they are two areas.
    unsafe {
        library::tally_share_kept(
            n,
            expander,
            server,
            public_shares.as_ptr(),
            public_shares.len(),
            last_query.as_ptr(),
            last_query.len(),
            query.as_ptr(),
            query.len(),
            nodes.as_mut_ptr(),
            nodes.len(),
            share.as_mut_ptr(),
            share.len(),
        )
    }
}

/// The sum of two shares of one server for one query, into `out`.
#[inline]
pub fn add(share0: &[u8], share1: &[u8], out: &mut [u8]) -> Reply {
    // SAFETY: each pointer and length come from one live slice, and `out` is borrowed mutably.
    unsafe {
        library::tally_add(
            share0.as_ptr(),
            share0.len(),
            share1.as_ptr(),
            share1.len(),
            out.as_mut_ptr(),
            out.len(),
        )
    }
}

/// The next query or the list of two shares for a query, into `out`; where `weighted`, totals are read as signed numbers.
#[inline]
#[allow(clippy::too_many_arguments)]
pub fn combine(
    n: u64,
    weighted: bool,
    t: u64,
    query: &[u8],
    share0: &[u8],
    share1: &[u8],
    out: &mut [u8],
) -> CombineReply {
    // SAFETY: each pointer and length come from one live slice, and `out` is borrowed mutably.
    unsafe {
        library::tally_combine(
            n,
            weighted,
            t,
            query.as_ptr(),
            query.len(),
            share0.as_ptr(),
            share0.len(),
            share1.as_ptr(),
            share1.len(),
            out.as_mut_ptr(),
            out.len(),
        )
    }
}

/// Space that is enough for the record of a search over this many honest reports; 0 where an argument is outside its bounds.
#[inline]
pub fn record_space(n: u64, weighted: bool, t: u64, reports: u64) -> u64 {
    // SAFETY: the call takes and returns numbers alone.
    unsafe { library::tally_record_space(n, weighted, t, reports) }
}

/// Space that is enough for the list of a search over this many honest reports; 0 where an argument is outside its bounds or no string can be heavy.
#[inline]
pub fn list_space(n: u64, weighted: bool, t: u64, reports: u64) -> u64 {
    // SAFETY: the call takes and returns numbers alone.
    unsafe { library::tally_list_space(n, weighted, t, reports) }
}

/// The record and the list of a whole search, into their areas; where `weighted`, totals are read as signed numbers.
#[inline]
#[allow(clippy::too_many_arguments)]
pub fn search(
    n: u64,
    weighted: bool,
    t: u64,
    expander: u64,
    seeds0: &[u8],
    public_shares0: &[u8],
    seeds1: &[u8],
    public_shares1: &[u8],
    record: &mut [u8],
    list: &mut [u8],
) -> Found {
    // SAFETY: each pointer and length come from one live slice; `record` and `list` are borrowed mutably, so they are two areas.
    unsafe {
        library::tally_search(
            n,
            weighted,
            t,
            expander,
            seeds0.as_ptr(),
            seeds0.len(),
            public_shares0.as_ptr(),
            public_shares0.len(),
            seeds1.as_ptr(),
            seeds1.len(),
            public_shares1.as_ptr(),
            public_shares1.len(),
            record.as_mut_ptr(),
            record.len(),
            list.as_mut_ptr(),
            list.len(),
        )
    }
}

/// The answer to an exam text, into `out`.
#[inline]
pub fn exam(text: &[u8], out: &mut [u8]) -> Reply {
    // SAFETY: each pointer and length come from one live slice, and `out` is borrowed mutably.
    unsafe { library::tally_exam(text.as_ptr(), text.len(), out.as_mut_ptr(), out.len()) }
}

/// The whole output for an exam text, the answer or the line of the refusal, into `out`; the number is then 0 for both.
#[inline]
pub fn respond(text: &[u8], out: &mut [u8]) -> Reply {
    // SAFETY: each pointer and length come from one live slice, and `out` is borrowed mutably.
    unsafe { library::tally_respond(text.as_ptr(), text.len(), out.as_mut_ptr(), out.len()) }
}
