//! A server's share for a query in plain Rust: the sum over its reports at each prefix.

use crate::aes::{Aes, Seed};
use crate::plain_combine;
use crate::plain_idpf::{self, add, bit, node, share_below};
use tally::Reports;

/// How the prefixes of a query are reached.
#[derive(Clone, Copy)]
pub enum Walk {
    /// Every prefix is walked from the root.
    FromRoot,
    /// Two prefixes with one parent share the walk to it, as in the proved library.
    Shared,
}

impl Walk {
    /// What the way is called in the table.
    pub fn name(self) -> &'static str {
        match self {
            Walk::FromRoot => "every prefix from the root",
            Walk::Shared => "shared walk",
        }
    }
}

/// The reports of n bits that a server is lent, one by one.
fn each<'a>(n: usize, lent: Reports<'a>) -> impl Iterator<Item = (Seed, &'a [u8])> {
    let shares = lent
        .public_shares
        .chunks_exact(plain_idpf::public_share_length(n));
    lent.seeds.iter().copied().zip(shares)
}

/// Whether the reports are as laid out.
pub fn well_formed(n: usize, lent: Reports) -> bool {
    lent.public_shares.len() == lent.seeds.len() * plain_idpf::public_share_length(n)
        && each(n, lent).all(|(_, share)| plain_idpf::is_public_share(n, share))
}

/// Whether two packed prefixes of `length` bits differ in the last bit at most.
fn same_parent(first: &[u8], second: &[u8], length: usize) -> bool {
    let (bytes, bits) = ((length - 1) / 8, (length - 1) % 8);
    let differ = (first[bytes] ^ second[bytes]) as u16;
    first[..bytes] == second[..bytes] && differ >> (8 - bits) == 0
}

/// The sums over all reports at prefixes of `length` bits that have one parent; their last bits are `sides`.
fn sums_below<const N: usize>(
    aes: impl Aes,
    n: usize,
    server: bool,
    lent: Reports,
    prefix: &[u8],
    length: usize,
    sides: [bool; N],
) -> [u64; N] {
    let up = length - 1;
    each(n, lent).fold([0; N], |mut sums, (seed, share)| {
        let parent = node(aes, n, server, seed, share, prefix, up);
        for (sum, x) in sums.iter_mut().zip(sides) {
            *sum = add(*sum, share_below(aes, n, server, share, parent, up, x));
        }
        sums
    })
}

/// Writes the sums over all reports at the packed prefixes of `length` bits, 8 bytes each.
pub fn write_sums(
    aes: impl Aes,
    walk: Walk,
    n: usize,
    server: bool,
    lent: Reports,
    (length, prefixes): (usize, &[u8]),
    out: &mut [u8],
) {
    let size = length.div_ceil(8);
    let last = |prefix: &[u8]| bit(prefix, length - 1);
    for (pair, place) in prefixes.chunks(2 * size).zip(out.chunks_mut(16)) {
        let (first, second) = pair.split_at(size);
        let shared = matches!(walk, Walk::Shared) && !second.is_empty();
        if shared && same_parent(first, second, length) {
            let sides = [last(first), last(second)];
            let [x, y] = sums_below(aes, n, server, lent, first, length, sides);
            place[..8].copy_from_slice(&x.to_le_bytes());
            place[8..].copy_from_slice(&y.to_le_bytes());
            continue;
        }
        for (prefix, place) in pair.chunks(size).zip(place.chunks_mut(8)) {
            let [x] = sums_below(aes, n, server, lent, prefix, length, [last(prefix)]);
            place.copy_from_slice(&x.to_le_bytes());
        }
    }
}

/// Writes a server's share for a query after checking the reports and the query; how many bytes were written.
pub fn share(
    aes: impl Aes,
    walk: Walk,
    n: usize,
    server: bool,
    lent: Reports,
    query: &[u8],
    out: &mut [u8],
) -> Option<usize> {
    if !well_formed(n, lent) {
        return None;
    }
    let (length, count) = plain_combine::read_query(n, query)?;
    let out = out.get_mut(..8 * count)?;
    write_sums(aes, walk, n, server, lent, (length, &query[6..]), out);
    Some(8 * count)
}
