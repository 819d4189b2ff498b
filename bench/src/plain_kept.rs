//! A server's share from kept nodes in plain Rust: one level down from the nodes of the last query.

use crate::aes::{Aes, Seed};
use crate::plain_combine::read_query;
use crate::plain_idpf::{add, bit, is_public_share, public_share_length, step_below};

/// A node: its seed and its control bit.
pub type Node = (Seed, bool);

/// The nodes of a server at the roots.
pub fn roots(server: bool, seeds: &[Seed]) -> Vec<Node> {
    seeds.iter().map(|&seed| (seed, server)).collect()
}

/// The packed prefix of one bit less.
fn parent(prefix: &[u8], length: usize) -> Vec<u8> {
    let mut packed = prefix.to_vec();
    packed[(length - 1) / 8] &= !(128 >> ((length - 1) % 8));
    packed.truncate((length - 1).div_ceil(8));
    packed
}

/// Of each prefix of `length` bits, the place of its parent in the last query, which has to be one bit shorter, and its last bit.
fn steps(last: &[u8], n: usize, length: usize, prefixes: &[u8]) -> Option<Vec<(usize, bool)>> {
    let last_bit = |prefix: &[u8]| bit(prefix, length - 1);
    let prefixes = prefixes.chunks_exact(length.div_ceil(8));
    if last.is_empty() {
        let steps = || prefixes.map(|prefix| (0, last_bit(prefix))).collect();
        return (length == 1).then(steps);
    }
    let (above, _) = read_query(n, last)?;
    if above + 1 != length {
        return None;
    }
    let mut parents = last[6..].chunks_exact(above.div_ceil(8)).enumerate();
    let mut at = parents.next()?;
    let mut steps = Vec::new();
    for prefix in prefixes {
        let wanted = parent(prefix, length);
        while at.1 < &wanted[..] {
            at = parents.next()?;
        }
        if at.1 != wanted {
            return None;
        }
        steps.push((at.0, last_bit(prefix)));
    }
    Some(steps)
}

/// Writes a server's share for a query after checking the public shares and both queries, and leaves the nodes of the query; how many bytes were
/// written.
#[allow(clippy::too_many_arguments)]
pub fn share_kept(
    aes: impl Aes,
    n: usize,
    server: bool,
    public_shares: &[u8],
    last: &[u8],
    query: &[u8],
    nodes: &mut Vec<Node>,
    out: &mut [u8],
) -> Option<usize> {
    let size = public_share_length(n);
    let shares = public_shares.chunks_exact(size);
    if public_shares.len() % size != 0 || !shares.clone().all(|share| is_public_share(n, share)) {
        return None;
    }
    let (length, count) = read_query(n, query)?;
    let steps = steps(last, n, length, &query[6..])?;
    let before = nodes.len() / shares.len().max(1);
    let out = out.get_mut(..8 * count)?;
    let mut sums = vec![0; count];
    let mut below = Vec::with_capacity(shares.len() * count);
    for (share, above) in shares.zip(nodes.chunks_exact(before.max(1))) {
        for (&(place, x), sum) in steps.iter().zip(&mut sums) {
            let (node, value) = step_below(aes, n, server, share, above[place], length - 1, x);
            below.push(node);
            *sum = add(*sum, value);
        }
    }
    *nodes = below;
    for (place, sum) in out.chunks_exact_mut(8).zip(sums) {
        place.copy_from_slice(&u64::to_le_bytes(sum));
    }
    Some(8 * count)
}
