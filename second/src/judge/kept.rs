//! The number with which the share from kept nodes refuses, or 0, and that of the list at the roots.

use super::{
    control_spare_clear, every_public_share, expander_known, fits, packed_bytes, payloads_in_group,
    public_share_bytes, query_shape, share_bytes, string_bits, whole_count, MOST_REPORTS,
    QUERY_HEAD_BYTES, SEED_BYTES,
};

/// The prefix length and count of the last query, whose no bytes are the empty prefix alone.
fn last_shape(n: u64, last_query: &[u8]) -> Option<(usize, usize)> {
    if last_query.is_empty() {
        Some((0, 1))
    } else {
        query_shape(n, last_query)
    }
}

/// Whether the lent nodes are at least `reports` × `count` (cause 13's opposite for one query).
fn enough(nodes: usize, reports: usize, count: usize) -> bool {
    reports
        .checked_mul(count)
        .is_some_and(|needed| needed <= nodes)
}

/// The packed prefixes of a query that passed 9.
fn prefixes(query: &[u8], prefix_length: usize) -> Vec<&[u8]> {
    query[QUERY_HEAD_BYTES..]
        .chunks_exact(packed_bytes(prefix_length))
        .collect()
}

/// Whether the first `bits` bits of two packed prefixes are the same.
fn begin_alike(bits: usize, one: &[u8], other: &[u8]) -> bool {
    let (whole, rest) = (bits / 8, bits % 8);
    one[..whole] == other[..whole]
        && (rest == 0 || (one[whole] ^ other[whole]).leading_zeros() as usize >= rest)
}

/// Whether every prefix has its parent in the last query (cause 14's opposite).
fn parents_asked(last: (&[u8], usize), new: (&[u8], usize)) -> bool {
    let ((last_query, last_length), (query, prefix_length)) = (last, new);
    if prefix_length != last_length + 1 {
        return false;
    }
    if last_length == 0 {
        return true;
    }
    // Both queries ascend, so a parent is never before that of the prefix before.
    let asked = prefixes(last_query, last_length);
    let mut from = 0;
    prefixes(query, prefix_length).into_iter().all(|prefix| {
        let at = (from..asked.len()).find(|&at| begin_alike(last_length, asked[at], prefix));
        from = at.unwrap_or(asked.len());
        at.is_some()
    })
}

/// The number with which a server's share for a query from kept nodes refuses, or 0.
#[allow(clippy::too_many_arguments)]
#[must_use]
pub fn share_kept(
    n: u64,
    expander: u64,
    _server: bool,
    public_shares: &[u8],
    last_query: &[u8],
    query: &[u8],
    nodes: usize,
    space: usize,
) -> u64 {
    let Some(bits) = string_bits(n) else {
        return 1;
    };
    if !expander_known(expander) {
        return 3;
    }
    let size = public_share_bytes(bits);
    let Some(reports) = size.and_then(|size| whole_count(public_shares, size)) else {
        return 4;
    };
    if reports > MOST_REPORTS {
        return 5;
    }
    if !every_public_share(bits, public_shares, payloads_in_group) {
        return 6;
    }
    if !every_public_share(bits, public_shares, control_spare_clear) {
        return 7;
    }
    let Some((last_length, last_count)) = last_shape(n, last_query) else {
        return 9;
    };
    let Some((prefix_length, count)) = query_shape(n, query) else {
        return 9;
    };
    if !enough(nodes, reports, last_count) || !enough(nodes, reports, count) {
        return 13;
    }
    if !parents_asked((last_query, last_length), (query, prefix_length)) {
        return 14;
    }
    if !fits(share_bytes(count), space) {
        return 11;
    }
    0
}

/// The number with which the list at the roots refuses, or 0.
#[must_use]
pub fn roots(seeds: &[u8], nodes: usize) -> u64 {
    let Some(reports) = whole_count(seeds, SEED_BYTES) else {
        return 4;
    };
    if reports > MOST_REPORTS {
        return 5;
    }
    if !enough(nodes, reports, 1) {
        return 13;
    }
    0
}
