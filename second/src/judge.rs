//! The number with which each of document 01's four calls refuses, or 0, with requests [1] and [4]
//! of document 02; so too for adding two shares of one server, which document 01 does not have. The
//! calls of request [2] stand in `judge/kept.rs`.

mod kept;

pub use kept::{roots, share_kept};

/// The group's modulus p.
pub const P: u64 = 18_446_744_069_414_584_321;
/// The greatest string length n in bits.
pub const MOST_BITS: usize = 256;
/// The greatest threshold t of an unweighted search.
pub const MOST_THRESHOLD: u64 = 65_535;
/// The greatest threshold t of a weighted search.
pub const MOST_WEIGHTED_THRESHOLD: u64 = 2_147_483_647;
/// The greatest number of reports C.
pub const MOST_REPORTS: usize = 65_535;
/// The greatest number of prefixes in one query.
pub const MOST_PREFIXES: usize = 131_070;
/// The bytes of one seed.
pub const SEED_BYTES: usize = 16;
/// The bytes of one group number on the wire.
pub const NUMBER_BYTES: usize = 8;
/// The bytes of one level's seed correction and payload correction.
pub const LEVEL_BYTES: usize = 24;
/// The bytes of a query before its prefixes.
pub const QUERY_HEAD_BYTES: usize = 6;
/// The bytes of a record before its first query: the number of reports.
pub const RECORD_HEAD_BYTES: usize = 8;

/// The bytes of a packed string or prefix of `bits` bits.
#[must_use]
pub fn packed_bytes(bits: usize) -> usize {
    bits.div_ceil(8)
}

/// The bytes of the control bits in a public share for strings of `bits` bits.
#[must_use]
pub fn control_bytes(bits: usize) -> usize {
    bits.div_ceil(4)
}

/// The bytes of one public share for strings of `bits` bits, where a `usize` holds them.
#[must_use]
pub fn public_share_bytes(bits: usize) -> Option<usize> {
    bits.checked_mul(LEVEL_BYTES)?
        .checked_add(control_bytes(bits))
}

/// The bytes of a query of `count` prefixes, where a `usize` holds them.
#[must_use]
pub fn query_bytes(prefix_length: usize, count: usize) -> Option<usize> {
    list_bytes(prefix_length, count)?.checked_add(QUERY_HEAD_BYTES)
}

/// The bytes of a share, or of the totals, for `count` prefixes, where a `usize` holds them.
#[must_use]
pub fn share_bytes(count: usize) -> Option<usize> {
    count.checked_mul(NUMBER_BYTES)
}

/// The bytes of `count` packed strings of `bits` bits, where a `usize` holds them.
#[must_use]
pub fn list_bytes(bits: usize, count: usize) -> Option<usize> {
    count.checked_mul(packed_bytes(bits))
}

/// Whether something of `needed` bytes fits a lent space of `space` bytes.
fn fits(needed: Option<usize>, space: usize) -> bool {
    needed.is_some_and(|bytes| bytes <= space)
}

/// The string length n as a size, or nothing where it is outside its bounds (cause 1).
fn string_bits(n: u64) -> Option<usize> {
    usize::try_from(n)
        .ok()
        .filter(|bits| (1..=MOST_BITS).contains(bits))
}

/// The cause of a threshold outside its bounds: 2, and 12 in its place in a weighted search.
fn threshold_cause(weighted: bool, t: u64) -> Option<u64> {
    let (most, cause) = if weighted {
        (MOST_WEIGHTED_THRESHOLD, 12)
    } else {
        (MOST_THRESHOLD, 2)
    };
    (t == 0 || t > most).then_some(cause)
}

/// Whether the expander is 1 or 2 (cause 3's opposite).
fn expander_known(expander: u64) -> bool {
    expander == 1 || expander == 2
}

/// How many things of `size` bytes the lent bytes hold, where it is a whole number.
fn whole_count(bytes: &[u8], size: usize) -> Option<usize> {
    if size != 0 && bytes.len().is_multiple_of(size) {
        Some(bytes.len() / size)
    } else {
        None
    }
}

/// The number of reports one server is lent, where lengths and counts agree (cause 4's opposite).
fn report_count(bits: usize, seeds: &[u8], public_shares: &[u8]) -> Option<usize> {
    let of_seeds = whole_count(seeds, SEED_BYTES)?;
    let of_shares = whole_count(public_shares, public_share_bytes(bits)?)?;
    (of_seeds == of_shares).then_some(of_seeds)
}

/// The group numbers of a share in order.
fn numbers(share: &[u8]) -> impl Iterator<Item = u64> + '_ {
    let (chunks, _) = share.as_chunks::<NUMBER_BYTES>();
    chunks.iter().map(|bytes| u64::from_le_bytes(*bytes))
}

/// Whether every number of a share is below p (cause 6's opposite for a share).
fn share_numbers_in_group(share: &[u8]) -> bool {
    numbers(share).all(|number| number < P)
}

/// Whether every payload correction of one public share is below p (cause 6's opposite).
fn payloads_in_group(bits: usize, public_share: &[u8]) -> bool {
    let levels = public_share.get(control_bytes(bits)..).unwrap_or_default();
    levels
        .chunks_exact(LEVEL_BYTES)
        .all(|level| share_numbers_in_group(&level[SEED_BYTES..]))
}

/// Whether the spare control bits of one public share are zero (cause 7's opposite).
fn control_spare_clear(bits: usize, public_share: &[u8]) -> bool {
    let used = bits % 4 * 2;
    used == 0
        || public_share
            .get(control_bytes(bits) - 1)
            .is_none_or(|byte| byte >> used == 0)
}

/// Whether the spare bits of a packed string or prefix are zero (for a string cause 7's opposite).
fn packed_spare_clear(bits: usize, packed: &[u8]) -> bool {
    let used = bits % 8;
    used == 0 || packed.last().is_none_or(|byte| byte << used == 0)
}

/// Whether a condition on one public share holds of all the lent ones.
fn every_public_share(bits: usize, public_shares: &[u8], holds: fn(usize, &[u8]) -> bool) -> bool {
    public_share_bytes(bits)
        .filter(|size| *size != 0)
        .is_none_or(|size| public_shares.chunks_exact(size).all(|one| holds(bits, one)))
}

/// The prefix length and count of a query as laid out and within its limits (cause 9's opposite).
fn query_shape(n: u64, query: &[u8]) -> Option<(usize, usize)> {
    let (&[l1, l0, c3, c2, c1, c0], prefixes) = query.split_first_chunk::<QUERY_HEAD_BYTES>()?;
    let prefix_length = u32::from(u16::from_be_bytes([l1, l0])) + 1;
    if u64::from(prefix_length) > n {
        return None;
    }
    let prefix_length = usize::try_from(prefix_length).ok()?;
    let count = usize::try_from(u32::from_be_bytes([c3, c2, c1, c0])).ok()?;
    if !(1..=MOST_PREFIXES).contains(&count) {
        return None;
    }
    if list_bytes(prefix_length, count) != Some(prefixes.len()) {
        return None;
    }
    let size = packed_bytes(prefix_length);
    let each = || prefixes.chunks_exact(size);
    let clear = each().all(|prefix| packed_spare_clear(prefix_length, prefix));
    let ascending = each().zip(each().skip(1)).all(|(one, next)| one < next);
    (clear && ascending).then_some((prefix_length, count))
}

/// Whether a query is as laid out and within its limits for strings of n bits (cause 9's opposite).
#[must_use]
pub fn query_as_laid_out(n: u64, query: &[u8]) -> bool {
    query_shape(n, query).is_some()
}

/// The sum of two group numbers modulo p.
fn total(one: u64, other: u64) -> u128 {
    (u128::from(one) + u128::from(other)) % u128::from(P)
}

/// Whether a total reaches t; in a weighted search those of the upper half are negative.
fn kept(weighted: bool, t: u64, total: u128) -> bool {
    let lower_half = 2 * total < u128::from(P);
    total >= u128::from(t) && (lower_half || !weighted)
}

/// How many prefixes are kept at threshold t, given both servers' shares.
fn kept_count(weighted: bool, t: u64, share0: &[u8], share1: &[u8]) -> usize {
    numbers(share0)
        .zip(numbers(share1))
        .filter(|(one, other)| kept(weighted, t, total(*one, *other)))
        .count()
}

/// Whether a level's query and totals fit the record area after the head and the `used` bytes of
/// the levels before (false: 11).
#[must_use]
pub fn level_fits(record_space: usize, used: usize, prefix_length: usize, count: usize) -> bool {
    let query = query_bytes(prefix_length, count);
    let level = query.and_then(|bytes| bytes.checked_add(share_bytes(count)?));
    let levels = level.and_then(|bytes| bytes.checked_add(used));
    let record = levels.and_then(|bytes| bytes.checked_add(RECORD_HEAD_BYTES));
    fits(record, record_space)
}

/// Whether a next query of `count` prefixes keeps to the most prefixes of one query (false: 11).
#[must_use]
pub fn next_passes(count: usize) -> bool {
    count <= MOST_PREFIXES
}

/// Whether a list of `count` strings of n bits fits the list area (false: 11).
#[must_use]
pub fn list_fits(list_space: usize, n: usize, count: usize) -> bool {
    fits(list_bytes(n, count), list_space)
}

/// The number with which the key maker refuses, or 0.
#[must_use]
pub fn key(n: u64, expander: u64, string: &[u8], seed0: &[u8], seed1: &[u8], space: usize) -> u64 {
    let Some(bits) = string_bits(n) else {
        return 1;
    };
    if !expander_known(expander) {
        return 3;
    }
    if string.len() != packed_bytes(bits) || seed0.len() != SEED_BYTES || seed1.len() != SEED_BYTES
    {
        return 4;
    }
    if !packed_spare_clear(bits, string) {
        return 7;
    }
    if !fits(public_share_bytes(bits), space) {
        return 11;
    }
    0
}

/// The number with which a server's share for one query refuses, or 0.
#[must_use]
pub fn share(
    n: u64,
    expander: u64,
    _server: bool,
    seeds: &[u8],
    public_shares: &[u8],
    query: &[u8],
    space: usize,
) -> u64 {
    let Some(bits) = string_bits(n) else {
        return 1;
    };
    if !expander_known(expander) {
        return 3;
    }
    let Some(reports) = report_count(bits, seeds, public_shares) else {
        return 4;
    };
    if reports > MOST_REPORTS {
        return 5;
    }
    if !every_public_share(bits, public_shares, payloads_in_group) {
        return 6;
    }
    if !every_public_share(bits, public_shares, control_spare_clear) {
        return 7;
    }
    let Some((_, count)) = query_shape(n, query) else {
        return 9;
    };
    if !fits(share_bytes(count), space) {
        return 11;
    }
    0
}

/// The number with which combining refuses, or 0.
#[must_use]
pub fn combine(
    n: u64,
    weighted: bool,
    t: u64,
    query: &[u8],
    share0: &[u8],
    share1: &[u8],
    space: usize,
) -> u64 {
    let Some(bits) = string_bits(n) else {
        return 1;
    };
    if let Some(cause) = threshold_cause(weighted, t) {
        return cause;
    }
    let Some(lent) = whole_count(share0, NUMBER_BYTES).filter(|_| share0.len() == share1.len())
    else {
        return 4;
    };
    let shape = query_shape(n, query);
    if shape.is_some_and(|(_, count)| count != lent) {
        return 4;
    }
    if !share_numbers_in_group(share0) || !share_numbers_in_group(share1) {
        return 6;
    }
    let Some((prefix_length, _)) = shape else {
        return 9;
    };
    let kept = kept_count(weighted, t, share0, share1);
    let written = if prefix_length == bits {
        list_bytes(bits, kept)
    } else if kept == 0 {
        Some(0)
    } else {
        kept.checked_mul(2)
            .filter(|next| next_passes(*next))
            .and_then(|next| query_bytes(prefix_length + 1, next))
    };
    if !fits(written, space) {
        return 11;
    }
    0
}

/// The number with which adding two shares of one server refuses, or 0.
#[must_use]
pub fn add(share0: &[u8], share1: &[u8], space: usize) -> u64 {
    let Some(count) = whole_count(share0, NUMBER_BYTES).filter(|_| share0.len() == share1.len())
    else {
        return 4;
    };
    if !share_numbers_in_group(share0) || !share_numbers_in_group(share1) {
        return 6;
    }
    if !fits(share_bytes(count), space) {
        return 11;
    }
    0
}

/// The number with which the whole search refuses for any cause other than 11, or 0.
#[allow(clippy::too_many_arguments)]
#[must_use]
pub fn search(
    n: u64,
    weighted: bool,
    t: u64,
    expander: u64,
    seeds0: &[u8],
    public_shares0: &[u8],
    seeds1: &[u8],
    public_shares1: &[u8],
    _record_space: usize,
    _list_space: usize,
) -> u64 {
    let Some(bits) = string_bits(n) else {
        return 1;
    };
    if let Some(cause) = threshold_cause(weighted, t) {
        return cause;
    }
    if !expander_known(expander) {
        return 3;
    }
    let Some(reports) = report_count(bits, seeds0, public_shares0) else {
        return 4;
    };
    if report_count(bits, seeds1, public_shares1) != Some(reports) {
        return 4;
    }
    if reports > MOST_REPORTS {
        return 5;
    }
    if !every_public_share(bits, public_shares0, payloads_in_group)
        || !every_public_share(bits, public_shares1, payloads_in_group)
    {
        return 6;
    }
    if !every_public_share(bits, public_shares0, control_spare_clear)
        || !every_public_share(bits, public_shares1, control_spare_clear)
    {
        return 7;
    }
    if public_shares0 != public_shares1 {
        return 8;
    }
    0
}
