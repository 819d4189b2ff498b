//! Reading queries, shares, records and lists. This is plain Rust beside the proved library.

use crate::{packed_length, BITS_MOST, GROUP_ORDER, HEADING_LENGTH, PREFIXES_MOST};

/// The number of reports with which a record begins, and what follows it.
pub(crate) fn headed(record: &[u8]) -> Option<(u64, &[u8])> {
    let (heading, after) = record.split_first_chunk::<HEADING_LENGTH>()?;
    Some((u64::from_be_bytes(*heading), after))
}

/// The prefix length and the count that stand in the two fields of a query.
fn fields(bytes: &[u8]) -> Option<(u64, usize)> {
    let [a, b, c, d, e, f] = *bytes.first_chunk::<6>()?;
    let bits = u64::from(u16::from_be_bytes([a, b])) + 1;
    let prefixes = usize::try_from(u32::from_be_bytes([c, d, e, f])).ok()?;
    let within = bits <= BITS_MOST && (1..=PREFIXES_MOST).contains(&prefixes);
    within.then_some((bits, prefixes))
}

/// The prefix length and the count of a query whose own length is what its fields say.
pub(crate) fn laid_out(query: &[u8]) -> Option<(u64, usize)> {
    fields(query).filter(|&(bits, prefixes)| query.len() == crate::query_length(bits, prefixes))
}

/// The group numbers of some bytes, 8 bytes each.
pub(crate) fn numbers(bytes: &[u8]) -> impl Iterator<Item = u64> + '_ {
    bytes.chunks_exact(8).map(|eight| {
        let number = eight.iter().rev();
        number.fold(0, |high, &byte| high << 8 | u64::from(byte))
    })
}

/// How many bits each prefix of a query has; `None` where the query's length is not what its two fields say.
///
/// ```
/// assert_eq!(tally::prefix_bits(&tally::FIRST_QUERY), Some(1));
/// ```
pub fn prefix_bits(query: &[u8]) -> Option<u64> {
    laid_out(query).map(|(bits, _)| bits)
}

/// The packed prefixes of a query, in order; none where the query's length is not what its two fields say.
///
/// ```
/// let prefixes: Vec<&[u8]> = tally::prefixes(&tally::FIRST_QUERY).collect();
/// assert_eq!(prefixes, [[0x00], [0x80]]);
/// ```
pub fn prefixes(query: &[u8]) -> impl Iterator<Item = &[u8]> {
    let (size, packed) = match laid_out(query) {
        Some((bits, _)) => (packed_length(bits), query.get(6..).unwrap_or_default()),
        None => (1, &[][..]),
    };
    packed.chunks_exact(size)
}

/// The packed strings of n bits of a list, in order; none where n is outside its bounds.
///
/// ```
/// let strings: Vec<&[u8]> = tally::strings(9, &[0x01, 0x80, 0xff, 0x00]).collect();
/// assert_eq!(strings, [[0x01, 0x80], [0xff, 0x00]]);
/// ```
pub fn strings(n: u64, list: &[u8]) -> impl Iterator<Item = &[u8]> {
    let size = packed_length(n);
    let held = if size == 0 { &[] } else { list };
    held.chunks_exact(size.max(1))
}

/// The first bits of a packed string as digits `0` and `1`; no more digits than the bytes hold.
///
/// ```
/// assert_eq!(tally::digits(3, &[0b0110_0000]), "011");
/// ```
pub fn digits(bits: u64, packed: &[u8]) -> String {
    let bytes = packed.iter();
    let all = bytes.flat_map(|byte| (0..8).map(move |i| byte << i & 0x80 != 0));
    let wanted = usize::try_from(bits).unwrap_or(usize::MAX);
    all.take(wanted)
        .map(|bit| if bit { '1' } else { '0' })
        .collect()
}

/// The totals of two servers' shares for one query: their numbers added place by place, modulo p.
///
/// ```
/// // 6 and p − 5 add to 1.
/// let share0 = 6u64.to_le_bytes();
/// let share1 = (tally::GROUP_ORDER - 5).to_le_bytes();
/// assert_eq!(tally::totals(&share0, &share1), [1]);
/// ```
pub fn totals(share0: &[u8], share1: &[u8]) -> Vec<u64> {
    let sum = |(a, b): (u64, u64)| (u128::from(a) + u128::from(b)) % u128::from(GROUP_ORDER);
    let sums = numbers(share0).zip(numbers(share1)).map(sum);
    sums.map(|total| total as u64).collect()
}

/// A total as a weighted search reads it: up to (p − 1) ÷ 2 as itself, a larger one as itself minus p, also p and above, which are no totals.
///
/// ```
/// use tally::{signed_total, GROUP_ORDER};
///
/// assert_eq!((signed_total(5), signed_total(GROUP_ORDER - 5)), (5, -5));
/// ```
pub fn signed_total(total: u64) -> i64 {
    if total <= (GROUP_ORDER - 1) / 2 {
        total as i64
    } else {
        // The difference, between −(p − 1) ÷ 2 and 2^32 − 2, is what is left of 64 bits, read as an `i64`.
        total.wrapping_sub(GROUP_ORDER) as i64
    }
}

/// One level of a record: a query, and the total of each of its prefixes.
#[derive(Clone, Copy, Debug, PartialEq, Eq)]
pub struct Level<'a> {
    /// How many bits each prefix has.
    pub bits: u64,
    /// The query.
    pub query: &'a [u8],
    /// The totals, 8 bytes each.
    pub totals: &'a [u8],
}

impl<'a> Level<'a> {
    /// Each prefix, packed, with its total.
    ///
    /// ```
    /// # use tally::*;
    /// let none = Reports { seeds: &[], public_shares: &[] };
    /// let found = search(1, 1, Expander::Aes, none, none)?;
    /// let level = levels(&found.record).next().unwrap();
    /// let counted: Vec<(&[u8], u64)> = level.counted().collect();
    /// assert_eq!(counted, [(&[0x00][..], 0), (&[0x80][..], 0)]);
    /// # Ok::<(), Refusal>(())
    /// ```
    pub fn counted(&self) -> impl Iterator<Item = (&'a [u8], u64)> {
        prefixes(self.query).zip(numbers(self.totals))
    }

    /// Each prefix, packed, with its total as a weighted search reads it.
    pub fn weighed(&self) -> impl Iterator<Item = (&'a [u8], i64)> {
        prefixes(self.query).zip(numbers(self.totals).map(signed_total))
    }
}

/// The levels of a record, which stand behind the number of reports, in order; they end where the bytes are no level.
///
/// Lend the bytes up to the record length: in a longer area the levels go on as long as what an earlier search left reads as one.
///
/// The number of reports is passed over without a look at it. A record stored before version 0.5.0 has none, so that its first query is passed over
/// instead; where its first total is at most 65,535 there are then no levels, and no error says so. [`Record`](crate::Record) takes no such record.
///
/// ```
/// # use tally::*;
/// let none = Reports { seeds: &[], public_shares: &[] };
/// let found = search(1, 1, Expander::Aes, none, none)?;
/// for level in levels(&found.record) {
///     for (prefix, total) in level.counted() {
///         println!("{} {total}", digits(level.bits, prefix));
///     }
/// }
/// # Ok::<(), Refusal>(())
/// ```
pub fn levels(record: &[u8]) -> impl Iterator<Item = Level<'_>> {
    let mut left = headed(record).map_or(&[][..], |(_, levels)| levels);
    std::iter::from_fn(move || {
        let (bits, prefixes) = fields(left)?;
        let (query, after) = left.split_at_checked(crate::query_length(bits, prefixes))?;
        let (totals, after) = after.split_at_checked(8 * prefixes)?;
        left = after;
        Some(Level {
            bits,
            query,
            totals,
        })
    })
}
