//! Lengths in bytes, and space that is enough for a call.

use crate::read::laid_out;
use crate::{Expander, Settings, BITS_MOST, PREFIXES_MOST};

/// How many bytes a packed string or prefix of that many bits takes.
///
/// It is 0 for more than 256 bits, which a call refuses before it looks at the space.
///
/// ```
/// assert_eq!(tally::packed_length(9), 2);
/// assert_eq!(tally::packed_length(257), 0);
/// ```
pub fn packed_length(bits: u64) -> usize {
    if bits <= BITS_MOST {
        bits.div_ceil(8) as usize
    } else {
        0
    }
}

/// How many bytes the public share of one report of n bits has: ⌈n ÷ 4⌉ + 24 × n.
///
/// It is 0 where n is not from 1 to 256, which a call refuses before it looks at the space.
///
/// ```
/// assert_eq!(tally::public_share_length(1), 25);
/// assert_eq!(tally::public_share_length(256), 6208);
/// assert_eq!(tally::public_share_length(0), 0);
/// assert_eq!(tally::public_share_length(257), 0);
/// ```
pub fn public_share_length(n: u64) -> usize {
    if n <= BITS_MOST {
        (n.div_ceil(4) + 24 * n) as usize
    } else {
        0
    }
}

/// How many bytes a query of that many prefixes of that many bits has.
///
/// It is 0 where the bits are not from 1 to 256 or the prefixes not from 1 to 131,070: there is no such query.
///
/// ```
/// assert_eq!(tally::query_length(1, 2), tally::FIRST_QUERY.len());
/// assert_eq!(tally::query_length(257, 2), 0);
/// assert_eq!(tally::query_length(1, 0), 0);
/// ```
pub fn query_length(bits: u64, prefixes: usize) -> usize {
    if (1..=BITS_MOST).contains(&bits) && (1..=PREFIXES_MOST).contains(&prefixes) {
        6 + prefixes * packed_length(bits)
    } else {
        0
    }
}

/// How many bytes a server's share for a query has: 8 for each prefix.
///
/// It is 0 where the query's fields are outside their bounds or its own length is not what they say, which a call refuses before it looks at the
/// space.
///
/// ```
/// assert_eq!(tally::share_length(&tally::FIRST_QUERY), 16);
/// assert_eq!(tally::share_length(&tally::FIRST_QUERY[..7]), 0);
/// ```
pub fn share_length(query: &[u8]) -> usize {
    laid_out(query).map_or(0, |(_, prefixes)| 8 * prefixes)
}

/// Space that is enough for what combining answers to a query: the next query if all prefixes are kept, or at length n the list.
///
/// It is 0 where n is not from 1 to 256, the prefixes are longer than n, the query's fields are outside their bounds or its own length is not what
/// they say, which combining refuses before it looks at the space.
///
/// ```
/// assert_eq!(tally::answer_space(2, &tally::FIRST_QUERY), 6 + 4);
/// assert_eq!(tally::answer_space(1, &tally::FIRST_QUERY), 2);
/// assert_eq!(tally::answer_space(0, &tally::FIRST_QUERY), 0);
/// assert_eq!(tally::answer_space(257, &tally::FIRST_QUERY), 0);
/// ```
pub fn answer_space(n: u64, query: &[u8]) -> usize {
    match laid_out(query) {
        Some((bits, prefixes)) if bits == n => prefixes * packed_length(n),
        Some((bits, prefixes)) if bits < n && n <= BITS_MOST => {
            query_length(bits + 1, PREFIXES_MOST.min(2 * prefixes))
        }
        _ => 0,
    }
}

/// Space that is enough for the record of a search over honest reports, as the proved library counts it.
///
/// The number of reports takes 8 bytes, [`HEADING_LENGTH`](crate::HEADING_LENGTH). The first query has two prefixes; a later one has at most two
/// for each of the ⌊reports ÷ t⌋ that can be kept, and never more than there are. A level takes 6 bytes for the two fields of its query, and for
/// each prefix its packed bits and a total of 8 bytes. Ill-formed reports may need more.
///
/// It is 0 where n, t or the number of reports is outside its bounds, which a search refuses before it looks at the space; within them it is
/// never below 32, so that 0 means outside, and never above 803,460,134.
///
/// ```
/// assert_eq!(tally::record_space(2, 2, 3), 56);
/// assert_eq!(tally::record_space(0, 1, 1), 0);
/// assert_eq!(tally::record_space(1, 65_535, 0), 32);
/// assert_eq!(tally::record_space(256, 1, 65_535), 803_460_134);
/// ```
pub fn record_space(n: u64, t: u64, reports: usize) -> usize {
    Settings::new(n, t, Expander::Aes).record_space(reports)
}

/// Space that is enough for the list of a search over honest reports, as the proved library counts it: ⌊reports ÷ t⌋ packed strings, not cut to
/// the 2^n strings that there are.
///
/// It is 0 where n, t or the number of reports is outside its bounds, which a search refuses before it looks at the space; also where t is more
/// than the reports, which is no error: the list is then empty. It is never above 2,097,120.
///
/// ```
/// assert_eq!(tally::list_space(16, 5, 12), 4);
/// assert_eq!(tally::list_space(0, 1, 1), 0);
/// assert_eq!(tally::list_space(16, 5, 4), 0);
/// assert_eq!(tally::list_space(256, 1, 65_535), 2_097_120);
/// ```
pub fn list_space(n: u64, t: u64, reports: usize) -> usize {
    Settings::new(n, t, Expander::Aes).list_space(reports)
}

impl Settings {
    /// Space that is enough for the record of a search over honest reports, as [`record_space`] says; in a weighted search at most
    /// ⌊reports ÷ ⌈t ÷ 32,767⌉⌋ prefixes of one length are kept, since a weight is at most 32,767, and t may be as large as 2,147,483,647.
    ///
    /// ```
    /// use tally::{Expander, Settings};
    ///
    /// let settings = Settings::new(3, 1_000, Expander::Aes);
    /// assert_eq!(settings.record_space(6), 8 + 24);
    /// assert_eq!(settings.weighted().record_space(6), 8 + 24 + 42 + 78);
    /// ```
    pub fn record_space(&self, reports: usize) -> usize {
        tally_sys::record_space(self.n, self.weighted, self.threshold, reports as u64) as usize
    }

    /// Space that is enough for the list of a search over honest reports, as [`list_space`] says; in a weighted search that of
    /// ⌊reports ÷ ⌈t ÷ 32,767⌉⌋ packed strings.
    ///
    /// ```
    /// use tally::{Expander, Settings};
    ///
    /// let settings = Settings::new(3, 1_000, Expander::Aes);
    /// assert_eq!(settings.list_space(6), 0);
    /// assert_eq!(settings.weighted().list_space(6), 6);
    /// ```
    pub fn list_space(&self, reports: usize) -> usize {
        tally_sys::list_space(self.n, self.weighted, self.threshold, reports as u64) as usize
    }
}
