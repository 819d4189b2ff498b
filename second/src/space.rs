//! Space that is enough for the record and the list of a search over honest reports.

use crate::query::packed_size;

/// The kept strings at most, or none where n, t or the reports are outside their bounds.
fn kept(n: u64, weighted: bool, t: u64, reports: u64) -> Option<u64> {
    let most = if weighted { 2_147_483_647 } else { 65_535 };
    let within = (1..=256).contains(&n) && (1..=most).contains(&t) && reports <= 65_535;
    within.then(|| reports / holders(weighted, t))
}

/// The fewest holders of a kept prefix: each adds 1, or in a weighted search 32,767 at most.
fn holders(weighted: bool, t: u64) -> u64 {
    if weighted {
        t.div_ceil(32_767)
    } else {
        t
    }
}

/// The bytes of the head of a record.
const HEAD: u64 = 8;

/// The space of a record, or 0: the head, and each query of the longest search with its totals.
pub fn record_space(n: u64, weighted: bool, t: u64, reports: u64) -> u64 {
    let Some(kept) = kept(n, weighted, t, reports) else {
        return 0;
    };
    let mut space = HEAD;
    for length in 1..=n {
        let there_are = if length < 64 { 1 << length } else { u64::MAX };
        let asked = match length {
            1 => 2,
            _ => there_are.min(2 * kept),
        };
        if asked > 0 {
            space += 6 + asked * (packed_size(length as usize) as u64 + 8);
        }
    }
    space
}

/// The space of a list, or 0.
pub fn list_space(n: u64, weighted: bool, t: u64, reports: u64) -> u64 {
    kept(n, weighted, t, reports).map_or(0, |kept| kept * packed_size(n as usize) as u64)
}
