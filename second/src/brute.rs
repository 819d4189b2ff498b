//! Brute-force counts and sums of weights on honest collections, without keys or shares.

use crate::field::P;
use crate::query::pack;

/// How many strings begin with the prefix.
pub fn holders(strings: &[Vec<bool>], prefix: &[bool]) -> u64 {
    strings.iter().filter(|s| s.starts_with(prefix)).count() as u64
}

/// The strings held by at least t reports, ascending, each once.
pub fn heavy(strings: &[Vec<bool>], t: u64) -> Vec<Vec<bool>> {
    let mut found: Vec<Vec<bool>> = strings
        .iter()
        .filter(|s| strings.iter().filter(|other| other == s).count() as u64 >= t)
        .cloned()
        .collect();
    found.sort();
    found.dedup();
    found
}

/// Each string cut after its first prefix held fewer than t times, whole if none is; sorted.
pub fn cut(strings: &[Vec<bool>], t: u64) -> Vec<Vec<bool>> {
    let mut all: Vec<Vec<bool>> = strings.iter().map(|s| cut_one(strings, s, t)).collect();
    all.sort();
    all
}

fn cut_one(strings: &[Vec<bool>], string: &[bool], t: u64) -> Vec<bool> {
    for length in 1..string.len() {
        if holders(strings, &string[..length]) < t {
            return string[..length].to_vec();
        }
    }
    string.to_vec()
}

/// Every queried prefix with its total, level by level, ascending.
pub fn queried(strings: &[Vec<bool>], n: usize, t: u64) -> Vec<(Vec<bool>, u64)> {
    let mut all = Vec::new();
    let mut parents = vec![Vec::new()];
    for _ in 0..n {
        let mut kept = Vec::new();
        for parent in &parents {
            for last in [false, true] {
                let mut prefix: Vec<bool> = parent.clone();
                prefix.push(last);
                let total = holders(strings, &prefix);
                all.push((prefix.clone(), total));
                if total >= t {
                    kept.push(prefix);
                }
            }
        }
        parents = kept;
    }
    all
}

/// The record of an unweighted search: the number of strings, then each query with its totals.
pub fn record(strings: &[Vec<bool>], n: usize, t: u64) -> Vec<u8> {
    recorded(strings.len(), &queried(strings, n, t))
}

/// The record of so many reports in which these prefixes have these totals.
fn recorded(reports: usize, queried: &[(Vec<bool>, u64)]) -> Vec<u8> {
    let mut record = (reports as u64).to_be_bytes().to_vec();
    for level in queried.chunk_by(|(one, _), (next, _)| one.len() == next.len()) {
        record.extend((level[0].0.len() as u16 - 1).to_be_bytes());
        record.extend((level.len() as u32).to_be_bytes());
        record.extend(level.iter().flat_map(|(prefix, _)| pack(prefix)));
        record.extend(level.iter().flat_map(|(_, total)| total.to_le_bytes()));
    }
    record
}

/// A string and the weight of its report.
pub type Weighed = (Vec<bool>, i16);

/// The whole signed number that the weights of the prefix's holders add to.
pub fn weight_held(reports: &[Weighed], prefix: &[bool]) -> i64 {
    let held = reports.iter().filter(|(s, _)| s.starts_with(prefix));
    held.map(|&(_, weight)| i64::from(weight)).sum()
}

/// The weighted list: the strings all of whose non-empty prefixes' holders' weights add to t or
/// more, ascending, each once.
pub fn weighted_list(reports: &[Weighed], t: u64) -> Vec<Vec<bool>> {
    // A string that nobody holds adds to 0, which is below every t.
    let mut found: Vec<Vec<bool>> = reports.iter().map(|(string, _)| string.clone()).collect();
    found.sort();
    found.dedup();
    found.retain(|string| in_weighted_list(reports, string, t));
    found
}

/// Whether the holders' weights of each non-empty prefix of the string add to t or more.
pub fn in_weighted_list(reports: &[Weighed], string: &[bool], t: u64) -> bool {
    (1..=string.len()).all(|length| weight_held(reports, &string[..length]) >= t as i64)
}

/// Every prefix that a weighted search queries with its signed total, level by level, ascending.
pub fn weighted_queried(reports: &[Weighed], n: usize, t: u64) -> Vec<(Vec<bool>, i64)> {
    let mut all = vec![];
    let mut asked = vec![vec![false], vec![true]];
    for _ in 0..n {
        let mut next = vec![];
        for prefix in asked {
            let total = weight_held(reports, &prefix);
            if total >= t as i64 {
                next.extend([false, true].map(|last| [&prefix[..], &[last]].concat()));
            }
            all.push((prefix, total));
        }
        asked = next;
    }
    all
}

/// The record of a weighted search: the number of reports whatever their weights, then each query
/// with its totals modulo p.
pub fn weighted_record(reports: &[Weighed], n: usize, t: u64) -> Vec<u8> {
    let modulo_p = |total: i64| i128::from(total).rem_euclid(i128::from(P)) as u64;
    let queried = weighted_queried(reports, n, t).into_iter();
    let queried: Vec<(Vec<bool>, u64)> = queried
        .map(|(prefix, total)| (prefix, modulo_p(total)))
        .collect();
    recorded(reports.len(), &queried)
}

/// The record and the list of a weighted search, both packed.
pub fn weighted_answer(reports: &[Weighed], n: usize, t: u64) -> (Vec<u8>, Vec<u8>) {
    let list = weighted_list(reports, t);
    let list = list.iter().flat_map(|string| pack(string)).collect();
    (weighted_record(reports, n, t), list)
}
