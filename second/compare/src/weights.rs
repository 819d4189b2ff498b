//! Makers of weights, of weighted collections and of thresholds for both kinds of search.

use crate::make::{strings, Reports};
use second::brute::{weight_held, Weighed};
use second::field::P;
use second::rng::Rng;

/// The greatest threshold of a search, unweighted and weighted.
pub const MOST: [u64; 2] = [65_535, 2_147_483_647];

/// The greatest total that reads as itself in a weighted search.
pub const HALF: u64 = (P - 1) / 2;

/// Thresholds around both bounds, and such as a narrower number would cut.
pub const AROUND: [u64; 22] = [
    0,
    1,
    2,
    32_767,
    32_768,
    65_534,
    65_535,
    65_536,
    65_537,
    131_072,
    MOST[1] - 1,
    MOST[1],
    MOST[1] + 1,
    MOST[1] + 2,
    u32::MAX as u64,
    1 << 32,
    (1 << 32) + 1,
    HALF,
    P - 1,
    1 << 63,
    (1 << 63) + 1,
    u64::MAX,
];

/// The number that a threshold gives, or 0.
pub fn threshold_number(weighted: bool, t: u64) -> u64 {
    if t > 0 && t <= MOST[weighted as usize] {
        return 0;
    }
    if weighted {
        12
    } else {
        2
    }
}

/// Any weight, often a small one or one at an end.
pub fn weight(rng: &mut Rng) -> i16 {
    let any = rng.number() as i16;
    let small = rng.below(11) as i16 - 4;
    let end = rng.pick(&[-32_768, -32_767, -1, 0, 1, 32_766, 32_767]);
    rng.pick(&[small, small, end, any])
}

pub fn good_t(rng: &mut Rng, weighted: bool) -> u64 {
    let most = MOST[weighted as usize];
    let any = 1 + rng.number() % most;
    let middle = if weighted {
        rng.pick(&[32_767, 32_768, 65_536, 65_537, 2_147_385_345])
    } else {
        2
    };
    rng.pick(&[1, 1, 2, 3, 4, middle, most - 1, most, any])
}

pub fn bad_t(rng: &mut Rng, weighted: bool) -> u64 {
    let past = MOST[weighted as usize] + 1;
    let wild = rng.number() | past.next_power_of_two();
    rng.pick(&[0, 0, past, past + 1, 1 << 32, 1 << 63, u64::MAX, wild])
}

/// Strings with many in common and their weights: all small, or any.
pub fn weighed(rng: &mut Rng, n: usize, count: usize) -> Vec<Weighed> {
    let small = rng.coin();
    let mut all = Vec::new();
    for string in strings(rng, n, count) {
        let near = rng.below(9) as i16 - 3;
        let any = weight(rng);
        all.push((string, if small { near } else { any }));
    }
    all
}

/// A threshold of a weighted search, often one that a prefix just reaches or just does not.
pub fn near_t(rng: &mut Rng, reports: &[Weighed]) -> u64 {
    let small = rng.pick(&[1, 1, 2, 3, 5]);
    if reports.is_empty() || rng.below(3) == 0 {
        return small;
    }
    let string = &reports[rng.below(reports.len())].0;
    let length = 1 + rng.below(string.len());
    let sum = weight_held(reports, &string[..length]) + rng.pick(&[0, 0, 1]);
    if sum > 0 {
        sum as u64
    } else {
        small
    }
}

/// Honest reports of weighed strings.
pub fn honest(rng: &mut Rng, n: usize, expander: u64, reports: &[Weighed]) -> Reports {
    let mut made = Reports::none(n);
    for (string, weight) in reports {
        made.add(rng, expander, *weight, string.clone());
    }
    made
}

/// The total that a report of this weight gives at each of its prefixes.
pub fn total_of(weight: i16) -> u64 {
    i128::from(weight).rem_euclid(i128::from(P)) as u64
}
