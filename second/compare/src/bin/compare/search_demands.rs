//! Demands 2 and 3 by brute force on the library's answers for honest collections.

use crate::searches::{compare, Call, LIST, RECORD};
use compare::make::*;
use compare::tally::{Plan, Tally};
use second::brute;
use second::field::read;
use second::query::pack;
use second::rng::Rng;

/// How a second collection comes from the first; seeds and expander are drawn again. Beside it its
/// name in weighted searches, where every weight is one.
const KINDS: [[&str; 2]; 8] = [
    ["the same strings", "weighted, the same strings"],
    ["rearranged", "weighted, rearranged"],
    ["other below the cuts", "weighted, other below the cuts"],
    [
        "one string's tail other",
        "weighted, one string's tail other",
    ],
    [
        "equal sets, other multiplicities",
        "weighted, equal sets, other multiplicities",
    ],
    ["one bit other", "weighted, one bit other"],
    [
        "one report more or less",
        "weighted, one report more or less",
    ],
    ["any other", "weighted, any other"],
];

/// The names of the pairs and of the collections of few short strings, unweighted and weighted.
const SMALL: [[&str; 2]; 2] = [
    ["every two small ones", "every small one"],
    [
        "weighted, every two small ones",
        "weighted, every small one",
    ],
];

/// How many random pairs of each kind.
const PAIRS: usize = 60;

type Strings = Vec<Vec<bool>>;

pub fn run(rng: &mut Rng, tally: &mut Tally) {
    for i in 0..2 * PAIRS * KINDS.len() {
        let [kind, weighted_kind] = KINDS[i / 2 % KINDS.len()];
        let weighted = i % 2 == 1;
        let name = if weighted { weighted_kind } else { kind };
        let n = if i < 16 { 33 } else { 1 + rng.below(12) };
        let t = rng.pick(&[1, 2, 2, 3, 3, 4]);
        let count = rng.below(10);
        let one = strings(rng, n, count);
        let other = other(rng, n, t, &one, kind);
        let records =
            [&one, &other].map(|strings| record(rng, tally, n, weighted, t, strings, name));
        let same = brute::cut(&one, t) == brute::cut(&other, t);
        pair(tally, name, [&records[0], &records[1]], same);
    }
    for (n, most) in [(1, 5), (2, 4), (3, 3)] {
        for t in 1..5 {
            for weighted in [false, true] {
                every_small(rng, tally, n, weighted, t, most);
            }
        }
    }
}

/// Every two collections of at most so many strings of n bits.
fn every_small(rng: &mut Rng, tally: &mut Tally, n: usize, weighted: bool, t: u64, most: u32) {
    let [pairs, small] = SMALL[weighted as usize];
    let mut met: Vec<(Strings, Vec<u8>)> = Vec::new();
    for count in 0..=most {
        for code in 0..1usize << (n * count as usize) {
            let bit = |i: usize, at: usize| code >> (n * i + at) & 1 == 1;
            let strings: Strings = (0..count as usize)
                .map(|i| (0..n).map(|at| bit(i, at)).collect())
                .collect();
            let record = record(rng, tally, n, weighted, t, &strings, small);
            met.push((brute::cut(&strings, t), record));
        }
    }
    for (i, (cut, record)) in met.iter().enumerate() {
        for (other_cut, other) in &met[..i] {
            pair(tally, pairs, [record, other], cut == other_cut);
        }
    }
}

/// Judges demand 3 of two records; as every weight is one, it holds after their heads too.
fn pair(tally: &mut Tally, kind: &'static str, [one, other]: [&Vec<u8>; 2], same: bool) {
    tally.pair(kind, one == other, same);
    if (one.get(8..) == other.get(8..)) != same {
        tally.fault(&format!(
            "demand 3, {kind}: another answer without the heads"
        ));
    }
}

/// A second collection of a kind.
fn other(rng: &mut Rng, n: usize, t: u64, one: &Strings, kind: &str) -> Strings {
    let mut all = one.clone();
    let count = all.len();
    match kind {
        "the same strings" => return all,
        "other below the cuts" => {
            all = brute::cut(one, t);
            for cut in &mut all {
                cut.extend(rng.bits(n - cut.len()));
            }
        }
        "one string's tail other" if count > 0 => {
            let string = &mut all[rng.below(count)];
            for bit in string.iter_mut().skip(rng.below(n)) {
                *bit = rng.coin();
            }
        }
        "equal sets, other multiplicities" if count > 0 => {
            // Each string once, then any of them until the count is reached.
            all.sort();
            all.dedup();
            let different = all.len();
            while all.len() < count {
                all.push(all[rng.below(different)].clone());
            }
        }
        "one bit other" if count > 0 => {
            let bit = rng.below(n);
            all[rng.below(count)][bit] ^= true;
        }
        "one report more or less" => {
            if count > 0 && rng.coin() {
                all.remove(rng.below(count));
            } else {
                let any = rng.bits(n);
                all.push(one.first().cloned().unwrap_or(any));
            }
        }
        "any other" => all = strings(rng, n, count),
        _ => {}
    }
    for i in (1..all.len()).rev() {
        all.swap(i, rng.below(i + 1));
    }
    all
}

/// The library's record of honest reports of the strings, after demand 2 was judged.
fn record(
    rng: &mut Rng,
    tally: &mut Tally,
    n: usize,
    weighted: bool,
    t: u64,
    strings: &Strings,
    kind: &'static str,
) -> Vec<u8> {
    let expander = good_expander(rng);
    let mut reports = Reports::none(n);
    for string in strings {
        reports.add(rng, expander, 1, string.clone());
    }
    let queried = brute::record(strings, n, t);
    let heavy: Vec<u8> = brute::heavy(strings, t)
        .iter()
        .flat_map(|string| pack(string))
        .collect();
    let mut call = Call::of(reports, t, expander);
    call.weighted = weighted;
    call.record_room = room(rng, queried.len());
    call.list_room = room(rng, heavy.len());
    let theirs = compare(rng, &Plan::counted(kind), &call, tally);
    let record = theirs.spaces[RECORD].first(theirs.numbers[1]).to_vec();
    if theirs.spaces[LIST].first(theirs.numbers[2]) != heavy {
        tally.fault(&format!(
            "demand 2, {kind}: the list is not the heavy strings"
        ));
    }
    if record != queried {
        tally.fault(&format!("demand 2, {kind}: the record is not the counts"));
    }
    if !head_is_sum(&record) {
        tally.fault(&format!(
            "{kind}: the head is not the sum of the first totals"
        ));
    }
    record
}

/// Whether the first two totals of a record add to the number at its head.
fn head_is_sum(record: &[u8]) -> bool {
    let head = record.iter().take(8);
    let head = head.fold(0, |sum, &byte| sum << 8 | u64::from(byte));
    record.len() >= 32 && read(&record[16..24]).checked_add(read(&record[24..32])) == Some(head)
}
