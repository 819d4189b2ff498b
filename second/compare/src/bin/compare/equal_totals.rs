//! Pairs of searches whose totals are equal and whose numbers of reports are not: their records must
//! differ in the head and nowhere else.

use crate::search_cases::Search;
use crate::searches::{compare, Call, LIST, RECORD};
use crate::weighted_search_cases::held;
use compare::make::{good_expander, room};
use compare::tally::{Plan, Tally};
use compare::weights::{honest, near_t, weighed, weight, MOST};
use second::brute::Weighed;
use second::rng::Rng;

/// How a second collection comes from the first; beside it its name in weighted searches.
const KINDS: [[&str; 2]; 4] = [
    [
        "more reports of weight zero",
        "weighted, more reports of weight zero",
    ],
    [
        "more reports that cancel",
        "weighted, more reports that cancel",
    ],
    [
        "a weight in two reports",
        "weighted, a weight in two reports",
    ],
    [
        "256 more reports that cancel",
        "weighted, 256 more reports that cancel",
    ],
];

/// How many random pairs of each kind.
const PAIRS: usize = 60;

pub fn run(rng: &mut Rng, tally: &mut Tally) {
    let mut met = 0u64;
    for i in 0..2 * PAIRS * KINDS.len() {
        let [kind, weighted_kind] = KINDS[i / 2 % KINDS.len()];
        let weighted = i % 2 == 1;
        let name = if weighted { weighted_kind } else { kind };
        let many = kind.starts_with("256");
        let n = 1 + rng.below(if many { 4 } else { 9 });
        let count = 1 + rng.below(8);
        let one = weighed(rng, n, count);
        let other = other(rng, n, &one, kind);
        let t = near_t(rng, &one).min(MOST[weighted as usize]);
        let expander = if many { 2 } else { good_expander(rng) };
        let [first, second] = [&one, &other].map(|reports| {
            let made = honest(rng, n, expander, reports);
            let mut call = Call::of(made, t, expander);
            call.weighted = weighted;
            written(rng, tally, name, call, reports)
        });
        let heads = [&first, &second].map(|(record, _)| record.get(..8));
        let totals = [&first, &second].map(|(record, _)| record.get(8..));
        if totals[0] != totals[1] || first.1 != second.1 {
            tally.fault(&format!("{name}: not equal after the heads"));
        }
        if heads[0] == heads[1] {
            tally.fault(&format!("{name}: equal heads"));
        }
        met += u64::from(totals[0] == totals[1] && heads[0] != heads[1]);
    }
    println!("pairs of searches with equal totals and other heads: {met}");
    if met == 0 {
        tally.fault("no two searches with equal totals and other heads");
    }
}

/// Another collection of more reports, whose weights add to the same at every prefix.
fn other(rng: &mut Rng, n: usize, one: &[Weighed], kind: &str) -> Vec<Weighed> {
    let mut all = one.to_vec();
    let more = 1 + rng.below(3);
    match kind {
        "more reports of weight zero" => {
            all.extend((0..more).map(|_| (rng.bits(n), 0)));
        }
        "more reports that cancel" => {
            for _ in 0..more {
                all.extend(cancelling(rng, n));
            }
        }
        "a weight in two reports" => {
            let (string, weight) = all.swap_remove(rng.below(all.len()));
            let part = weight / 2;
            all.extend([(string.clone(), part), (string, weight - part)]);
        }
        _ => {
            for _ in 0..128 {
                all.extend(cancelling(rng, n));
            }
        }
    }
    for i in (1..all.len()).rev() {
        all.swap(i, rng.below(i + 1));
    }
    all
}

/// Two reports of one string whose weights add to zero.
fn cancelling(rng: &mut Rng, n: usize) -> [Weighed; 2] {
    let string = rng.bits(n);
    let weight = weight(rng).max(-32_767);
    [(string.clone(), weight), (string, -weight)]
}

/// The library's record and list of a search that must pass.
fn written(
    rng: &mut Rng,
    tally: &mut Tally,
    name: &'static str,
    call: Call,
    reports: &[Weighed],
) -> (Vec<u8>, Vec<u8>) {
    let search = Search::of(call, &held(reports));
    let rooms = [search.record.len(), search.list.len()].map(|size| room(rng, size));
    let (wanted, call) = search.with_areas(rooms[0], rooms[1]);
    let plan = Plan {
        wanted: wanted.numbers(),
        ..Plan::counted(name)
    };
    let theirs = compare(rng, &plan, &call, tally);
    if !wanted.written(&theirs) {
        tally.fault(&format!("{name}: another record or list"));
    }
    let bytes = |space: usize, length: u64| theirs.spaces[space].first(length).to_vec();
    (
        bytes(RECORD, theirs.numbers[1]),
        bytes(LIST, theirs.numbers[2]),
    )
}
