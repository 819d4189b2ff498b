//! Weighted searches of honest collections, by brute force on the library's answers: the list and
//! the record, in the space that the library names, in just enough and in a byte less.

use crate::searches::{compare, Call, LIST, RECORD};
use compare::calls;
use compare::make::{good_expander, room};
use compare::tally::{Outcome, Plan, Tally};
use compare::weights::{honest, near_t, weighed};
use second::brute::{in_weighted_list, weight_held, weighted_answer, Weighed};
use second::rng::Rng;

/// How many random collections.
const COLLECTIONS: usize = 700;

pub fn run(rng: &mut Rng, tally: &mut Tally) {
    let mut met = [0; 3];
    for i in 0..COLLECTIONS {
        let n = if i < 6 { 33 } else { 1 + rng.below(10) };
        let count = rng.below(11);
        let reports = weighed(rng, n, count);
        let t = near_t(rng, &reports);
        met[0] += judged(rng, tally, n, t, &reports) as u64;
        let held = |string: &[bool]| weight_held(&reports, string);
        let light = reports
            .iter()
            .any(|(s, _)| held(s) >= t as i64 && !in_weighted_list(&reports, s, t));
        met[1] += light as u64;
        met[2] += (held(&[false]) < 0 || held(&[true]) < 0) as u64;
    }
    for n in 1..=2 {
        for t in 1..=3 {
            every_small(rng, tally, n, t);
        }
    }
    tight(rng, tally);
    for (met, name) in met.into_iter().zip([
        "a list that is not empty",
        "a heavy string under a light prefix",
        "a negative total",
    ]) {
        println!("weighted collections with {name}: {met}");
        if met == 0 {
            tally.fault(&format!("no weighted collection with {name}"));
        }
    }
}

/// Every collection of at most two strings of n bits with small weights.
fn every_small(rng: &mut Rng, tally: &mut Tally, n: usize, t: u64) {
    let weights = [-2, -1, 0, 1, 2, 3];
    let kinds = weights.len() << n;
    let one = |code: usize| -> Weighed {
        let string = (0..n).map(|at| code >> at & 1 == 1).collect();
        (string, weights[(code >> n) % weights.len()])
    };
    for count in 0..=2 {
        for code in 0..kinds.pow(count) {
            let each = (0..count).map(|i| one(code / kinds.pow(i) % kinds));
            judged(rng, tally, n, t, &each.collect::<Vec<Weighed>>());
        }
    }
}

/// As many kept prefixes at every length as the named space allows, each with the fewest holders.
fn tight(rng: &mut Rng, tally: &mut Tally) {
    for n in [1usize, 3, 5, 9, 33] {
        for kept in [1usize, 2, 4, 8].into_iter().filter(|&kept| kept <= 1 << n) {
            for holders in [1, 2, 3] {
                let mut reports = Vec::new();
                for i in 0..kept {
                    let first = kept.trailing_zeros() as usize;
                    let start = (0..first).map(|at| i >> at & 1 == 1);
                    let string: Vec<bool> = start.chain(rng.bits(n - first)).collect();
                    reports.extend(vec![(string, 32_767); holders]);
                }
                let t = 32_767 * holders as u64;
                judged(rng, tally, n, t, &reports);
                judged(rng, tally, n, t - 32_766, &reports);
                let (bits, count) = (n as u64, reports.len() as u64);
                let named =
                    [calls::record_space, calls::list_space].map(|f| f(bits, true, t, count));
                let (record, list) = weighted_answer(&reports, n, t);
                if named != [record.len() as u64, list.len() as u64] {
                    tally.fault(&format!(
                        "named space: n={n} t={t} reports={count} is not tight"
                    ));
                }
            }
        }
    }
}

/// Judges one collection in areas of each size; whether its list has a string.
fn judged(rng: &mut Rng, tally: &mut Tally, n: usize, t: u64, reports: &[Weighed]) -> bool {
    let expander = good_expander(rng);
    let call = Call::weighted(honest(rng, n, expander, reports), t, expander);
    let (record, list) = weighted_answer(reports, n, t);
    let (bits, count) = (n as u64, reports.len() as u64);
    let named = [calls::record_space, calls::list_space].map(|f| f(bits, true, t, count) as usize);
    let exact = [record.len(), list.len()];
    let spare = exact.map(|size| room(rng, size));
    let mut rooms = vec![(0, named), (0, exact), (0, spare)];
    rooms.push((11, [exact[0] - 1, spare[1]]));
    rooms.push((11, [rng.pick(&[0, 1, 7, 8, 9, 31]), spare[1]]));
    if !list.is_empty() {
        rooms.push((11, [spare[0], exact[1] - 1]));
    }
    for (number, [record_room, list_room]) in rooms {
        let call = Call {
            record_room,
            list_room,
            ..call.clone()
        };
        let plan = Plan {
            wanted: vec![number],
            ..Plan::counted("weighted collections")
        };
        let theirs = compare(rng, &plan, &call, tally);
        if number == 0 && !wrote(&theirs, &record, &list) {
            let found = format!("weighted demand 2: n={n} t={t} {reports:?}");
            tally.fault(&(found + ": another record or list"));
        }
    }
    !list.is_empty()
}

/// Whether the record and the list were written.
fn wrote(theirs: &Outcome, record: &[u8], list: &[u8]) -> bool {
    theirs.spaces[RECORD].first(theirs.numbers[1]) == record
        && theirs.spaces[LIST].first(theirs.numbers[2]) == list
}
