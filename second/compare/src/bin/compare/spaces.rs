//! Comparison of the space that is named for an honest record and list, unweighted and weighted:
//! every string length, with thresholds and numbers of reports at and around each bound, and any
//! numbers.

use compare::calls;
use compare::make::any_number;
use compare::tally::{Outcome, Plan, Tally};
use compare::weights::threshold_number;
use second::rng::Rng;

/// Numbers around the bounds of an unweighted t and of the reports, and far outside them.
const AROUND: [u64; 24] = [
    0,
    1,
    2,
    3,
    4,
    5,
    7,
    8,
    127,
    128,
    129,
    255,
    256,
    257,
    32_767,
    32_768,
    65_534,
    65_535,
    65_536,
    65_537,
    131_070,
    1 << 32,
    u64::MAX - 1,
    u64::MAX,
];

/// Thresholds around the bounds of a weighted t and around multiples of the largest weight.
const WEIGHTED: [u64; 36] = [
    0,
    1,
    2,
    3,
    32_765,
    32_766,
    32_767,
    32_768,
    32_769,
    65_533,
    65_534,
    65_535,
    65_536,
    65_537,
    98_301,
    98_302,
    4 * 32_767,
    4 * 32_767 + 1,
    7 * 32_767,
    7 * 32_767 + 1,
    32_767 * 32_767,
    32_767 * 32_767 + 1,
    32_768 * 32_767,
    32_768 * 32_767 + 1,
    65_534 * 32_767,
    65_534 * 32_767 + 1,
    65_535 * 32_767,
    65_535 * 32_767 + 1,
    2_147_483_646,
    2_147_483_647,
    2_147_483_648,
    2_147_483_649,
    1 << 32,
    (1 << 32) + 1,
    1 << 63,
    u64::MAX,
];

/// Lengths past the last: the first of them, and such as a narrower number would cut.
const LONGER: [u64; 6] = [257, 258, 1 << 16, (1 << 32) + 8, (1 << 63) + 8, u64::MAX];

pub fn run(start: u64, count: usize, tally: &mut Tally) {
    for n in (0..=256).chain(LONGER) {
        for reports in AROUND {
            for t in AROUND {
                compare((n, false, t, reports), tally);
            }
            for t in WEIGHTED {
                compare((n, true, t, reports), tally);
            }
        }
    }
    let mut rng = Rng::new(start ^ 7);
    for _ in 0..10 * count {
        let n = 1 + rng.below(256) as u64;
        let weighted = rng.coin();
        let most = 1 << rng.below(if weighted { 32 } else { 17 });
        let t = 1 + rng.below(most) as u64;
        let reports = rng.below(65_536) as u64;
        compare((n, weighted, t, reports), tally);
        let any = [n, t, reports].map(|right| {
            let other = any_number(&mut rng);
            rng.pick(&[right, right, other])
        });
        compare((any[0], weighted, any[1], any[2]), tally);
    }
}

/// Compares both spaces for these arguments.
fn compare((n, weighted, t, reports): (u64, bool, u64, u64), tally: &mut Tally) {
    let within = (1..=256).contains(&n) && threshold_number(weighted, t) == 0 && reports <= 65_535;
    // The calls refuse nothing, so that 0 stands for their number.
    let plan = match (within, weighted) {
        (true, false) => Plan::fixed("within the bounds", &[0]),
        (true, true) => Plan::fixed("within the bounds, weighted", &[0]),
        (false, false) => Plan::fixed("outside the bounds", &[0, 0]),
        (false, true) => Plan::fixed("outside the bounds, weighted", &[0, 0]),
    };
    type Space = fn(u64, bool, u64, u64) -> u64;
    let pairs: [(&str, [Space; 2]); 2] = [
        ("record space", [second::record_space, calls::record_space]),
        ("list space", [second::list_space, calls::list_space]),
    ];
    let inputs = format!("n={n} weighted={weighted} t={t} reports={reports}");
    for (call, both) in pairs {
        tally.before(call, &plan, &inputs);
        let [ours, theirs] = both.map(|space| Outcome {
            numbers: vec![0, space(n, weighted, t, reports)],
            spaces: Vec::new(),
        });
        tally.judge(call, &plan, ours, theirs, &inputs);
    }
}
