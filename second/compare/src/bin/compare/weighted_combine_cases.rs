//! Fixed calls of weighted combining, each with the number, kind and length it must give, and
//! thresholds around the bounds of both kinds.

use crate::combine_cases::{self, pair, passed, refused, size, split, WAYS};
use crate::combines::Call;
use compare::weights::{threshold_number, AROUND, HALF, MOST};
use second::field::{add, read, P};
use second::query::{first, write};

/// What takes each call: its name, what it must give, the call.
type Take<'a> = &'a mut dyn FnMut(&'static str, [u64; 3], Call);

/// Hands over every fixed call.
pub fn each(mut take: impl FnMut(&'static str, [u64; 3], Call)) {
    combine_cases::each(|name, wanted, call| as_weighted(name, wanted, call, &mut take));
    for t in [
        1,
        2,
        5,
        32_767,
        65_535,
        65_536,
        65_537,
        1 << 24,
        MOST[1] - 1,
        MOST[1],
    ] {
        totals(t, &mut take);
        mixed(t, &mut take);
    }
    thresholds(&mut take);
    causes(&mut take);
}

/// A fixed call of unweighted combining as a weighted one, where the same must come.
fn as_weighted(name: &'static str, wanted: [u64; 3], mut call: Call, take: Take) {
    let [share0, share1] = &call.shares;
    let pairs = share0.chunks_exact(8).zip(share1.chunks_exact(8));
    let negative = pairs.filter(|(a, b)| add(read(a), read(b)) > HALF).count();
    let wanted = match wanted[0] {
        2 if call.t == 0 => refused(12),
        2 => return,
        0 | 11 if negative > 0 => return,
        _ => wanted,
    };
    call.weighted = true;
    take(name, wanted, call);
}

/// A total with what it reads as.
fn readings(t: u64) -> Vec<(u64, i128)> {
    let positive = [
        0,
        1,
        t - 1,
        t,
        t + 1,
        (1 << 31) - 1,
        1 << 31,
        u64::from(u32::MAX),
        1 << 32,
        1 << 62,
        HALF - 1,
        HALF,
    ];
    let negative = [
        1,
        2,
        t,
        t + 1,
        32_768,
        1 << 31,
        (1 << 31) + 1,
        1 << 32,
        (1 << 32) + 1,
        1 << 62,
        HALF - 1,
        HALF,
    ];
    let positive = positive.map(|x| (x, i128::from(x)));
    let negative = negative.map(|x| (P - x, -i128::from(x)));
    positive.into_iter().chain(negative).collect()
}

/// Totals around t, around both ends of the signed reading and around p, as the second of two.
fn totals(t: u64, take: Take) {
    for (total, signed) in readings(t) {
        for way in 0..WAYS {
            for n in [1, 2] {
                let kept = (signed >= i128::from(t)) as usize;
                let (low, other) = (pair(P - t, way + 1), pair(total, way));
                let fit = size(n, 1, kept);
                let call = Call {
                    n: n as u64,
                    weighted: true,
                    t,
                    query: first(),
                    shares: [[low.0, other.0], [low.1, other.1]]
                        .map(|both| both.iter().flat_map(|x| x.to_le_bytes()).collect()),
                    room: fit,
                };
                if kept > 0 {
                    let room = fit - 1;
                    take(
                        "a byte short",
                        refused(11),
                        Call {
                            room,
                            ..call.clone()
                        },
                    );
                }
                take("signed totals", passed(n, 1, kept), call);
            }
        }
    }
}

/// All these totals in one query of as many prefixes of 9 bits.
fn mixed(t: u64, take: Take) {
    let all = readings(t);
    for skip in 0..all.len() {
        let some: Vec<(u64, i128)> = all[skip..].to_vec();
        let kept = some.iter().filter(|(_, x)| *x >= i128::from(t)).count();
        let prefixes: Vec<Vec<u8>> = (0..some.len() as u8)
            .map(|i| vec![3 + i, i % 2 * 0x80])
            .collect();
        let totals: Vec<u64> = some.iter().map(|(total, _)| *total).collect();
        for n in [9, 10, 16] {
            let fit = size(n, 9, kept);
            let call = |room| Call {
                n: n as u64,
                weighted: true,
                t,
                query: write(9, &prefixes),
                shares: split(&totals),
                room,
            };
            let wanted = passed(n, 9, kept);
            take("mixed totals", wanted, call(fit));
            take("mixed totals with spare bytes", wanted, call(fit + 9));
            if fit > 0 {
                take("mixed totals, a byte short", refused(11), call(fit - 1));
                take("mixed totals, no space", refused(11), call(0));
            }
        }
    }
}

/// Thresholds around both bounds with both truth values, with totals that each keeps.
fn thresholds(take: Take) {
    for weighted in [false, true] {
        for t in AROUND {
            for n in [1, 2] {
                let wanted = match threshold_number(weighted, t) {
                    0 => passed(n, 1, 1),
                    number => refused(number),
                };
                let room = size(n, 1, 1);
                let call = Call {
                    n: n as u64,
                    weighted,
                    t,
                    query: first(),
                    shares: split(&[0, MOST[1]]),
                    room,
                };
                take("thresholds around the bounds", wanted, call);
            }
        }
    }
}

/// A cause's number and a change of a right call that brings it about.
type Cause = (u64, fn(&mut Call));

/// Changes that bring about a cause other than 2 and 12, in the order in which they are judged.
const OTHERS: [Cause; 17] = [
    (1, |call| call.n = 0),
    (1, |call| call.n = 257),
    (1, |call| call.n += 1 << 32),
    (4, |call| call.shares[0].truncate(8)),
    (4, |call| call.shares[1].truncate(15)),
    (4, |call| call.shares.iter_mut().for_each(|s| s.push(0))),
    (4, |call| {
        call.shares.iter_mut().for_each(|s| s.extend([0; 8]))
    }),
    (6, |call| call.shares[0][8..].fill(0xff)),
    (6, |call| {
        call.shares[1][..8].copy_from_slice(&P.to_le_bytes())
    }),
    (9, |call| call.query.truncate(0)),
    (9, |call| call.query[7] = 0),
    (9, |call| call.query[1] = 2),
    (9, |call| call.query.push(0)),
    (9, |call| call.query[6] = 1),
    (11, |call| call.room -= 1),
    (11, |call| call.room = 0),
    (11, |call| call.t = 1),
];

/// Thresholds outside their bounds, in both kinds or in one.
const THRESHOLDS: [fn(&mut Call); 6] = [
    |call| call.t = 0,
    |call| call.t = MOST[call.weighted as usize] + 1,
    |call| call.t += 1 << 31,
    |call| call.t += 1 << 32,
    |call| call.t += 1 << 63,
    |call| call.t = u64::MAX,
];

/// 12 and 2 alone, with each other cause, and with all that are judged after them.
fn causes(take: Take) {
    for weighted in [false, true] {
        let right = Call {
            n: 2,
            weighted,
            t: 4,
            query: first(),
            shares: split(&[4, 3]),
            room: 8,
        };
        let number = if weighted { 12 } else { 2 };
        take("no cause", passed(2, 1, 1), right.clone());
        for (other, change) in OTHERS {
            let mut call = right.clone();
            change(&mut call);
            take("one cause", refused(other), call);
        }
        for threshold in THRESHOLDS {
            let mut call = right.clone();
            threshold(&mut call);
            take("a threshold alone", refused(number), call);
            for (other, change) in OTHERS {
                let mut call = right.clone();
                change(&mut call);
                threshold(&mut call);
                let wanted = refused(if other == 1 { 1 } else { number });
                take("a threshold and another cause", wanted, call);
            }
            for changes in [[14, 9, 7, 3], [15, 12, 8, 5]] {
                let mut call = right.clone();
                changes.iter().for_each(|&i| OTHERS[i].1(&mut call));
                threshold(&mut call);
                take(
                    "a threshold and all after it",
                    refused(number),
                    call.clone(),
                );
                call.n = 0;
                take("all causes", refused(1), call);
            }
        }
    }
}
