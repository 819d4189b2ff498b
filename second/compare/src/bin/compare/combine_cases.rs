//! Fixed calls of unweighted combining, each with the number, kind and length it must give.

use crate::combines::Call;
use compare::queries;
use second::field::{add, negate, P};
use second::query::{first, pack, packed_size, write};
use std::collections::BTreeSet;

/// What takes each call: its name, what it must give, the call.
type Take<'a> = &'a mut dyn FnMut(&'static str, [u64; 3], Call);

/// Hands over every fixed call.
pub fn each(mut take: impl FnMut(&'static str, [u64; 3], Call)) {
    largest(&mut take);
    for n in [1, 7, 8, 9, 31, 32, 255, 256] {
        for length in 1..=n {
            if length == 1 || length + 1 >= n || (length + 1) % 8 < 3 {
                lengths(n, length, &mut take);
            }
        }
    }
    for t in [1, 2, 65_534, 65_535] {
        totals(t, &mut take);
    }
    share_lengths(&mut take);
    large_numbers(&mut take);
    for query in bad_queries() {
        bad_query(&query, &mut take);
    }
}

pub fn refused(number: u64) -> [u64; 3] {
    [number, 0, 0]
}

/// Bytes of the next query or, at length n, of the list.
pub fn size(n: usize, length: usize, kept: usize) -> usize {
    match (length == n, kept) {
        (true, _) => kept * packed_size(length),
        (false, 0) => 0,
        _ => 6 + 2 * kept * packed_size(length + 1),
    }
}

/// What a call with so many kept gives when it has the space.
pub fn passed(n: usize, length: usize, kept: usize) -> [u64; 3] {
    let kind = match (length == n, kept) {
        (true, _) => 2,
        (false, 0) => 3,
        _ => 1,
    };
    [0, kind, size(n, length, kept) as u64]
}

/// The ways a total comes about, with and without a sum past p.
pub const WAYS: usize = 6;

/// Two numbers with this total.
pub fn pair(total: u64, way: usize) -> (u64, u64) {
    let part = match way % WAYS {
        0 => 0,
        1 => total,
        2 => P - 1,
        3 => 1,
        4 => add(total, 1),
        _ => P / 2,
    };
    (part, add(total, negate(part)))
}

/// Two shares with these totals, each come about in another way.
pub fn split(totals: &[u64]) -> [Vec<u8>; 2] {
    let pairs = || totals.iter().enumerate().map(|(i, &total)| pair(total, i));
    [
        pairs().flat_map(|(a, _)| a.to_le_bytes()).collect(),
        pairs().flat_map(|(_, b)| b.to_le_bytes()).collect(),
    ]
}

/// The largest queries, next queries and lists.
fn largest(take: Take) {
    const FULL: usize = 131_070;
    for length in [17, 23, 24, 31, 32, 255] {
        let next = length + 1;
        let half = size(next, length, 65_535);
        let list = size(length, length, FULL);
        for (name, n, kept, room, wanted) in [
            (
                "65535 kept",
                next,
                65_535,
                half,
                passed(next, length, 65_535),
            ),
            (
                "65535 kept, a byte short",
                next,
                65_535,
                half - 1,
                refused(11),
            ),
            (
                "65536 kept",
                next,
                65_536,
                size(next, length, 65_536),
                refused(11),
            ),
            (
                "131070 kept",
                next,
                FULL,
                size(next, length, FULL),
                refused(11),
            ),
            ("none of 131070 kept", next, 0, 0, passed(next, length, 0)),
            (
                "131070 listed",
                length,
                FULL,
                list,
                passed(length, length, FULL),
            ),
            (
                "131070 listed, a byte short",
                length,
                FULL,
                list - 1,
                refused(11),
            ),
            (
                "65536 listed",
                length,
                65_536,
                list,
                passed(length, length, 65_536),
            ),
            (
                "none of 131070 listed",
                length,
                0,
                0,
                passed(length, length, 0),
            ),
        ] {
            take(name, wanted, large(n, length, FULL, FULL, kept, room));
        }
        let counts = [
            (131_071, 131_071, 9),
            (131_071, FULL, 9),
            (FULL, 131_071, 4),
            (FULL, 131_069, 4),
        ];
        for (count, lent, number) in counts {
            let call = large(next, length, count, lent, 9, 2 * list);
            take("around 131070 prefixes and numbers", refused(number), call);
        }
    }
    let call = large(18, 17, FULL, FULL, 65_536, 900_000);
    take("65536 kept", refused(11), call);
    let call = large(18, 17, FULL, FULL, 65_536, 0);
    take("65536 kept", refused(11), call);
}

/// A query of `count` prefixes with `lent` numbers, of which `kept` reach t, spread evenly.
fn large(n: usize, length: usize, count: usize, lent: usize, kept: usize, room: usize) -> Call {
    let t = 3;
    let totals: Vec<u64> = (0..lent)
        .map(|i| t - 1 + ((i + 1) * kept / lent - i * kept / lent) as u64)
        .collect();
    Call {
        n: n as u64,
        weighted: false,
        t,
        query: queries::long(length, count),
        shares: split(&totals),
        room,
    }
}

/// Prefixes of one length at both ends, around the middle and with bits in turn, ascending.
fn prefixes(length: usize) -> Vec<Vec<u8>> {
    let made = |bit: &dyn Fn(usize) -> bool| pack(&(0..length).map(bit).collect::<Vec<bool>>());
    let all = [
        made(&|_| false),
        made(&|i| i + 1 == length),
        made(&|i| i % 2 == 1),
        made(&|i| i > 0),
        made(&|i| i == 0),
        made(&|i| i % 2 == 0),
        made(&|i| i + 1 < length),
        made(&|_| true),
    ];
    all.into_iter()
        .collect::<BTreeSet<_>>()
        .into_iter()
        .collect()
}

/// Queries of one length: one prefix or several, all, some or none kept, around the fit.
fn lengths(n: usize, length: usize, take: Take) {
    let several = prefixes(length);
    let last = several.len() - 1;
    let keeps: [fn(usize, usize) -> bool; 5] = [
        |_, _| true,
        |_, _| false,
        |i, _| i == 0,
        |i, last| i == last,
        |i, _| i % 2 == 1,
    ];
    for asked in [&several[..], &several[..1], &several[last..]] {
        for keep in keeps {
            let held: Vec<bool> = (0..asked.len()).map(|i| keep(i, asked.len() - 1)).collect();
            let kept = held.iter().filter(|&&held| held).count();
            let fit = size(n, length, kept);
            let call = |room| Call {
                n: n as u64,
                weighted: false,
                t: 2,
                query: write(length, asked),
                shares: split(
                    &held
                        .iter()
                        .map(|&held| 1 + held as u64)
                        .collect::<Vec<u64>>(),
                ),
                room,
            };
            let wanted = passed(n, length, kept);
            take("just fits", wanted, call(fit));
            take("fits with spare bytes", wanted, call(fit + 9));
            if fit > 0 {
                take("a byte short", refused(11), call(fit - 1));
                take("no space", refused(11), call(0));
            }
        }
    }
    let longer = write(n + 1, &prefixes(n + 1));
    let shares = split(&vec![2; prefixes(n + 1).len()]);
    let (n, t, room) = (n as u64, 2, 999);
    let call = Call {
        n,
        weighted: false,
        t,
        query: longer,
        shares,
        room,
    };
    take("prefixes of n + 1 bits", refused(9), call);
}

/// Totals around t and p, as the second of two, in every way.
fn totals(t: u64, take: Take) {
    let edge = 1 << 32;
    for total in [0, t - 1, t, t + 1, edge - 2, edge - 1, edge, P - 2, P - 1] {
        for way in 0..WAYS {
            for n in [1, 2] {
                let kept = (total >= t) as usize;
                let (low, other) = (pair(t - 1, way + 1), pair(total, way));
                let call = Call {
                    n: n as u64,
                    weighted: false,
                    t,
                    query: first(),
                    shares: [[low.0, other.0], [low.1, other.1]]
                        .map(|both| both.iter().flat_map(|x| x.to_le_bytes()).collect()),
                    room: size(n, 1, kept),
                };
                take("totals around t and p", passed(n, 1, kept), call);
            }
        }
    }
}

/// Shares whose lengths differ, are no multiple of 8 or give another count, with numbers of p too.
fn share_lengths(take: Take) {
    for (length0, length1) in [
        (16, 8),
        (8, 16),
        (16, 0),
        (0, 16),
        (16, 24),
        (16, 15),
        (17, 16),
        (15, 15),
        (17, 17),
        (12, 12),
        (1, 1),
        (0, 0),
        (8, 8),
        (24, 24),
    ] {
        for byte in [0, 0xff] {
            for room in [0, 99] {
                let call = Call {
                    n: 2,
                    weighted: false,
                    t: 1,
                    query: first(),
                    shares: [vec![byte; length0], vec![byte; length1]],
                    room,
                };
                take("share lengths", refused(4), call);
            }
        }
    }
}

/// A number at or past p in one place, with and without space, and p - 1 beside it.
fn large_numbers(take: Take) {
    for server in 0..2 {
        for place in 0..2 {
            for (number, room) in [(P, 99), (P, 0), (P + 1, 99), (u64::MAX, 99), (P - 1, 99)] {
                let mut shares = split(&[1, 1]);
                shares[server][8 * place..8 * place + 8].copy_from_slice(&number.to_le_bytes());
                shares[1 - server][8 * place..8 * place + 8].fill(0);
                let (n, t, query) = (2, 1, first());
                let call = Call {
                    n,
                    weighted: false,
                    t,
                    query,
                    shares,
                    room,
                };
                let wanted = if number < P {
                    passed(2, 1, 2)
                } else {
                    refused(6)
                };
                take("numbers around p", wanted, call);
            }
        }
    }
}

/// Queries that are none for 9 bits.
fn bad_queries() -> Vec<Vec<u8>> {
    let mut all = vec![
        vec![],
        vec![0, 0, 0, 0, 0],
        vec![0, 0, 0, 0, 0, 0],
        vec![0, 0, 0, 0, 0, 0, 0x00],
        vec![0, 0, 0, 0, 0, 1],
        vec![0, 0, 0, 0, 0, 1, 0x00, 0x80],
        vec![0, 0, 0, 0, 0, 3, 0x00, 0x80],
        vec![0, 0, 0, 0, 0, 2, 0x00, 0x81],
        vec![0, 0, 0, 0, 0, 2, 0x00, 0x40],
        vec![0, 0, 0, 0, 0, 2, 0x80, 0x00],
        vec![0, 0, 0, 0, 0, 2, 0x80, 0x80],
        vec![0, 8, 0, 0, 0, 1, 0x00],
        vec![0, 8, 0, 0, 0, 1, 0x00, 0x80, 0x00],
        vec![0, 8, 0, 0, 0, 1, 0x00, 0x40],
        vec![0, 8, 0, 0, 0, 2, 0x01, 0x00, 0x00, 0x80],
        vec![0, 9, 0, 0, 0, 1, 0x00, 0x40],
        vec![1, 0, 0, 0, 0, 1, 0x00],
        vec![1, 0, 0, 0, 0, 2, 0x00, 0x80],
    ];
    for count in [[0, 1, 255, 255], [0, 2, 0, 2], [1, 0, 0, 2], [255; 4]] {
        all.push([&[0, 0], &count[..], &[0x00, 0x80]].concat());
    }
    all.push(vec![255; 6]);
    all.push(vec![255; 8]);
    all
}

/// A bad query with shares that fall under 4, 6 or neither.
fn bad_query(query: &[u8], take: Take) {
    let large = P.to_le_bytes();
    let low = (P - 1).to_le_bytes();
    let (zero, two) = (vec![0; 8], vec![0; 16]);
    for (name, n, t, share0, share1, number) in [
        ("bad query", 9, 1, vec![], vec![], 9),
        ("bad query", 9, 1, zero.clone(), zero.clone(), 9),
        ("bad query", 9, 1, two.clone(), two.clone(), 9),
        ("bad query", 9, 1, low.to_vec(), low.to_vec(), 9),
        (
            "bad query, a number of p",
            9,
            1,
            large.to_vec(),
            zero.clone(),
            6,
        ),
        (
            "bad query, a number of p",
            9,
            1,
            zero.clone(),
            large.to_vec(),
            6,
        ),
        (
            "bad query, a number of p",
            9,
            1,
            two.clone(),
            [zero.clone(), large.to_vec()].concat(),
            6,
        ),
        (
            "bad query, other lengths",
            9,
            1,
            zero.clone(),
            two.clone(),
            4,
        ),
        (
            "bad query, other lengths",
            9,
            1,
            two.clone(),
            zero.clone(),
            4,
        ),
        ("bad query, other lengths", 9, 1, large.to_vec(), vec![], 4),
        (
            "bad query, other lengths",
            9,
            1,
            large.repeat(2),
            large.to_vec(),
            4,
        ),
        (
            "bad query, no whole numbers",
            9,
            1,
            vec![255; 9],
            vec![255; 9],
            4,
        ),
        (
            "bad query, no whole numbers",
            9,
            1,
            vec![0; 4],
            vec![0; 4],
            4,
        ),
        (
            "bad query, t out of bounds",
            9,
            0,
            large.to_vec(),
            vec![],
            2,
        ),
        (
            "bad query, t out of bounds",
            9,
            65_536,
            large.to_vec(),
            vec![],
            2,
        ),
        (
            "bad query, n out of bounds",
            0,
            0,
            large.to_vec(),
            vec![],
            1,
        ),
        (
            "bad query, n out of bounds",
            257,
            0,
            large.to_vec(),
            vec![],
            1,
        ),
    ] {
        for room in [0, 99] {
            let (query, shares) = (query.to_vec(), [share0.clone(), share1.clone()]);
            let call = Call {
                n,
                weighted: false,
                t,
                query,
                shares,
                room,
            };
            take(name, refused(number), call);
        }
    }
}
