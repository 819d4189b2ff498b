//! Fixed calls of adding two shares, each with the number and length it must give.

use crate::adds::Call;
use second::field::P;

/// What takes each call: its name, what it must give, the call.
type Take<'a> = &'a mut dyn FnMut(&'static str, [u64; 2], Call);

/// Two numbers and their sum, below p, at p and past it.
pub const SUMS: [(u64, u64, u64); 18] = [
    (0, 0, 0),
    (0, 1, 1),
    (0xff, 1, 0x100),
    (0xffff_ffff, 1, 0x1_0000_0000),
    (0xffff_ffff, P - 1, 0xffff_fffe),
    (0x0102_0304_0506_0708, 0, 0x0102_0304_0506_0708),
    (P - 1, 0, P - 1),
    (P - 1, 1, 0),
    (P - 1, 2, 1),
    (P - 1, P - 1, P - 2),
    (P - 2, 1, P - 1),
    (P - 2, P - 1, P - 3),
    (P / 2, P / 2, P - 1),
    (P / 2, P / 2 + 1, 0),
    (1 << 63, (1 << 63) - (1 << 32), P - 1),
    (1 << 63, (1 << 63) - (1 << 32) + 1, 0),
    (1 << 63, (1 << 63) - 1, 0xffff_fffe),
    (1 << 63, 1 << 63, 0xffff_ffff),
];

/// Hands over every fixed call, and each once more with its shares in the other order.
pub fn each(mut take: impl FnMut(&'static str, [u64; 2], Call)) {
    let mut both = |name, wanted, call: Call| {
        let mut turned = call.clone();
        turned.shares.reverse();
        take(name, wanted, call);
        take(name, wanted, turned);
    };
    causes(&mut both);
    lengths(&mut both);
    large_numbers(&mut both);
    spaces(&mut both);
    largest(&mut both);
}

/// A share of these numbers.
fn share(numbers: &[u64]) -> Vec<u8> {
    numbers.iter().flat_map(|x| x.to_le_bytes()).collect()
}

/// Each cause, each two, and all three; with several the lowest is returned.
fn causes(take: Take) {
    let (low, high) = ([0; 24], [0xff; 24]);
    let (edge, past) = (share(&[P - 1, P - 1]), share(&[0, P]));
    for (name, share0, share1, room, wanted) in [
        ("no cause", &low[..16], &low[..16], 16, [0, 16]),
        ("no cause", &edge, &edge, 16, [0, 16]),
        ("no cause", &edge, &low[..16], 23, [0, 16]),
        ("empty shares", &[], &[], 0, [0, 0]),
        ("empty shares", &[], &[], 1, [0, 0]),
        ("empty shares", &[], &[], 24, [0, 0]),
        ("4", &low[..16], &low[..8], 24, [4, 0]),
        ("4", &low[..16], &low[..15], 24, [4, 0]),
        ("4", &low[..16], &low[..17], 24, [4, 0]),
        ("4", &low[..15], &low[..15], 24, [4, 0]),
        ("4", &low[..17], &low[..17], 24, [4, 0]),
        ("4", &low[..4], &low[..4], 24, [4, 0]),
        ("4", &low[..8], &[], 24, [4, 0]),
        ("4", &low[..1], &[], 24, [4, 0]),
        ("6", &high[..16], &low[..16], 16, [6, 0]),
        ("6", &high[..16], &high[..16], 16, [6, 0]),
        ("6", &past, &low[..16], 16, [6, 0]),
        ("6", &past, &edge, 24, [6, 0]),
        ("6", &past, &past, 24, [6, 0]),
        ("11", &low[..16], &low[..16], 15, [11, 0]),
        ("11", &low[..16], &low[..16], 8, [11, 0]),
        ("11", &edge, &edge, 0, [11, 0]),
        ("11", &edge, &edge, 15, [11, 0]),
        ("4 and 6", &high[..16], &low[..8], 24, [4, 0]),
        ("4 and 6", &low[..16], &high[..8], 24, [4, 0]),
        ("4 and 6", &high[..15], &high[..15], 24, [4, 0]),
        ("4 and 6", &high[..9], &low[..9], 24, [4, 0]),
        ("4 and 6", &past, &low[..8], 24, [4, 0]),
        ("4 and 6", &high[..8], &[], 24, [4, 0]),
        ("4 and 11", &low[..16], &low[..8], 15, [4, 0]),
        ("4 and 11", &low[..16], &low[..8], 8, [4, 0]),
        ("4 and 11", &low[..16], &low[..8], 7, [4, 0]),
        ("4 and 11", &low[..15], &low[..15], 14, [4, 0]),
        ("4 and 11", &low[..1], &low[..1], 0, [4, 0]),
        ("4 and 11", &low[..8], &[], 0, [4, 0]),
        ("6 and 11", &high[..16], &low[..16], 15, [6, 0]),
        ("6 and 11", &high[..8], &high[..8], 0, [6, 0]),
        ("6 and 11", &past, &low[..16], 8, [6, 0]),
        ("6 and 11", &past, &edge, 0, [6, 0]),
        ("4, 6 and 11", &high[..16], &high[..8], 0, [4, 0]),
        ("4, 6 and 11", &high[..16], &low[..8], 8, [4, 0]),
        ("4, 6 and 11", &high[..15], &high[..15], 0, [4, 0]),
        ("4, 6 and 11", &high[..8], &[], 0, [4, 0]),
    ] {
        let shares = [share0, share1].map(<[u8]>::to_vec);
        take(name, wanted, Call { shares, room });
    }
}

/// Lengths around each multiple of 8, equal and not, with and without 6 and 11.
fn lengths(take: Take) {
    for whole in [8, 16, 24, 32, 64, 256, 2048] {
        for byte in [0, 0xff] {
            for room in [0, 3000] {
                let mut both = |name, length0, length1, wanted| {
                    let shares = [vec![byte; length0], vec![byte; length1]];
                    take(name, wanted, Call { shares, room });
                };
                let wanted = match (byte, room) {
                    (0xff, _) => [6, 0],
                    (_, 0) => [11, 0],
                    _ => [0, whole as u64],
                };
                both("whole numbers", whole, whole, wanted);
                both("a byte less", whole - 1, whole - 1, [4, 0]);
                both("a byte more", whole + 1, whole + 1, [4, 0]);
                both("half a number more", whole + 4, whole + 4, [4, 0]);
                both("one a byte less", whole, whole - 1, [4, 0]);
                both("one a byte more", whole, whole + 1, [4, 0]);
                both("one a number more", whole, whole + 8, [4, 0]);
                both("a byte less and more", whole - 1, whole + 1, [4, 0]);
                both("one twice as long", whole, 2 * whole, [4, 0]);
                both("one empty", whole, 0, [4, 0]);
            }
        }
    }
}

/// A number around p at each place of one share, beside small and large ones, around the fit.
fn large_numbers(take: Take) {
    for count in 1..=5 {
        let fit = 8 * count;
        for place in 0..count {
            for (number, fits, short) in [
                (P - 1, [0, fit as u64], [11, 0]),
                (P, [6, 0], [6, 0]),
                (P + 1, [6, 0], [6, 0]),
                (u64::MAX, [6, 0], [6, 0]),
                (P.swap_bytes(), [0, fit as u64], [11, 0]),
            ] {
                for other in [0, 1, P - 1] {
                    let mut numbers = vec![other; count];
                    let beside = share(&numbers);
                    numbers[place] = number;
                    let call = |room| Call {
                        shares: [share(&numbers), beside.clone()],
                        room,
                    };
                    take("numbers around p", fits, call(fit));
                    take("numbers around p", fits, call(fit + 9));
                    take("numbers around p, a byte short", short, call(fit - 1));
                    take("numbers around p, no space", short, call(0));
                }
            }
        }
    }
}

/// Spaces of every length up to some bytes more than the sums.
fn spaces(take: Take) {
    for count in 0..=5 {
        let fit = 8 * count;
        let shares = [P - 1, 0x0102_0304_0506_0708].map(|x| share(&vec![x; count]));
        for room in 0..=fit + 17 {
            let (name, wanted) = match room {
                _ if room + 1 == fit => ("a byte short", [11, 0]),
                _ if room < fit => ("too short", [11, 0]),
                _ if room == fit => ("just fits", [0, fit as u64]),
                _ => ("fits with spare bytes", [0, fit as u64]),
            };
            let shares = shares.clone();
            take(name, wanted, Call { shares, room });
        }
    }
}

/// Shares as long as the largest query's and longer, which the call has no limit for.
fn largest(take: Take) {
    for count in [131_070, 131_071, 200_000] {
        let fit = 8 * count;
        let call = |room| {
            let numbers = |factor: u64| -> Vec<u64> {
                let factors = (0..count as u64).map(|i| i.wrapping_mul(factor));
                factors.map(|x| x % P).collect()
            };
            Call {
                shares: [0x9e37_79b9_7f4a_7c15, 0xbf58_476d_1ce4_e5b9].map(|f| share(&numbers(f))),
                room,
            }
        };
        take("many numbers", [0, fit as u64], call(fit));
        take("many numbers", [0, fit as u64], call(fit + 1));
        take("many numbers, a byte short", [11, 0], call(fit - 1));
        let mut last = call(fit - 1);
        last.shares[1][fit - 8..].copy_from_slice(&P.to_le_bytes());
        take("many numbers, the last p", [6, 0], last.clone());
        last.shares[0].truncate(fit - 8);
        take("many numbers, one less", [4, 0], last);
    }
}
