//! Weights in the key maker, signed totals in combining, and cause 12 in the place of 2.

use second::field::{add, negate, P};
use second::judge;
use second::keys::public_share_size;
use second::query::{first, pack, write};
use second::rng::Rng;
use second::{combine, key, list_space, record_space, search, share, Combined};

const MOST: u64 = 2_147_483_647;
/// The greatest total that reads as itself.
const HALF: u64 = (P - 1) / 2;
const WEIGHTS: [i16; 9] = [-32_768, -32_767, -2, -1, 0, 1, 2, 32_766, 32_767];

/// Thresholds around every bound, and such as a narrower number would cut.
const THRESHOLDS: [u64; 17] = [
    0,
    1,
    2,
    32_767,
    65_534,
    65_535,
    65_536,
    65_537,
    MOST - 1,
    MOST,
    MOST + 1,
    MOST + 2,
    1 << 32,
    (1 << 32) + 1,
    1 << 63,
    (1 << 63) + 1,
    u64::MAX,
];

/// The number that a threshold gives.
fn number_of(weighted: bool, t: u64) -> u64 {
    match (weighted, t) {
        (false, 1..=65_535) | (true, 1..=2_147_483_647) => 0,
        (false, _) => 2,
        (true, _) => 12,
    }
}

/// A share of the given numbers.
fn shared(values: &[u64]) -> Vec<u8> {
    values.iter().flat_map(|v| v.to_le_bytes()).collect()
}

fn refused(number: u64) -> Combined {
    Combined {
        number,
        kind: 0,
        length: 0,
    }
}

/// The sum of both servers' shares of one report at a prefix.
fn total(n: usize, e: u64, seeds: [&[u8]; 2], public: &[u8], prefix: &[bool]) -> u64 {
    let query = write(prefix.len(), &[pack(prefix)]);
    let [one, other] = [false, true].map(|server| {
        let mut space = [0u8; 8];
        let seed = seeds[usize::from(server)];
        let made = share(n as u64, e, server, seed, public, &query, &mut space);
        assert_eq!((made.number, made.length), (0, 8));
        u64::from_le_bytes(space)
    });
    add(one, other)
}

#[test]
fn a_key_gives_its_weight_at_its_prefixes_and_zero_beside_them() {
    let mut rng = Rng::new(11);
    for e in [1, 2] {
        for n in [1, 2, 5, 8, 9, 33] {
            for weight in WEIGHTS {
                let string = rng.bits(n);
                let (seed0, seed1) = (rng.bytes(16), rng.bytes(16));
                let mut public = vec![0u8; public_share_size(n)];
                let packed = pack(&string);
                let made = key(n as u64, e, weight, &packed, &seed0, &seed1, &mut public);
                assert_eq!((made.number, made.length), (0, public.len() as u64));
                let wide = (i128::from(P) + i128::from(weight)) % i128::from(P);
                for length in 1..=n {
                    let mut prefix = string[..length].to_vec();
                    let at = total(n, e, [&seed0, &seed1], &public, &prefix);
                    assert_eq!(i128::from(at), wide);
                    prefix[length - 1] ^= true;
                    assert_eq!(total(n, e, [&seed0, &seed1], &public, &prefix), 0);
                }
            }
        }
    }
}

#[test]
fn a_weight_changes_payload_corrections_alone() {
    let (n, string) = (9, [0x5a, 0x80]);
    let made = |e, weight| {
        let mut public = vec![0u8; public_share_size(n)];
        let reply = key(9, e, weight, &string, &[3; 16], &[4; 16], &mut public);
        assert_eq!(reply.number, 0);
        public
    };
    for e in [1, 2] {
        let plain = made(e, 1);
        for weight in WEIGHTS {
            let public = made(e, weight);
            let same = |at: usize| at < 3 || (at - 3) % 24 < 16;
            let differs = |at: usize| public[at] != plain[at];
            assert!((0..plain.len()).all(|at| !(same(at) && differs(at))));
            assert_eq!(public == plain, weight == 1);
        }
    }
}

#[test]
fn a_weight_gives_no_cause_to_the_key_maker() {
    for weight in WEIGHTS {
        let mut space = [0xee; 73];
        let seed = [3; 16];
        let call = |n, e, string: &[u8], seed1: &[u8], room: usize, space: &mut [u8]| {
            key(n, e, weight, string, &seed, seed1, &mut space[..room]).number
        };
        assert_eq!(call(0, 3, &[], &[], 0, &mut space), 1);
        assert_eq!(call(257, 3, &[], &[], 0, &mut space), 1);
        assert_eq!(call(3, 3, &[], &[], 0, &mut space), 3);
        assert_eq!(call(3, 1, &[1], &[], 0, &mut space), 4);
        assert_eq!(call(3, 1, &[1], &seed, 0, &mut space), 7);
        assert_eq!(call(3, 1, &[0x20], &seed, 72, &mut space), 11);
        assert_eq!(space, [0xee; 73]);
        assert_eq!(call(3, 1, &[0x20], &seed, 73, &mut space), 0);
    }
}

#[test]
fn thresholds_around_both_bounds() {
    let zeros = shared(&[0, 0]);
    for weighted in [false, true] {
        for t in THRESHOLDS {
            let number = number_of(weighted, t);
            let made = combine(1, weighted, t, &first(), &zeros, &zeros, &mut []);
            let kind = if number == 0 { 2 } else { 0 };
            assert_eq!((made.number, made.kind, made.length), (number, kind, 0));
            for e in [1, 2] {
                let (mut record, mut list) = ([0xee; 32], [0xee; 3]);
                let found = search(
                    1,
                    weighted,
                    t,
                    e,
                    &[],
                    &[],
                    &[],
                    &[],
                    &mut record,
                    &mut list,
                );
                let length = if number == 0 { 32 } else { 0 };
                assert_eq!((found.number, found.record_length), (number, length));
                assert_eq!((found.list_length, list), (0, [0xee; 3]));
                assert_eq!(record == [0xee; 32], number != 0);
            }
        }
    }
}

#[test]
fn twelve_stands_in_the_place_of_two() {
    let (two, bad) = (shared(&[0, 0]), shared(&[0, P]));
    for weighted in [false, true] {
        for t in [0, MOST + 1, u64::MAX] {
            let number = number_of(weighted, t);
            let call = |n, query: &[u8], share0: &[u8], share1: &[u8], out: &mut [u8]| {
                combine(n, weighted, t, query, share0, share1, out)
            };
            assert_eq!(call(0, &[], &[1], &[], &mut []), refused(1));
            assert_eq!(call(257, &first(), &two, &two, &mut [0; 99]), refused(1));
            let others = [(&two[..], &two[8..]), (&two, &bad), (&bad[1..], &bad[1..])];
            for (share0, share1) in others.into_iter().chain([(&two[..], &two[..])]) {
                for query in [&first()[..], &[], &[9; 3]] {
                    let mut out = [0xee; 20];
                    assert_eq!(call(2, query, share0, share1, &mut out), refused(number));
                    assert_eq!(call(2, query, share0, share1, &mut []), refused(number));
                    assert_eq!(out, [0xee; 20]);
                }
            }
            let judged = |n, e, s0: &[u8], p0: &[u8], s1: &[u8], p1: &[u8]| {
                judge::search(n, weighted, t, e, s0, p0, s1, p1, 0, 0)
            };
            let (seed, public, other) = ([0; 16], [0xff; 25], [0x04; 25]);
            assert_eq!(judged(0, 9, &[1], &[], &[], &[]), 1);
            assert_eq!(judged(1, 9, &[1], &[], &[], &[]), number);
            assert_eq!(judged(1, 2, &[1], &[], &[], &[]), number);
            assert_eq!(judged(1, 2, &seed, &public, &seed, &public), number);
            assert_eq!(judged(1, 2, &seed, &other, &seed, &public), number);
            let (seeds, publics) = (vec![0; 65_536 * 16], vec![0; 65_536 * 25]);
            assert_eq!(judged(1, 2, &seeds, &publics, &seeds, &publics), number);
        }
    }
}

#[test]
fn totals_read_signed_when_weighted() {
    let mut rng = Rng::new(12);
    for t in [1, 2, 65_535, 65_536, MOST - 1, MOST] {
        for (total, signed) in [
            (0, 0),
            (t - 1, i128::from(t) - 1),
            (t, i128::from(t)),
            (t + 1, i128::from(t) + 1),
            (HALF - 1, i128::from(HALF) - 1),
            (HALF, i128::from(HALF)),
            (HALF + 1, -i128::from(HALF)),
            (HALF + 2, 1 - i128::from(HALF)),
            (P - t, -i128::from(t)),
            (P - 2, -2),
            (P - 1, -1),
        ] {
            let any = rng.number() % P;
            for part in [0, 1, total, HALF, HALF + 1, P - 1, any] {
                let share0 = shared(&[part]);
                let share1 = shared(&[add(total, negate(part))]);
                let one = write(1, &[vec![0x80]]);
                let mut out = [0xee; 9];
                let made = combine(1, true, t, &one, &share0, &share1, &mut out);
                let kept = signed >= i128::from(t);
                assert_eq!((made.number, made.kind), (0, 2));
                assert_eq!(made.length, u64::from(kept));
                assert_eq!(out[0], if kept { 0x80 } else { 0xee });
                let made = combine(2, true, t, &one, &share0, &share1, &mut out[..8]);
                let (kind, length) = if kept { (1, 8) } else { (3, 0) };
                assert_eq!((made.number, made.kind, made.length), (0, kind, length));
                let short = combine(2, true, t, &one, &share0, &share1, &mut out[..7]);
                assert_eq!(short.number, if kept { 11 } else { 0 });
                if t <= 65_535 {
                    let made = combine(1, false, t, &one, &share0, &share1, &mut out);
                    assert_eq!((made.number, made.length), (0, u64::from(total >= t)));
                }
            }
        }
    }
}

#[test]
fn spaces_of_weighted_searches() {
    // The fewest holders of a kept prefix, one below and at each multiple of the largest weight.
    for (t, holders) in [
        (1, 1),
        (32_766, 1),
        (32_767, 1),
        (32_768, 2),
        (65_534, 2),
        (65_535, 3),
        (65_536, 3),
        (98_301, 3),
        (98_302, 4),
        (2_147_385_345, 65_535),
        (2_147_385_346, 65_536),
        (MOST - 1, 65_538),
        (MOST, 65_539),
    ] {
        for n in [1, 2, 3, 8, 9, 17, 255, 256] {
            for reports in [0, 1, 2, 3, 4, 5, 100, 65_534, 65_535] {
                let (record, list) = (
                    record_space(n, true, t, reports),
                    list_space(n, true, t, reports),
                );
                if holders <= 65_535 {
                    assert_eq!(record, record_space(n, false, holders, reports));
                    assert_eq!(list, list_space(n, false, holders, reports));
                } else {
                    assert_eq!((record, list), (32, 0));
                }
            }
        }
    }
    for (n, t, reports) in [
        (0, 1, 1),
        (257, 1, 1),
        (1, 0, 1),
        (1, MOST + 1, 1),
        (1, u64::MAX, 1),
        (1, 1, 65_536),
    ] {
        assert_eq!(record_space(n, true, t, reports), 0);
        assert_eq!(list_space(n, true, t, reports), 0);
    }
    assert_eq!(record_space(1, false, 65_536, 1), 0);
    assert_eq!(record_space(1, true, 65_536, 1), 32);
}
