//! Adding two shares of one server.

use second::field::P;
use second::judge;
use second::keys::public_share_size;
use second::query::{child, first, pack, write};
use second::rng::Rng;
use second::{add_shares, brute, combine, key, share, Reply};

/// The byte that a space is filled with before a call.
const OLD: u8 = 0xee;

/// A share of the given numbers.
fn shared(values: &[u64]) -> Vec<u8> {
    values.iter().flat_map(|v| v.to_le_bytes()).collect()
}

/// The sum of two numbers modulo p, by wide numbers.
fn sum(a: u64, b: u64) -> u64 {
    let sum = (u128::from(a) + u128::from(b)) % u128::from(P);
    u64::try_from(sum).unwrap()
}

/// The number, which the judge must give too; a refusal must leave the space and have length 0.
fn number(share0: &[u8], share1: &[u8], space: usize) -> u64 {
    let mut out = vec![OLD; space];
    let reply = add_shares(share0, share1, &mut out);
    assert_eq!(reply.number, judge::add(share0, share1, space));
    if reply.number == 0 {
        assert_eq!(reply.length, share0.len() as u64);
    } else {
        assert_eq!(reply.length, 0);
        assert_eq!(out, vec![OLD; space]);
    }
    reply.number
}

/// The sum of two shares, which must be written into a space that fits and into longer ones.
fn added(share0: &[u8], share1: &[u8]) -> Vec<u8> {
    let fit = share0.len();
    let mut exact = vec![OLD; fit];
    let wanted = Reply {
        number: 0,
        length: fit as u64,
    };
    assert_eq!(add_shares(share0, share1, &mut exact), wanted);
    for more in [1, 7, 8, 9, 40] {
        let mut out = vec![OLD; fit + more];
        assert_eq!(add_shares(share0, share1, &mut out), wanted);
        assert_eq!(out[..fit], exact);
        assert_eq!(out[fit..], vec![OLD; more]);
    }
    exact
}

/// 4: the lengths differ, or are no multiple of 8.
#[test]
fn lengths() {
    let zeros = [0u8; 33];
    for one in 0..=33 {
        for other in 0..=33 {
            let right = one == other && one % 8 == 0;
            let wanted = if right { 0 } else { 4 };
            assert_eq!(number(&zeros[..one], &zeros[..other], 64), wanted);
        }
    }
}

/// 6: p and more are refused in either share at every place, p - 1 passes.
#[test]
fn numbers_of_the_group() {
    for count in 1..=4 {
        let good = shared(&vec![P - 1; count]);
        assert_eq!(number(&good, &good, 8 * count), 0);
        for at in 0..count {
            for (value, wanted) in [(P - 1, 0), (P, 6), (P + 1, 6), (u64::MAX, 6)] {
                let mut values = vec![0; count];
                let zeros = shared(&values);
                values[at] = value;
                let one = shared(&values);
                assert_eq!(number(&one, &zeros, 8 * count), wanted);
                assert_eq!(number(&zeros, &one, 8 * count), wanted);
                assert_eq!(number(&one, &one, 8 * count), wanted);
                assert_eq!(number(&one, &good, 8 * count), wanted);
                assert_eq!(number(&good, &one, 8 * count), wanted);
            }
        }
    }
    let turned = P.to_be_bytes();
    assert_eq!(number(&turned, &turned, 8), 0);
}

/// 11: the space is shorter than the sum; an exact fit and more pass.
#[test]
fn spaces() {
    for count in 0..=4 {
        let fit = 8 * count;
        let ones = shared(&vec![1; count]);
        for space in 0..=fit + 9 {
            let wanted = if space < fit { 11 } else { 0 };
            assert_eq!(number(&ones, &ones, space), wanted);
        }
    }
    assert_eq!(judge::add(&[0; 8], &[0; 8], usize::MAX), 0);
}

/// Of several causes the lowest is returned.
#[test]
fn pairs_of_causes() {
    let high = [0xff; 24];
    let low = [0; 24];
    // 4 with 6, for lengths that differ and for equal ones that are no multiple of 8.
    assert_eq!(number(&high[..16], &low[..8], 24), 4);
    assert_eq!(number(&low[..8], &high[..16], 24), 4);
    assert_eq!(number(&high[..15], &high[..15], 24), 4);
    assert_eq!(number(&high[..9], &low[..9], 24), 4);
    assert_eq!(number(&high[..8], &[], 24), 4);
    assert_eq!(number(&[], &high[..8], 24), 4);
    // 4 with 11, also where one of the two shares would fit.
    assert_eq!(number(&low[..16], &low[..8], 7), 4);
    assert_eq!(number(&low[..16], &low[..8], 8), 4);
    assert_eq!(number(&low[..8], &low[..16], 8), 4);
    assert_eq!(number(&low[..15], &low[..15], 14), 4);
    assert_eq!(number(&low[..1], &low[..1], 0), 4);
    // 6 with 11.
    assert_eq!(number(&high[..16], &low[..16], 15), 6);
    assert_eq!(number(&low[..16], &high[..16], 15), 6);
    assert_eq!(number(&high[..8], &high[..8], 0), 6);
    // 6 only past what the space holds.
    assert_eq!(number(&shared(&[0, P]), &low[..16], 8), 6);
    assert_eq!(number(&low[..16], &shared(&[0, P]), 8), 6);
    // All three.
    assert_eq!(number(&high[..16], &high[..8], 0), 4);
    assert_eq!(number(&high[..15], &high[..15], 0), 4);
}

/// Two empty shares have an empty sum, whatever the space.
#[test]
fn empty_shares() {
    assert!(added(&[], &[]).is_empty());
    assert_eq!(number(&[], &[], 0), 0);
    assert_eq!(number(&[], &[], 100), 0);
}

/// The sums at the edges, each place on its own.
#[test]
fn sums() {
    let most = shared(&[P - 1]);
    assert_eq!(added(&most, &most), shared(&[P - 2]));
    assert_eq!(added(&most, &shared(&[1])), shared(&[0]));
    assert_eq!(added(&most, &shared(&[0])), most);
    assert_eq!(
        added(&[255, 0, 0, 0, 0, 0, 0, 0], &[1, 0, 0, 0, 0, 0, 0, 0]),
        [0, 1, 0, 0, 0, 0, 0, 0]
    );
    let one = shared(&[P - 1, 0, P - 1, 5, 1 << 63]);
    let other = shared(&[1, 0, P - 1, P - 6, 1 << 63]);
    let wanted = shared(&[0, 0, P - 2, P - 1, (1 << 32) - 1]);
    assert_eq!(added(&one, &other), wanted);
    assert_eq!(added(&other, &one), wanted);
}

/// Every two of some numbers, by chance and at the edges, against wide numbers.
#[test]
fn sums_agree_with_wide_numbers() {
    let mut rng = Rng::new(3);
    let mut values = vec![0, 1, 2, P / 2, P / 2 + 1, P - 2, P - 1];
    values.extend([(1 << 32) - 1, 1 << 32, (1 << 32) + 1, 1 << 63]);
    values.extend((0..60).map(|_| rng.number() % P));
    let (mut ones, mut others, mut sums) = (vec![], vec![], vec![]);
    for &a in &values {
        for &b in &values {
            assert_eq!(added(&shared(&[a]), &shared(&[b])), shared(&[sum(a, b)]));
            ones.push(a);
            others.push(b);
            sums.push(sum(a, b));
        }
    }
    assert_eq!(added(&shared(&ones), &shared(&others)), shared(&sums));
}

/// The count of numbers has no limit of its own.
#[test]
fn many_numbers() {
    for count in [131_070, 131_071, 200_000] {
        let one = shared(&vec![P - 1; count]);
        let other = shared(&vec![3; count]);
        assert_eq!(added(&one, &other), shared(&vec![2; count]));
        assert_eq!(number(&one, &other, 8 * count - 1), 11);
    }
}

/// Honest reports: the strings, both servers' seeds and the public shares.
#[derive(Clone, Default)]
struct Honest {
    strings: Vec<Vec<bool>>,
    seeds: [Vec<u8>; 2],
    public: Vec<u8>,
}

impl Honest {
    /// Reports of the strings, with seeds by chance and now and then the same seed twice.
    fn of(rng: &mut Rng, n: usize, e: u64, strings: &[Vec<bool>]) -> Honest {
        let mut honest = Honest {
            strings: strings.to_vec(),
            ..Honest::default()
        };
        for string in strings {
            let seed0 = rng.bytes(16);
            let seed1 = match rng.below(6) {
                0 => seed0.clone(),
                _ => rng.bytes(16),
            };
            let mut space = vec![0; public_share_size(n)];
            let made = key(n as u64, e, 1, &pack(string), &seed0, &seed1, &mut space);
            assert_eq!((made.number, made.length), (0, space.len() as u64));
            honest.public.extend(space);
            honest.seeds[0].extend(seed0);
            honest.seeds[1].extend(seed1);
        }
        honest
    }

    /// These reports and then the others.
    fn with(&self, other: &Honest) -> Honest {
        Honest {
            strings: [&self.strings[..], &other.strings].concat(),
            seeds: [0, 1].map(|b| [&self.seeds[b][..], &other.seeds[b]].concat()),
            public: [&self.public[..], &other.public].concat(),
        }
    }

    /// One server's share for a query of so many prefixes.
    fn share(&self, n: usize, e: u64, server: bool, query: &[u8], count: usize) -> Vec<u8> {
        let seeds = &self.seeds[usize::from(server)];
        let mut space = vec![0; 8 * count];
        let made = share(n as u64, e, server, seeds, &self.public, query, &mut space);
        assert_eq!((made.number, made.length), (0, space.len() as u64));
        space
    }
}

/// Queries for strings of n bits: the first, children of `1` and of `0`, and prefixes of some
/// lengths, held and not.
fn queries(rng: &mut Rng, n: usize, strings: &[Vec<bool>]) -> Vec<(Vec<u8>, Vec<Vec<bool>>)> {
    let bits = [false, true];
    let mut all = vec![(first(), bits.map(|bit| vec![bit]).to_vec())];
    if n > 1 {
        for parent in bits {
            let children = bits.map(|last| child(&pack(&[parent]), 1, last));
            let asked = bits.map(|last| vec![parent, last]).to_vec();
            all.push((write(2, &children), asked));
        }
    }
    let mut lengths = vec![1, 2, 3, 8, 9, n / 2, n - 1, n];
    lengths.sort();
    lengths.dedup();
    for length in lengths.into_iter().filter(|l| (1..=n).contains(l)) {
        let mut asked: Vec<Vec<bool>> = strings.iter().map(|s| s[..length].to_vec()).collect();
        asked.extend((0..3).map(|_| rng.bits(length)));
        asked.sort();
        asked.dedup();
        let packed: Vec<Vec<u8>> = asked.iter().map(|prefix| pack(prefix)).collect();
        all.push((write(length, &packed), asked));
    }
    all
}

/// Strings of n bits, some of them alike.
fn strings(rng: &mut Rng, n: usize, count: usize) -> Vec<Vec<bool>> {
    let some = [rng.bits(n), rng.bits(n), rng.bits(n)];
    (0..count)
        .map(|_| match rng.below(3) {
            0 => rng.bits(n),
            _ => some[rng.below(3)].clone(),
        })
        .collect()
}

/// What combining answers: its kind and what it writes.
fn combined(n: usize, query: &[u8], shares: [&[u8]; 2]) -> (u64, Vec<u8>) {
    let mut out = vec![0; 4096];
    let made = combine(n as u64, false, 2, query, shares[0], shares[1], &mut out);
    assert_eq!(made.number, 0);
    out.truncate(made.length as usize);
    (made.kind, out)
}

/// The share of two lists of reports laid together is the sum of the two shares.
#[test]
fn lists_laid_together() {
    let mut rng = Rng::new(4);
    let counts = [(0, 0), (0, 3), (3, 0), (1, 1), (2, 5), (6, 4)];
    let mut compared = 0;
    for e in [1, 2] {
        for n in [1, 2, 3, 8, 9, 31, 64, 256] {
            for (one, other) in counts {
                let all = strings(&mut rng, n, one + other);
                let left = Honest::of(&mut rng, n, e, &all[..one]);
                let right = Honest::of(&mut rng, n, e, &all[one..]);
                let whole = left.with(&right);
                let turned = right.with(&left);
                for (query, asked) in queries(&mut rng, n, &all) {
                    let shares = [false, true].map(|server| {
                        let of =
                            |reports: &Honest| reports.share(n, e, server, &query, asked.len());
                        let (one, other, together) = (of(&left), of(&right), of(&whole));
                        let parts = added(&one, &other);
                        assert_eq!(parts, together);
                        assert_eq!(added(&other, &one), together);
                        assert_eq!(of(&turned), together);
                        compared += 1;
                        (parts, together)
                    });
                    let [(parts0, whole0), (parts1, whole1)] = &shares;
                    assert_eq!(
                        combined(n, &query, [parts0, parts1]),
                        combined(n, &query, [whole0, whole1])
                    );
                    let held = asked.iter().map(|prefix| brute::holders(&all, prefix));
                    let held: Vec<u64> = held.collect();
                    assert_eq!(added(parts0, parts1), shared(&held));
                }
            }
        }
    }
    assert!(compared > 1000, "{compared}");
}

/// A list split among several, down to one report each and with empty parts, added one by one.
#[test]
fn lists_split_among_several() {
    let mut rng = Rng::new(5);
    for e in [1, 2] {
        for n in [1, 7, 32] {
            let all = strings(&mut rng, n, 9);
            for most in [1, 2, 4] {
                let mut parts = vec![Honest::default()];
                parts.extend(
                    all.chunks(most)
                        .map(|some| Honest::of(&mut rng, n, e, some)),
                );
                parts.push(Honest::default());
                let whole = parts
                    .iter()
                    .fold(Honest::default(), |whole, part| whole.with(part));
                assert_eq!(whole.strings, all);
                for (query, asked) in queries(&mut rng, n, &all) {
                    for server in [false, true] {
                        let of =
                            |reports: &Honest| reports.share(n, e, server, &query, asked.len());
                        let zero = vec![0; 8 * asked.len()];
                        let sum = parts.iter().fold(zero, |sum, part| added(&sum, &of(part)));
                        assert_eq!(sum, of(&whole));
                    }
                }
            }
        }
    }
}
