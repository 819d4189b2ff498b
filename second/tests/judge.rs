//! The document's refusal examples and pairs of causes, asked of the judge alone.

use second::judge::*;

/// The query `0`, `1`.
const FIRST: [u8; 8] = [0, 0, 0, 0, 0, 2, 0x00, 0x80];
/// A seed of zero bytes.
const SEED: [u8; 16] = [0; 16];

/// A query with the given prefix length, count and prefix bytes.
fn query(prefix_length: usize, count: usize, prefixes: &[u8]) -> Vec<u8> {
    let length = u16::try_from(prefix_length - 1).unwrap().to_be_bytes();
    let count = u32::try_from(count).unwrap().to_be_bytes();
    [&length[..], &count[..], prefixes].concat()
}

/// A query of the first `count` prefixes of 24 bits.
fn wide(count: usize) -> Vec<u8> {
    let many = u32::try_from(count).unwrap();
    let prefixes: Vec<u8> = (0..many)
        .flat_map(|i| i.to_be_bytes()[1..].to_vec())
        .collect();
    query(24, count, &prefixes)
}

/// A share of the given numbers.
fn shared(values: &[u64]) -> Vec<u8> {
    values.iter().flat_map(|v| v.to_le_bytes()).collect()
}

/// Example A's public share with the given control byte and payload correction.
fn public(control: u8, payload: u64) -> Vec<u8> {
    let mut bytes = vec![control];
    bytes.extend(2_u64.to_le_bytes());
    bytes.extend(3_u64.to_le_bytes());
    bytes.extend(payload.to_le_bytes());
    bytes
}

/// The search's number for both servers lent the same, with n 1, t 1 and expander 2.
fn alike(seeds: &[u8], publics: &[u8]) -> u64 {
    search(1, false, 1, 2, seeds, publics, seeds, publics, 0, 0)
}

/// The sizes are the document's.
#[test]
fn sizes() {
    assert_eq!(public_share_bytes(1), Some(25));
    assert_eq!(public_share_bytes(4), Some(97));
    assert_eq!(public_share_bytes(5), Some(122));
    assert_eq!(public_share_bytes(256), Some(6208));
    assert_eq!(public_share_bytes(usize::MAX), None);
    assert_eq!(query_bytes(1, 2), Some(8));
    assert_eq!(query_bytes(9, 2), Some(10));
    assert_eq!(P, u64::MAX - u64::from(u32::MAX) + 1);
}

/// The run-only bounds of n and t give 1 and 2.
#[test]
fn bounds() {
    let s = shared(&[0, 0]);
    for n in [0, 257, u64::MAX, 1 << 32, (1 << 32) + 1] {
        assert_eq!(key(n, 9, &[], &[], &[], 0), 1);
        assert_eq!(share(n, 9, false, &[1], &[], &[], 0), 1);
        assert_eq!(combine(n, false, 0, &[], &[1], &[], 0), 1);
        assert_eq!(search(n, false, 0, 9, &[1], &[], &[], &[], 0, 0), 1);
    }
    assert_eq!(key(256, 2, &[255; 32], &SEED, &SEED, 6208), 0);
    assert_eq!(key(256, 2, &[255; 32], &SEED, &SEED, 6207), 11);
    for t in [0, 65_536, u64::MAX] {
        assert_eq!(combine(1, false, t, &[], &[1], &[], 0), 2);
        assert_eq!(search(1, false, t, 9, &[1], &[], &[], &[], 0, 0), 2);
    }
    assert_eq!(combine(1, false, 65_535, &FIRST, &s, &s, 0), 0);
    assert_eq!(search(256, false, 65_535, 1, &[], &[], &[], &[], 0, 0), 0);
    for e in [0, 3, u64::MAX] {
        assert_eq!(key(1, e, &[], &[], &[], 0), 3);
        assert_eq!(share(1, e, true, &[1], &[], &[], 0), 3);
        assert_eq!(search(1, false, 1, e, &[1], &[], &[], &[], 0, 0), 3);
    }
}

/// The key maker judges lengths, then spare bits, then space.
#[test]
fn key_pairs() {
    assert_eq!(key(1, 2, &[0x80], &SEED, &SEED, 25), 0);
    assert_eq!(key(1, 2, &[0x80], &SEED, &SEED, usize::MAX), 0);
    assert_eq!(key(1, 2, &[0x80], &SEED, &SEED, 24), 11);
    assert_eq!(key(1, 2, &[0x01], &SEED, &SEED, 24), 7);
    assert_eq!(key(1, 2, &[0x01], &SEED[1..], &SEED, 24), 4);
    assert_eq!(key(1, 2, &[0x01], &SEED, &[0; 17], 24), 4);
    assert_eq!(key(1, 2, &[], &SEED, &SEED, 25), 4);
    assert_eq!(key(1, 2, &[0, 0], &SEED, &SEED, 25), 4);
    assert_eq!(key(8, 2, &[0xff], &SEED, &SEED, 194), 0);
    assert_eq!(key(9, 2, &[0xff, 0x80], &SEED, &SEED, 219), 0);
    assert_eq!(key(9, 2, &[0xff, 0x40], &SEED, &SEED, 219), 7);
}

/// Example I holds in a share and in a search.
#[test]
fn example_i() {
    for (payload, number) in [(P - 1, 0), (P, 6), (u64::MAX, 6)] {
        let publics = public(1, payload);
        assert_eq!(share(1, 2, true, &SEED, &publics, &FIRST, 16), number);
        assert_eq!(alike(&SEED, &publics), number);
    }
}

/// A server's share judges 4, 5, 6, 7, 9 and 11 in that order.
#[test]
fn share_pairs() {
    let judge = |seeds: &[u8], publics: &[u8], q: &[u8], space| {
        share(1, 2, false, seeds, publics, q, space)
    };
    let good = public(3, 1);
    assert_eq!(judge(&SEED, &good, &FIRST, 16), 0);
    assert_eq!(judge(&[], &[], &FIRST, 16), 0);
    assert_eq!(judge(&SEED, &good, &FIRST, 15), 11);
    assert_eq!(judge(&SEED, &good, &FIRST[..7], 15), 9);
    assert_eq!(judge(&SEED, &good, &[], 15), 9);
    assert_eq!(judge(&SEED, &public(4, 1), &[], 15), 7);
    assert_eq!(judge(&SEED, &public(128, P), &[], 15), 6);
    assert_eq!(judge(&SEED[1..], &public(4, P), &[], 0), 4);
    assert_eq!(judge(&SEED, &public(4, P)[1..], &[], 0), 4);
    assert_eq!(judge(&[], &good, &FIRST, 16), 4);
    assert_eq!(judge(&SEED, &[], &FIRST, 16), 4);
    let second = [good, public(4, P)].concat();
    assert_eq!(judge(&[0; 32], &second, &FIRST, 16), 6);
    let mut late = vec![0; 65_536 * 25];
    assert_eq!(judge(&vec![0; 65_535 * 16], &late[25..], &FIRST, 16), 0);
    late[1..25].fill(255);
    late[0] = 255;
    assert_eq!(judge(&vec![0; 65_536 * 16], &late, &[], 0), 5);
    assert_eq!(judge(&vec![0; 65_537 * 16], &late, &[], 0), 4);
}

/// A seed correction is no group number, and no spare bits stand where n is a multiple of 4.
#[test]
fn public_share_edges() {
    let mut four = vec![255; 97];
    for level in 0..4 {
        four[1 + 24 * level + 16..1 + 24 * level + 24].fill(0);
    }
    assert_eq!(share(4, 1, true, &SEED, &four, &FIRST, 16), 0);
    four[96] = 255;
    four[89] = 1;
    four[93] = 255;
    four[94] = 255;
    four[95] = 255;
    assert_eq!(share(4, 1, true, &SEED, &four, &FIRST, 16), 6);
    let mut five = vec![0; 122];
    five[0] = 255;
    five[1] = 3;
    assert_eq!(share(5, 1, true, &SEED, &five, &FIRST, 16), 0);
    five[1] = 4;
    assert_eq!(share(5, 1, true, &SEED, &five, &FIRST, 16), 7);
}

/// Cause 9 covers layout, limits and length above n.
#[test]
fn queries() {
    assert!(query_as_laid_out(1, &FIRST));
    assert!(query_as_laid_out(1, &query(1, 1, &[0x80])));
    assert!(!query_as_laid_out(0, &FIRST));
    for short in 0..FIRST.len() {
        assert!(!query_as_laid_out(1, &FIRST[..short]));
    }
    assert!(!query_as_laid_out(1, &query(1, 2, &[0, 0x80, 0])));
    assert!(!query_as_laid_out(1, &query(1, 0, &[])));
    assert!(!query_as_laid_out(1, &query(1, 2, &[0x80, 0])));
    assert!(!query_as_laid_out(1, &query(1, 2, &[0x80, 0x80])));
    assert!(!query_as_laid_out(1, &query(1, 2, &[0, 0xc0])));
    assert!(!query_as_laid_out(1, &query(1, 2, &[0, 0x01])));
    assert!(!query_as_laid_out(1, &query(2, 1, &[0x40])));
    assert!(query_as_laid_out(2, &query(2, 1, &[0x40])));
    assert!(query_as_laid_out(9, &query(9, 2, &[0, 0x80, 1, 0])));
    assert!(!query_as_laid_out(9, &query(9, 2, &[0, 0x40, 1, 0])));
    assert!(!query_as_laid_out(256, &[255; 6]));
    assert!(!query_as_laid_out(u64::MAX, &[255; 6]));
    assert!(query_as_laid_out(24, &wide(131_070)));
    assert!(!query_as_laid_out(24, &wide(131_071)));
}

/// For n 2 the queries as laid out are exactly the non-empty sets of prefixes.
#[test]
fn small_queries() {
    let mut passed = 0;
    for length in 1..=3_usize {
        for count in 0..=5_usize {
            let shift = 8 - length;
            let values = 1_usize << (length + 1);
            for code in 0..values.pow(u32::try_from(count).unwrap()) {
                let mut rest = code;
                let prefixes: Vec<u8> = (0..count)
                    .map(|_| {
                        let value = rest % values;
                        rest /= values;
                        u8::try_from(value << shift >> 1).unwrap()
                    })
                    .collect();
                passed += usize::from(query_as_laid_out(2, &query(length, count, &prefixes)));
            }
        }
    }
    assert_eq!(passed, 3 + 15);
}

/// Combining judges 4, 6, 9 and 11 in that order.
#[test]
fn combine_pairs() {
    let two = shared(&[0, 0]);
    let bad = shared(&[0, P]);
    assert_eq!(combine(2, false, 1, &FIRST, &two, &two, 0), 0);
    assert_eq!(combine(2, false, 1, &FIRST, &two, &bad, 0), 6);
    assert_eq!(combine(2, false, 1, &FIRST, &bad, &two, 0), 6);
    assert_eq!(combine(2, false, 1, &FIRST, &two, &two[8..], 0), 4);
    assert_eq!(combine(2, false, 1, &FIRST, &bad[1..], &bad[1..], 0), 4);
    assert_eq!(combine(2, false, 1, &FIRST, &bad[8..], &bad[8..], 0), 4);
    assert_eq!(combine(2, false, 1, &FIRST, &[], &[], 0), 4);
    assert_eq!(combine(2, false, 1, &[], &[], &[], 0), 9);
    assert_eq!(
        combine(2, false, 1, &FIRST[1..], &two[8..], &two[8..], 0),
        9
    );
    assert_eq!(
        combine(2, false, 1, &FIRST[1..], &bad[8..], &two[8..], 0),
        6
    );
    assert_eq!(combine(2, false, 1, &FIRST[1..], &two[8..], &two, 0), 4);
    assert_eq!(
        combine(2, false, 1, &FIRST[1..], &two[1..], &two[1..], 0),
        4
    );
    let long = query(3, 1, &[0]);
    assert_eq!(combine(2, false, 1, &long, &two, &two, 0), 9);
    assert_eq!(combine(3, false, 1, &long, &two, &two, 0), 4);
}

/// Combining's space is that of the answer it would write.
#[test]
fn combine_space() {
    let share0 = shared(&[P - 1, 7]);
    let share1 = shared(&[3, P - 6]);
    assert_eq!(combine(2, false, 2, &FIRST, &share0, &share1, 8), 0);
    assert_eq!(combine(2, false, 2, &FIRST, &share0, &share1, 7), 11);
    assert_eq!(combine(2, false, 1, &FIRST, &share0, &share1, 10), 0);
    assert_eq!(combine(2, false, 1, &FIRST, &share0, &share1, 9), 11);
    assert_eq!(combine(2, false, 3, &FIRST, &share0, &share1, 0), 0);
    assert_eq!(combine(1, false, 2, &FIRST, &share0, &share1, 1), 0);
    assert_eq!(combine(1, false, 2, &FIRST, &share0, &share1, 0), 11);
    assert_eq!(combine(1, false, 3, &FIRST, &share0, &share1, 0), 0);
    let eight = query(8, 1, &[5]);
    assert_eq!(
        combine(9, false, 1, &eight, &shared(&[1]), &shared(&[0]), 10),
        0
    );
    assert_eq!(
        combine(9, false, 1, &eight, &shared(&[1]), &shared(&[0]), 9),
        11
    );
    let huge = shared(&[P - 1]);
    assert_eq!(combine(8, false, 65_535, &eight, &huge, &huge, 0), 11);
}

/// A next query of more than 131,070 prefixes gives 11 whatever the space; a list does not.
#[test]
fn combine_passing() {
    let zeros = vec![0; 65_536 * 8];
    let ones = shared(&vec![1; 65_536]);
    assert_eq!(
        combine(25, false, 1, &wide(65_536), &ones, &zeros, usize::MAX),
        11
    );
    assert_eq!(
        combine(24, false, 1, &wide(65_536), &ones, &zeros, 65_536 * 3),
        0
    );
    let space = 6 + 131_070 * 4;
    let (some, none) = (&ones[8..], &zeros[8..]);
    assert_eq!(combine(25, false, 1, &wide(65_535), some, none, space), 0);
    assert_eq!(
        combine(25, false, 1, &wide(65_535), some, none, space - 1),
        11
    );
    let past = vec![0; 131_071 * 8];
    assert_eq!(combine(25, false, 1, &wide(131_071), &past, &past, 0), 9);
}

/// The search judges 4 to 8 in order and over both servers.
#[test]
fn search_pairs() {
    let good = public(1, 1);
    let judge =
        |s0: &[u8], p0: &[u8], s1: &[u8], p1: &[u8]| search(1, false, 1, 2, s0, p0, s1, p1, 0, 0);
    assert_eq!(judge(&SEED, &good, &[1; 16], &good), 0);
    assert_eq!(judge(&SEED, &good, &SEED, &public(0, 1)), 8);
    assert_eq!(judge(&SEED, &good, &SEED, &public(4, 1)), 7);
    assert_eq!(judge(&SEED, &public(4, 1), &SEED, &good), 7);
    assert_eq!(alike(&SEED, &public(4, 1)), 7);
    assert_eq!(judge(&SEED, &public(4, 1), &SEED, &public(1, P)), 6);
    assert_eq!(judge(&SEED, &public(1, P), &SEED, &good), 6);
    assert_eq!(judge(&SEED, &good, &[], &[]), 4);
    assert_eq!(judge(&[], &[], &SEED, &good), 4);
    assert_eq!(judge(&SEED, &good, &[], &good), 4);
    assert_eq!(judge(&SEED, &good, &SEED, &[]), 4);
    assert_eq!(judge(&SEED, &good, &SEED, &public(1, P)[1..]), 4);
    assert_eq!(judge(&[], &[], &[], &[]), 0);
    let publics = vec![255; 65_536 * 25];
    let seeds = vec![0; 65_536 * 16];
    assert_eq!(alike(&seeds, &publics), 5);
    assert_eq!(alike(&seeds[16..], &publics[25..]), 6);
    assert_eq!(judge(&seeds, &publics, &seeds[16..], &publics[25..]), 4);
    assert_eq!(alike(&seeds[16..], &vec![0; 65_535 * 25]), 0);
}

/// Example J holds with the head of request [4], and example D's list takes one byte.
#[test]
fn example_j() {
    assert!(level_fits(56, 0, 1, 2));
    assert!(level_fits(56, 24, 2, 2));
    assert!(!level_fits(55, 24, 2, 2));
    assert!(list_fits(1, 2, 1));
    assert!(!list_fits(0, 2, 1));
    assert!(list_fits(0, 2, 0));
    assert!(next_passes(131_070));
    assert!(!next_passes(131_071));
}

/// No area without room for the head and the first level is enough.
#[test]
fn head_and_first_level() {
    for room in 0..40 {
        assert_eq!(level_fits(room, 0, 1, 2), room >= 32);
    }
}

/// Sizes that no `usize` holds do not fit.
#[test]
fn overflow() {
    assert!(!level_fits(usize::MAX, 0, 1, usize::MAX));
    assert!(!level_fits(usize::MAX, usize::MAX, 1, 2));
    assert!(level_fits(usize::MAX, usize::MAX - 32, 1, 2));
    assert!(!level_fits(usize::MAX, usize::MAX - 31, 1, 2));
    assert!(!level_fits(usize::MAX, usize::MAX - 24, 1, 2));
    assert!(!level_fits(usize::MAX, 0, usize::MAX, 16));
    assert!(!list_fits(usize::MAX, usize::MAX, 16));
    assert!(!next_passes(usize::MAX));
}
