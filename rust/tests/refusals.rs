//! Every cause of refusal met through the crate, and what a refusal leaves.

use tally::{
    add_shares, add_shares_into, answer_space, block_into, combine, combine_into, list_space,
    make_key, make_key_into, public_share_length, query_length, record_space, search, search_into,
    share, share_into, share_length, Answer, Expander, Refusal, Reports, Seed, Server, BITS_MOST,
    FIRST_QUERY, GROUP_ORDER, PREFIXES_MOST, REPORTS_MOST, THRESHOLD_MOST,
};

const AES: Expander = Expander::Aes;
const SEED: Seed = [1; 16];
const NONE: Reports<'static> = Reports {
    seeds: &[],
    public_shares: &[],
};

/// A public share for the string `1`, and reports that hold it.
fn one_bit() -> Vec<u8> {
    make_key(1, AES, &[0x80], &SEED, &SEED).unwrap()
}

fn reports(public_shares: &[u8]) -> Reports<'_> {
    Reports {
        seeds: &[SEED],
        public_shares,
    }
}

/// A share for some reports of one-bit strings.
fn share_of(lent: Reports<'_>) -> Result<Vec<u8>, Refusal> {
    share(1, AES, Server::Zero, lent, &FIRST_QUERY)
}

#[test]
fn refusal_1_string_length() {
    for n in [0, 257, u64::MAX] {
        let refused = Refusal::StringLength;
        assert_eq!(make_key(n, AES, &[], &SEED, &SEED), Err(refused));
        let by = share(n, AES, Server::One, NONE, &FIRST_QUERY);
        assert_eq!(by, Err(refused));
        let combined = combine(n, 1, &FIRST_QUERY, &[0; 16], &[0; 16]);
        assert_eq!(combined, Err(refused));
        assert_eq!(search(n, 1, AES, NONE, NONE), Err(refused));
    }
    assert!(make_key(BITS_MOST, AES, &[0; 32], &SEED, &SEED).is_ok());
    assert!(search(BITS_MOST, 1, AES, NONE, NONE).is_ok());
}

#[test]
fn refusal_2_threshold() {
    for t in [0, 65_536, u64::MAX] {
        let refused = Refusal::Threshold;
        let combined = combine(1, t, &FIRST_QUERY, &[0; 16], &[0; 16]);
        assert_eq!(combined, Err(refused));
        assert_eq!(search(1, t, AES, NONE, NONE), Err(refused));
    }
    assert!(search(1, THRESHOLD_MOST, AES, NONE, NONE).is_ok());
}

#[test]
fn refusal_3_expander() {
    for number in [0, 3, u64::MAX] {
        assert_eq!(Expander::try_from(number), Err(Refusal::Expander));
    }
    for expander in [Expander::Aes, Expander::Classroom] {
        assert_eq!(Expander::try_from(expander.number()), Ok(expander));
    }
}

#[test]
fn refusal_4_input_length() {
    let refused = Refusal::InputLength;
    assert_eq!(make_key(9, AES, &[0], &SEED, &SEED), Err(refused));
    let key = one_bit();
    assert_eq!(share_of(reports(&key[1..])), Err(refused));
    assert_eq!(share_of(reports(&key.repeat(2))), Err(refused));
    let combined = combine(1, 1, &FIRST_QUERY, &[0; 16], &[0; 8]);
    assert_eq!(combined, Err(refused));
    let combined = combine(1, 1, &FIRST_QUERY, &[0; 8], &[0; 8]);
    assert_eq!(combined, Err(refused));
    assert_eq!(add_shares(&[0; 16], &[0; 8]), Err(refused));
    assert_eq!(add_shares(&[0; 12], &[0; 12]), Err(refused));
    assert_eq!(add_shares(&[], &[]), Ok(vec![]));
    assert_eq!(search(1, 1, AES, reports(&key), NONE), Err(refused));
}

#[test]
fn refusal_5_too_many_reports() {
    let many = REPORTS_MOST + 1;
    let (seeds, public_shares) = (vec![SEED; many], vec![0; many * public_share_length(1)]);
    let lent = Reports {
        seeds: &seeds,
        public_shares: &public_shares,
    };
    assert_eq!(share_of(lent), Err(Refusal::TooManyReports));
    let found = search(1, 1, AES, lent, lent);
    assert_eq!(found, Err(Refusal::TooManyReports));
}

#[test]
fn refusal_6_group_number() {
    let refused = Refusal::GroupNumber;
    let mut key = one_bit();
    key[17..].copy_from_slice(&GROUP_ORDER.to_le_bytes());
    assert_eq!(share_of(reports(&key)), Err(refused));
    let found = search(1, 1, AES, reports(&key), reports(&key));
    assert_eq!(found, Err(refused));
    let combined = combine(1, 1, &FIRST_QUERY, &[0xff; 16], &[0; 16]);
    assert_eq!(combined, Err(refused));
    let p = GROUP_ORDER.to_le_bytes();
    assert_eq!(add_shares(&p, &[0; 8]), Err(refused));
    assert_eq!(add_shares(&[0; 8], &p), Err(refused));
}

#[test]
fn refusal_7_spare_bits() {
    let refused = Refusal::SpareBits;
    assert_eq!(make_key(1, AES, &[0x81], &SEED, &SEED), Err(refused));
    let mut key = one_bit();
    key[0] |= 0x04;
    assert_eq!(share_of(reports(&key)), Err(refused));
    let found = search(1, 1, AES, reports(&key), reports(&key));
    assert_eq!(found, Err(refused));
}

#[test]
fn refusal_8_public_shares_differ() {
    let key = one_bit();
    let mut other = key.clone();
    other[1] ^= 1;
    let found = search(1, 1, AES, reports(&key), reports(&other));
    assert_eq!(found, Err(Refusal::PublicSharesDiffer));
}

#[test]
fn refusal_9_query() {
    let refused = Refusal::Query;
    let wrong: [&[u8]; 8] = [
        &[],
        &[0, 0, 0, 0, 0],
        // no prefix
        &[0, 0, 0, 0, 0, 0],
        // a count that is not that of the prefixes
        &[0, 0, 0, 0, 0, 3, 0x00, 0x80],
        &[0, 0, 0xff, 0xff, 0xff, 0xff, 0x00, 0x80],
        // prefixes longer than n
        &[0, 1, 0, 0, 0, 2, 0x00, 0x80],
        // not ascending
        &[0, 0, 0, 0, 0, 2, 0x80, 0x00],
        // a spare bit
        &[0, 0, 0, 0, 0, 2, 0x01, 0x80],
    ];
    for query in wrong {
        let by = share(1, AES, Server::Zero, NONE, query);
        assert_eq!(by, Err(refused), "share of {query:?}");
        let combined = combine(1, 1, query, &[], &[]);
        assert_eq!(combined, Err(refused), "combining for {query:?}");
    }
}

#[test]
fn refusal_11_space() {
    let refused = Err(Refusal::Space);
    let mut space = [7; 64];
    assert_eq!(block_into(AES, &SEED, 0, &mut space[..15]), refused);
    let made = make_key_into(1, AES, &[0x80], &SEED, &SEED, &mut space[..24]);
    assert_eq!(made, refused);
    let by = share_into(1, AES, Server::Zero, NONE, &FIRST_QUERY, &mut space[..15]);
    assert_eq!(by, refused);
    assert_eq!(
        add_shares_into(&[1; 16], &[0; 16], &mut space[..15]),
        refused
    );
    let shares = ([1, 0, 0, 0, 0, 0, 0, 0].repeat(2), [0; 16]);
    let combined = combine_into(2, 1, &FIRST_QUERY, &shares.0, &shares.1, &mut space[..9]);
    assert_eq!(combined, Err(Refusal::Space));
    assert_eq!(space, [7; 64]);
    let combined = combine_into(2, 1, &FIRST_QUERY, &shares.0, &shares.1, &mut space[..10]);
    assert_eq!(combined, Ok(Answer::Next(10)));
}

#[test]
fn refusal_11_list_space_zeroes_the_record() {
    let key = one_bit();
    let (mut record, mut list) = ([7; 38], [7; 0]);
    let lent = reports(&key);
    let found = search_into(1, 1, AES, lent, lent, &mut record, &mut list);
    assert_eq!(found, Err(Refusal::Space));
    assert_eq!(record, [0; 38]);
}

/// A query of that many prefixes of 17 bits, the first ones.
fn wide_query(prefixes: u32) -> Vec<u8> {
    let mut query = vec![0, 16];
    query.extend(prefixes.to_be_bytes());
    for prefix in 0..prefixes {
        query.extend(&(prefix << 15).to_be_bytes()[..3]);
    }
    query
}

#[test]
fn refusal_11_a_next_query_past_the_limit() {
    for (prefixes, passes) in [(65_535, true), (65_536, false)] {
        let query = wide_query(prefixes);
        let share0 = 1u64.to_le_bytes().repeat(prefixes as usize);
        let share1 = vec![0; share0.len()];
        let length = query_length(18, PREFIXES_MOST);
        match combine(18, 1, &query, &share0, &share1) {
            Ok(Answer::Next(next)) => assert!(passes && next.len() == length),
            other => assert_eq!((passes, other), (false, Err(Refusal::Space))),
        }
    }
}

#[test]
fn the_lowest_number_is_returned() {
    let found = search(0, 0, AES, reports(&[]), NONE);
    assert_eq!(found, Err(Refusal::StringLength));
    let found = search(1, 0, AES, reports(&[]), NONE);
    assert_eq!(found, Err(Refusal::Threshold));
}

/// The space of a record as it is defined: the number of reports, then level by level, by recursion.
fn defined_space(n: u64, t: u64, reports: usize) -> usize {
    fn level(k: u32, count: usize) -> usize {
        match count {
            0 => 0,
            count => 6 + count * ((k as usize + 1).div_ceil(8) + 8),
        }
    }
    fn from(w: usize, m: u64, k: u32) -> usize {
        if m == 0 {
            return 0;
        }
        let there_are = 2usize.checked_pow(k + 1).unwrap_or(usize::MAX);
        level(k, there_are.min(2 * w)) + from(w, m - 1, k + 1)
    }
    8 + level(0, 2) + from(reports / t as usize, n - 1, 1)
}

#[test]
fn space_is_as_defined() {
    for n in [1, 2, 8, 9, 15, 16, 17, 18, 64, 255, 256] {
        for t in [1, 2, 7, 65_535] {
            for reports in [0, 1, 2, 3, 100, 32_768, 65_535] {
                let expected = defined_space(n, t, reports);
                assert_eq!(record_space(n, t, reports), expected);
                let strings = reports / t as usize;
                assert_eq!(
                    list_space(n, t, reports),
                    strings * (n as usize).div_ceil(8)
                );
            }
        }
    }
}

#[test]
fn the_largest_and_the_least_space() {
    assert_eq!(record_space(256, 1, REPORTS_MOST), 803_460_134);
    assert_eq!(list_space(256, 1, REPORTS_MOST), 2_097_120);
    assert_eq!(record_space(1, THRESHOLD_MOST, 0), 32);
    assert_eq!(list_space(256, THRESHOLD_MOST, REPORTS_MOST - 1), 0);
}

#[test]
fn space_outside_the_bounds_is_0() {
    for (n, t, reports) in [
        (0, 1, 1),
        (257, 1, 1),
        (u64::MAX, 1, 1),
        (1, 0, 1),
        (1, 65_536, 1),
        (1, u64::MAX, 1),
        (1, 1, 65_536),
        (1, 1, usize::MAX),
    ] {
        assert_eq!(record_space(n, t, reports), 0);
        assert_eq!(list_space(n, t, reports), 0);
    }
    assert_eq!(public_share_length(u64::MAX), 0);
    assert_eq!(query_length(u64::MAX, usize::MAX), 0);
    assert_eq!(share_length(&[0, 0, 0xff, 0xff, 0xff, 0xff, 0x00]), 0);
    for n in [0, 257, u64::MAX] {
        assert_eq!(answer_space(n, &FIRST_QUERY), 0);
    }
}
