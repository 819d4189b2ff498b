//! The measure of combining.

use crate::blocks_and_keys::string;
use crate::plain_combine;
use crate::timing::{Column, Measure, Subject, Timed};
use crate::Plan;
use tally::{Answer, Expander, Settings};

/// A query of `count` prefixes of `length` bits that ascend by their first four bytes, and two shares whose totals are all `total`.
fn lent_shares(length: usize, count: usize, total: u64) -> (Vec<u8>, [Vec<u8>; 2]) {
    let mut query = Vec::new();
    query.extend_from_slice(&(length as u16 - 1).to_be_bytes());
    query.extend_from_slice(&(count as u32).to_be_bytes());
    let mut shares = [Vec::new(), Vec::new()];
    for i in 0..count {
        let mut prefix = string(length);
        prefix[..4].copy_from_slice(&(i as u32 * 3).to_be_bytes());
        query.extend_from_slice(&prefix);
        let x = i as u64 * 0x1234_5678_9abc;
        shares[0].extend_from_slice(&x.to_le_bytes());
        shares[1].extend_from_slice(&plain_combine::minus(total, x).to_le_bytes());
    }
    (query, shares)
}

/// A few bytes of a long answer, enough to keep it from being left out.
fn sample(bytes: &[u8]) -> Vec<u8> {
    bytes.iter().step_by(bytes.len() / 64).copied().collect()
}

/// One prefix of combining 60,000 prefixes of 255 bits, all of which are kept, for a weighted search or another.
pub fn measure_combining(plan: &Plan, weighted: bool) -> Timed {
    let (length, count, t) = (255, 60_000, 10);
    let (settings, kind) = match weighted {
        true => (
            Settings::new(256, t, Expander::Aes).weighted(),
            ", weighted",
        ),
        false => (Settings::new(256, t, Expander::Aes), ""),
    };
    let (query, [share0, share1]) = lent_shares(length, count, t);
    let need = 6 + 2 * count * (length + 1).div_ceil(8);
    let mut proved_out = vec![0u8; need];
    let mut plain_out = vec![0u8; need];
    let measure = Measure {
        title: format!("combining 60,000 prefixes of 255 bits, all kept{kind}: one prefix"),
        cleared: "no, reused",
        calls: 1,
        parts: count,
        rounds: plan.rounds,
    };
    let timed = measure.compare(vec![
        Subject::proved(|_| {
            let answer = settings.combine_into(&query, &share0, &share1, &mut proved_out);
            assert_eq!(answer, Ok(Answer::Next(need)));
            sample(&proved_out)
        }),
        Subject::new("", Column::NoAes, |_| {
            let out = &mut plain_out;
            let answer = plain_combine::combine(256, weighted, t, &query, &share0, &share1, out);
            assert_eq!(answer, plain_combine::Answer::Next(need));
            sample(&plain_out)
        }),
    ]);
    assert!(proved_out == plain_out);
    timed
}
