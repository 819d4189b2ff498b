//! Combining two servers' shares into the next query or the list.

use crate::query::{self, Query};
use crate::{field, judge, Combined};

/// What combining answers.
pub enum Answer {
    Next(Vec<u8>),
    List(Vec<u8>),
    Ended,
}

/// Whether a total reaches t, read signed in a weighted search.
fn reaches(weighted: bool, t: u64, total: u64) -> bool {
    if weighted {
        field::signed(total) >= t as i64
    } else {
        total >= t
    }
}

/// The answer to a query's totals.
pub fn answer(n: usize, weighted: bool, t: u64, query: &Query, totals: &[u64]) -> Answer {
    let kept: Vec<usize> = (0..query.count)
        .filter(|&i| reaches(weighted, t, totals[i]))
        .collect();
    if query.length == n {
        let list = kept.iter().flat_map(|&i| query.prefix(i).to_vec());
        return Answer::List(list.collect());
    }
    if kept.is_empty() {
        return Answer::Ended;
    }
    let mut children = Vec::new();
    for i in kept {
        children.push(query::child(query.prefix(i), query.length, false));
        children.push(query::child(query.prefix(i), query.length, true));
    }
    Answer::Next(query::write(query.length + 1, &children))
}

/// The totals of two shares, one number a prefix.
pub fn totals(share0: &[u64], share1: &[u64]) -> Vec<u64> {
    share0
        .iter()
        .zip(share1)
        .map(|(&a, &b)| field::add(a, b))
        .collect()
}

/// Writes the next query or the list, or says that the search ended.
pub fn combine(
    n: u64,
    weighted: bool,
    t: u64,
    query: &[u8],
    share0: &[u8],
    share1: &[u8],
    out: &mut [u8],
) -> Combined {
    let number = judge::combine(n, weighted, t, query, share0, share1, out.len());
    if number != 0 {
        return Combined {
            number,
            kind: 0,
            length: 0,
        };
    }
    let share0: Vec<u64> = share0.chunks(8).map(field::read).collect();
    let share1: Vec<u64> = share1.chunks(8).map(field::read).collect();
    let totals = totals(&share0, &share1);
    let (kind, bytes) = match answer(n as usize, weighted, t, &Query::of(query), &totals) {
        Answer::Next(bytes) => (1, bytes),
        Answer::List(bytes) => (2, bytes),
        Answer::Ended => (3, Vec::new()),
    };
    out[..bytes.len()].copy_from_slice(&bytes);
    Combined {
        number,
        kind,
        length: bytes.len() as u64,
    }
}
