//! Combining in plain Rust: the same checks and the same answers as the proved library's.

const P: u64 = 0xffff_ffff_0000_0001;
const MOST_PREFIXES: usize = 131_070;

/// What combining answers, with the bytes written.
#[derive(Debug, PartialEq, Eq)]
pub enum Answer {
    Next(usize),
    List(usize),
    Ended,
    Refused(u64),
}

/// The prefix length and the count of a query as laid out for strings of n bits.
pub fn read_query(n: usize, query: &[u8]) -> Option<(usize, usize)> {
    if query.len() < 6 {
        return None;
    }
    let length = u16::from_be_bytes([query[0], query[1]]) as usize + 1;
    let count = u32::from_be_bytes([query[2], query[3], query[4], query[5]]) as usize;
    let size = length.div_ceil(8);
    if length > n || !(1..=MOST_PREFIXES).contains(&count) || query.len() != 6 + count * size {
        return None;
    }
    let spare = (1u16 << (8 * size - length)) as u8;
    let prefixes = query[6..].chunks_exact(size);
    if prefixes
        .clone()
        .any(|prefix| prefix[size - 1] & spare.wrapping_sub(1) != 0)
    {
        return None;
    }
    let mut next = prefixes.clone();
    next.next();
    prefixes
        .zip(next)
        .all(|(a, b)| a < b)
        .then_some((length, count))
}

fn numbers(share: &[u8]) -> impl Iterator<Item = u64> + '_ {
    share
        .chunks_exact(8)
        .map(|bytes| u64::from_le_bytes(bytes.try_into().unwrap()))
}

fn add(x: u64, y: u64) -> u64 {
    ((x as u128 + y as u128) % P as u128) as u64
}

/// x − y modulo p, for numbers below p.
pub fn minus(x: u64, y: u64) -> u64 {
    add(x, (P - y) % P)
}

/// A total as a weighted search reads it.
fn signed(total: u64) -> i64 {
    match total <= (P - 1) / 2 {
        true => total as i64,
        false => total.wrapping_sub(P) as i64,
    }
}

/// Whether a total reaches the threshold, as a number or read as a signed one.
fn reaches(weighted: bool, t: u64, total: u64) -> bool {
    match weighted {
        true => signed(total) >= t as i64,
        false => total >= t,
    }
}

/// Whether each prefix is kept, in order.
fn kept<'a>(
    weighted: bool,
    t: u64,
    share0: &'a [u8],
    share1: &'a [u8],
) -> impl Iterator<Item = bool> + 'a {
    numbers(share0)
        .zip(numbers(share1))
        .map(move |(x, y)| reaches(weighted, t, add(x, y)))
}

/// Combines two shares for a query into the next query or the list.
pub fn combine(
    n: usize,
    weighted: bool,
    t: u64,
    query: &[u8],
    share0: &[u8],
    share1: &[u8],
    out: &mut [u8],
) -> Answer {
    if !(1..=256).contains(&n) {
        return Answer::Refused(1);
    }
    let (most, outside) = match weighted {
        true => (2_147_483_647, 12),
        false => (65_535, 2),
    };
    if !(1..=most).contains(&t) {
        return Answer::Refused(outside);
    }
    let read = read_query(n, query);
    let wrong_count = |(_, count)| share0.len() != 8 * count;
    if share0.len() != share1.len() || share0.len() % 8 != 0 || read.is_some_and(wrong_count) {
        return Answer::Refused(4);
    }
    if numbers(share0).chain(numbers(share1)).any(|x| x >= P) {
        return Answer::Refused(6);
    }
    let Some((length, _)) = read else {
        return Answer::Refused(9);
    };
    let size = length.div_ceil(8);
    let kept = || kept(weighted, t, share0, share1);
    let keep = kept().filter(|&k| k).count();
    let prefixes = query[6..].chunks_exact(size).zip(kept());
    if length == n {
        let need = keep * size;
        if out.len() < need {
            return Answer::Refused(11);
        }
        let places = out[..need].chunks_exact_mut(size);
        for (place, (prefix, _)) in places.zip(prefixes.filter(|(_, k)| *k)) {
            place.copy_from_slice(prefix);
        }
        return Answer::List(need);
    }
    if keep == 0 {
        return Answer::Ended;
    }
    let child = (length + 1).div_ceil(8);
    let need = 6 + 2 * keep * child;
    if 2 * keep > MOST_PREFIXES || out.len() < need {
        return Answer::Refused(11);
    }
    out[..2].copy_from_slice(&(length as u16).to_be_bytes());
    out[2..6].copy_from_slice(&(2 * keep as u32).to_be_bytes());
    let places = out[6..need].chunks_exact_mut(2 * child);
    for (place, (prefix, _)) in places.zip(prefixes.filter(|(_, k)| *k)) {
        let (left, right) = place.split_at_mut(child);
        for side in [&mut *left, &mut *right] {
            side[..size].copy_from_slice(prefix);
            side[size..].fill(0);
        }
        right[length / 8] |= 128 >> (length % 8);
    }
    Answer::Next(need)
}
