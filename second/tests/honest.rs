//! Random honest collections against the brute-force counts.

use second::brute;
use second::exam::entries;
use second::keys::public_share_size;
use second::query::{pack, packed_size, unpack};
use second::rng::Rng;
use second::{key, search};

/// Record and list of the search over honest reports of the strings.
fn searched(rng: &mut Rng, n: usize, t: u64, e: u64, strings: &[Vec<bool>]) -> (Vec<u8>, Vec<u8>) {
    let (mut seeds0, mut seeds1, mut public) = (vec![], vec![], vec![]);
    for string in strings {
        let s0 = rng.bytes(16);
        let s1 = if rng.below(8) == 0 {
            s0.clone()
        } else {
            rng.bytes(16)
        };
        let mut space = vec![0u8; public_share_size(n)];
        let made = key(n as u64, e, 1, &pack(string), &s0, &s1, &mut space);
        assert_eq!((made.number, made.length), (0, space.len() as u64));
        public.extend(space);
        seeds0.extend(s0);
        seeds1.extend(s1);
    }
    let mut record = vec![0u8; 1 << 16];
    let mut list = vec![0u8; 1 << 12];
    let found = search(
        n as u64,
        false,
        t,
        e,
        &seeds0,
        &public,
        &seeds1,
        &public,
        &mut record,
        &mut list,
    );
    assert_eq!(found.number, 0);
    record.truncate(found.record_length as usize);
    list.truncate(found.list_length as usize);
    (record, list)
}

/// Strings with many in common.
fn strings(rng: &mut Rng, n: usize, count: usize) -> Vec<Vec<bool>> {
    let mut all: Vec<Vec<bool>> = Vec::new();
    for _ in 0..count {
        let mut string = rng.bits(n);
        if !all.is_empty() && rng.below(4) != 0 {
            string = all[rng.below(all.len())].clone();
            for bit in string.iter_mut().skip(rng.below(2 * n)) {
                *bit = rng.coin();
            }
        }
        all.push(string);
    }
    all
}

#[test]
fn lists_and_records_are_the_counts() {
    let mut rng = Rng::new(1);
    for round in 0..400 {
        let n = if round < 4 { 40 } else { 1 + rng.below(12) };
        let count = rng.below(9);
        let all = strings(&mut rng, n, count);
        let t = 1 + rng.below(4) as u64;
        let e = 1 + rng.below(2) as u64;
        let (record, list) = searched(&mut rng, n, t, e, &all);
        let found: Vec<Vec<bool>> = list.chunks(packed_size(n)).map(|s| unpack(s, n)).collect();
        assert_eq!(found, brute::heavy(&all, t));
        let queried: Vec<(Vec<bool>, u64)> = entries(&record)
            .into_iter()
            .map(|(length, prefix, total)| (unpack(&prefix, length), total))
            .collect();
        assert_eq!(queried, brute::queried(&all, n, t));
        assert_eq!(record, brute::record(&all, n, t));
    }
}

/// Another collection, often one with the same cut strings.
fn changed(rng: &mut Rng, n: usize, t: u64, all: &[Vec<bool>]) -> Vec<Vec<bool>> {
    let mut other: Vec<Vec<bool>> = match rng.below(4) {
        0 => all.to_vec(),
        1 => strings(rng, n, all.len()),
        _ => brute::cut(all, t)
            .into_iter()
            .map(|mut cut| {
                cut.extend(rng.bits(n - cut.len()));
                cut
            })
            .collect(),
    };
    for i in (1..other.len()).rev() {
        other.swap(i, rng.below(i + 1));
    }
    if rng.below(3) == 0 && !other.is_empty() {
        let at = rng.below(other.len());
        let bit = rng.below(n);
        other[at][bit] ^= true;
    }
    other
}

#[test]
fn records_are_equal_exactly_when_cut_strings_are_rearranged() {
    let mut rng = Rng::new(2);
    let (mut equal, mut different) = (0, 0);
    for _ in 0..400 {
        let n = 1 + rng.below(8);
        let count = rng.below(8);
        let all = strings(&mut rng, n, count);
        let t = 1 + rng.below(4) as u64;
        let other = changed(&mut rng, n, t, &all);
        let e = 1 + rng.below(2) as u64;
        let first = searched(&mut rng, n, t, e, &all).0;
        let second = searched(&mut rng, n, t, e, &other).0;
        let same = brute::cut(&all, t) == brute::cut(&other, t);
        assert_eq!(first == second, same);
        // The head says nothing that the totals do not say, where every weight is one.
        assert_eq!(first[8..] == second[8..], same);
        if same {
            equal += 1;
        } else {
            different += 1;
        }
    }
    assert!(equal > 50 && different > 50, "{equal} {different}");
}

#[test]
fn cut_strings_of_the_sheet() {
    let bits = |text: &str| -> Vec<bool> { text.chars().map(|c| c == '1').collect() };
    let all = |texts: [&str; 3]| -> Vec<Vec<bool>> { texts.map(bits).to_vec() };
    let d = brute::cut(&all(["01", "01", "11"]), 2);
    assert_eq!(d, all(["01", "01", "1"]));
    assert_eq!(d, brute::cut(&all(["01", "01", "10"]), 2));
    let f = brute::cut(&all(["01", "00", "11"]), 2);
    assert_eq!(f, all(["00", "01", "1"]));
}
