//! Weighted searches of honest reports: known ones, and random ones against brute force.

mod weighing;

use second::brute::{self, Weighed};
use second::field::P;
use second::keys::public_share_size;
use second::query::{pack, write};
use second::rng::Rng;
use second::{key, list_space, record_space, search, Found};
use weighing::{bits, weighed, written};

const MOST: u64 = 2_147_483_647;

/// Honest reports of one search.
struct Honest {
    n: u64,
    e: u64,
    seeds: [Vec<u8>; 2],
    public: Vec<u8>,
}

impl Honest {
    /// Reports of these strings and weights, with seeds by chance.
    fn of(rng: &mut Rng, n: usize, e: u64, reports: &[Weighed]) -> Honest {
        let (mut seeds, mut public) = ([vec![], vec![]], vec![]);
        for (string, weight) in reports {
            let s0 = rng.bytes(16);
            let s1 = match rng.below(8) {
                0 => s0.clone(),
                _ => rng.bytes(16),
            };
            let mut space = vec![0u8; public_share_size(n)];
            let made = key(n as u64, e, *weight, &pack(string), &s0, &s1, &mut space);
            assert_eq!((made.number, made.length), (0, space.len() as u64));
            public.extend(space);
            seeds[0].extend(s0);
            seeds[1].extend(s1);
        }
        let n = n as u64;
        Honest {
            n,
            e,
            seeds,
            public,
        }
    }

    /// The search's answer, with what it leaves in areas of these sizes.
    fn search(&self, weighted: bool, t: u64, rooms: [usize; 2]) -> (Found, Vec<u8>, Vec<u8>) {
        let [mut record, mut list] = rooms.map(|room| vec![0xee; room]);
        let found = search(
            self.n,
            weighted,
            t,
            self.e,
            &self.seeds[0],
            &self.public,
            &self.seeds[1],
            &self.public,
            &mut record,
            &mut list,
        );
        (found, record, list)
    }

    /// The record and the list of a search that passes.
    fn searched(&self, weighted: bool, t: u64) -> (Vec<u8>, Vec<u8>) {
        written(self.search(weighted, t, [1 << 16, 1 << 12]))
    }
}

/// The record of this many reports with these levels.
fn record_of(reports: u8, levels: &[Vec<u8>]) -> Vec<u8> {
    [vec![0, 0, 0, 0, 0, 0, 0, reports], levels.concat()].concat()
}

/// The query and the totals of one level.
fn level(length: usize, prefixes: &[u8], totals: &[u64]) -> Vec<u8> {
    let packed: Vec<Vec<u8>> = prefixes.iter().map(|&byte| vec![byte]).collect();
    let totals = totals.iter().flat_map(|total| total.to_le_bytes());
    write(length, &packed).into_iter().chain(totals).collect()
}

#[test]
fn a_heavy_child_under_a_light_parent_is_not_listed() {
    let reports = weighed(&[("01", 5), ("01", -2), ("11", -7), ("10", 4)]);
    let first = level(1, &[0x00, 0x80], &[3, P - 3]);
    let record = record_of(4, &[first.clone(), level(2, &[0x00, 0x40], &[0, 3])]);
    assert_eq!(
        record[24..32],
        [0xfe, 0xff, 0xff, 0xff, 0xfe, 0xff, 0xff, 0xff]
    );
    assert_eq!(brute::weight_held(&reports, &bits("10")), 4);
    let mut rng = Rng::new(21);
    for e in [1, 2] {
        let honest = Honest::of(&mut rng, 2, e, &reports);
        assert_eq!(honest.searched(true, 2), (record.clone(), vec![0x40]));
        assert_eq!(honest.searched(true, 3), (record.clone(), vec![0x40]));
        let (found, area, list) = honest.search(true, 2, [55, 1]);
        assert_eq!((found.number, area, list), (11, vec![0; 55], vec![0xee]));
        let (found, area, list) = honest.search(true, 2, [60, 0]);
        assert_eq!((found.number, area, list), (11, vec![0; 60], vec![]));
        let ended = record_of(4, std::slice::from_ref(&first));
        assert_eq!(honest.searched(true, 4), (ended, vec![]));
    }
}

#[test]
fn a_negative_total_stands_raw_in_the_record() {
    let reports = weighed(&[("1", -5), ("0", 1)]);
    let mut rng = Rng::new(22);
    for e in [1, 2] {
        let honest = Honest::of(&mut rng, 1, e, &reports);
        let (record, list) = honest.searched(true, 1);
        assert_eq!(list, [0x00]);
        let raw = [0xfc, 0xff, 0xff, 0xff, 0xfe, 0xff, 0xff, 0xff];
        assert_eq!(record[..8], [0, 0, 0, 0, 0, 0, 0, 2]);
        assert_eq!(record[8..16], [0, 0, 0, 0, 0, 2, 0x00, 0x80]);
        assert_eq!(record[16..24], [1, 0, 0, 0, 0, 0, 0, 0]);
        assert_eq!(record[24..], raw);
        assert_eq!(u64::from_le_bytes(raw), P - 5);
        assert_eq!(honest.searched(false, 1), (record, vec![0x00, 0x80]));
    }
}

#[test]
fn weights_at_their_ends() {
    let mut rng = Rng::new(23);
    for e in [1, 2] {
        for weight in [-32_768, -32_767, -1, 0, 1, 32_766, 32_767] {
            for n in [1, 3, 9] {
                let reports = vec![(rng.bits(n), weight); 3];
                let honest = Honest::of(&mut rng, n, e, &reports);
                let sum = 3 * i64::from(weight);
                for t in [1, 2, 3, 98_300, 98_301, 98_302, MOST] {
                    let wanted = brute::weighted_answer(&reports, n, t);
                    assert_eq!(!wanted.1.is_empty(), sum >= t as i64);
                    assert_eq!(honest.searched(true, t), wanted);
                }
            }
        }
    }
}

/// Strings with many in common, each with any weight.
fn collection(rng: &mut Rng, n: usize, count: usize) -> Vec<Weighed> {
    let mut all: Vec<Weighed> = Vec::new();
    let small = rng.coin();
    for i in 0..count {
        let mut string = rng.bits(n);
        if i > 0 && rng.below(4) != 0 {
            string = all[rng.below(i)].0.clone();
            for bit in string.iter_mut().skip(rng.below(2 * n)) {
                *bit = rng.coin();
            }
        }
        let near = rng.below(9) as i16 - 3;
        let any = rng.number() as i16;
        let end = rng.pick(&[-32_768, -1, 0, 1, 32_767]);
        let wide = rng.pick(&[near, any, end]);
        all.push((string, if small { near } else { wide }));
    }
    all
}

#[test]
fn random_weighted_collections_against_brute_force() {
    let mut rng = Rng::new(24);
    let (mut listed, mut negative, mut light) = (0, 0, 0);
    for round in 0..500 {
        let n = if round < 4 { 40 } else { 1 + rng.below(8) };
        let count = rng.below(10);
        let reports = collection(&mut rng, n, count);
        let sums: Vec<i64> = reports
            .iter()
            .map(|(string, _)| brute::weight_held(&reports, &string[..1 + rng.below(n)]))
            .filter(|&sum| sum > 0)
            .collect();
        let mut t = rng.pick(&[1, 1, 2, 3, 5, 32_767, 32_768, 65_536]);
        if !sums.is_empty() && rng.coin() {
            t = rng.pick(&sums) as u64;
        }
        let e = 1 + rng.below(2) as u64;
        let honest = Honest::of(&mut rng, n, e, &reports);
        let (record, list) = brute::weighted_answer(&reports, n, t);
        assert_eq!(honest.searched(true, t), (record.clone(), list.clone()));
        let named = [record_space, list_space].map(|f| f(n as u64, true, t, count as u64) as usize);
        let passed = honest.search(true, t, named).0;
        assert_eq!(passed.number, 0);
        let exact = honest.search(true, t, [record.len(), list.len()]);
        assert_eq!((exact.1, exact.2), (record.clone(), list.clone()));
        let short = honest.search(true, t, [record.len() - 1, list.len()]).0;
        assert_eq!(short.number, 11);
        if !list.is_empty() {
            let short = honest.search(true, t, [record.len(), list.len() - 1]).0;
            assert_eq!(short.number, 11);
        }
        listed += usize::from(!list.is_empty());
        let queried = brute::weighted_queried(&reports, n, t);
        negative += usize::from(queried.iter().any(|&(_, total)| total < 0));
        let whole = |string| brute::weight_held(&reports, string) >= t as i64;
        light += reports
            .iter()
            .filter(|(string, _)| whole(string) && !brute::in_weighted_list(&reports, string, t))
            .count();
        if n <= 8 {
            // The definition asked of every string of n bits, held or not.
            let all =
                (0..1usize << n).map(|code| (0..n).rev().map(|i| code >> i & 1 == 1).collect());
            let every: Vec<Vec<bool>> = all
                .filter(|string: &Vec<bool>| brute::in_weighted_list(&reports, string, t))
                .collect();
            assert_eq!(brute::weighted_list(&reports, t), every);
        }
    }
    assert!(
        listed > 100 && negative > 100 && light > 20,
        "{listed} {negative} {light}"
    );
}

#[test]
fn weights_of_one_agree_with_the_unweighted_search() {
    let mut rng = Rng::new(25);
    for _ in 0..200 {
        let n = 1 + rng.below(9);
        let count = rng.below(10);
        let mut reports = collection(&mut rng, n, count);
        reports.iter_mut().for_each(|(_, weight)| *weight = 1);
        let strings: Vec<Vec<bool>> = reports.iter().map(|(string, _)| string.clone()).collect();
        let t = rng.pick(&[1, 1, 2, 3, 4, 65_535]);
        let e = 1 + rng.below(2) as u64;
        let honest = Honest::of(&mut rng, n, e, &reports);
        let (record, list) = honest.searched(true, t);
        assert_eq!((record, list.clone()), honest.searched(false, t));
        assert_eq!(brute::weighted_list(&reports, t), brute::heavy(&strings, t));
        let heavy: Vec<u8> = brute::heavy(&strings, t)
            .iter()
            .flat_map(|s| pack(s))
            .collect();
        assert_eq!(list, heavy);
        let signed = brute::weighted_queried(&reports, n, t);
        let counted = brute::queried(&strings, n, t);
        assert!(signed
            .iter()
            .map(|(p, x)| (p, *x as u64))
            .eq(counted.iter().map(|(p, x)| (p, *x))));
    }
}

#[test]
fn the_largest_sums() {
    let mut rng = Rng::new(26);
    for (weight, sum) in [(32_767, 2_147_385_345i64), (-32_768, -2_147_450_880)] {
        let one = vec![(bits("1"), weight)];
        let mut honest = Honest::of(&mut rng, 1, 2, &one);
        honest.seeds = honest.seeds.map(|seed| seed.repeat(65_535));
        honest.public = honest.public.repeat(65_535);
        let total = i128::from(sum).rem_euclid(i128::from(P)) as u64;
        let head = vec![0, 0, 0, 0, 0, 0, 0xff, 0xff];
        let record = [head, level(1, &[0x00, 0x80], &[0, total])].concat();
        for t in [1, 2_147_385_345, 2_147_385_346, MOST] {
            let list = if sum >= t as i64 { vec![0x80] } else { vec![] };
            assert_eq!(honest.searched(true, t), (record.clone(), list));
        }
    }
}
