//! The head of the record: the number of reports, 8 bytes, big-endian.

mod weighing;

use second::brute::{self, Weighed};
use second::field::P;
use second::keys::public_share_size;
use second::query::pack;
use second::rng::Rng;
use second::{key, list_space, record_space, search, Found};
use weighing::{weighed, written};

/// What the search is lent but for its two areas.
#[derive(Clone)]
struct Lent {
    n: u64,
    weighted: bool,
    t: u64,
    e: u64,
    seeds: [Vec<u8>; 2],
    public: [Vec<u8>; 2],
}

impl Lent {
    /// The search of honest reports of these strings and weights.
    fn of(rng: &mut Rng, n: usize, e: u64, reports: &[Weighed]) -> Lent {
        let (mut seeds, mut public) = ([vec![], vec![]], vec![]);
        for (string, weight) in reports {
            let [s0, s1] = [rng.bytes(16), rng.bytes(16)];
            let mut space = vec![0u8; public_share_size(n)];
            let made = key(n as u64, e, *weight, &pack(string), &s0, &s1, &mut space);
            assert_eq!((made.number, made.length), (0, space.len() as u64));
            public.extend(space);
            seeds[0].extend(s0);
            seeds[1].extend(s1);
        }
        Lent {
            n: n as u64,
            weighted: true,
            t: 1,
            e,
            seeds,
            public: [public.clone(), public],
        }
    }

    /// The answer, with what it leaves in areas of these sizes.
    fn search(&self, rooms: [usize; 2]) -> (Found, Vec<u8>, Vec<u8>) {
        let [mut record, mut list] = rooms.map(|room| vec![0xee; room]);
        let found = search(
            self.n,
            self.weighted,
            self.t,
            self.e,
            &self.seeds[0],
            &self.public[0],
            &self.seeds[1],
            &self.public[1],
            &mut record,
            &mut list,
        );
        (found, record, list)
    }

    /// The record and the list of a search that passes.
    fn searched(&self) -> (Vec<u8>, Vec<u8>) {
        written(self.search([1 << 14, 1 << 8]))
    }
}

fn refused(number: u64) -> Found {
    Found {
        number,
        record_length: 0,
        list_length: 0,
    }
}

#[test]
fn heads_of_few_and_of_many_reports() {
    let mut rng = Rng::new(41);
    for (count, head) in [
        (0, [0, 0, 0, 0, 0, 0, 0x00, 0x00]),
        (1, [0, 0, 0, 0, 0, 0, 0x00, 0x01]),
        (2, [0, 0, 0, 0, 0, 0, 0x00, 0x02]),
        (255, [0, 0, 0, 0, 0, 0, 0x00, 0xff]),
        (256, [0, 0, 0, 0, 0, 0, 0x01, 0x00]),
        (257, [0, 0, 0, 0, 0, 0, 0x01, 0x01]),
        (300, [0, 0, 0, 0, 0, 0, 0x01, 0x2c]),
        (32_768, [0, 0, 0, 0, 0, 0, 0x80, 0x00]),
        (65_534, [0, 0, 0, 0, 0, 0, 0xff, 0xfe]),
        (65_535, [0, 0, 0, 0, 0, 0, 0xff, 0xff]),
    ] {
        for (e, weight) in [(1, 1), (2, 1), (2, -3)] {
            if e == 1 && count > 300 {
                continue;
            }
            let one = [(vec![true], weight)];
            let mut lent = Lent::of(&mut rng, 1, e, &one);
            lent.seeds = lent.seeds.map(|seed| seed.repeat(count));
            lent.public = lent.public.map(|share| share.repeat(count));
            let sum = i128::from(weight) * count as i128;
            let total = sum.rem_euclid(i128::from(P)) as u64;
            for weighted in [false, true] {
                lent.weighted = weighted;
                let (record, _) = lent.searched();
                assert_eq!(record[..8], head);
                assert_eq!(record[8..16], [0, 0, 0, 0, 0, 2, 0x00, 0x80]);
                assert_eq!(record[16..24], [0; 8]);
                assert_eq!(record[24..], total.to_le_bytes());
            }
        }
    }
}

#[test]
fn hundreds_of_different_reports() {
    let mut rng = Rng::new(42);
    for (n, count, t) in [(1, 300, 1), (3, 256, 20), (8, 300, 4), (9, 515, 3)] {
        let strings: Vec<Vec<bool>> = (0..count).map(|_| rng.bits(n)).collect();
        let reports: Vec<Weighed> = strings.iter().map(|s| (s.clone(), 1)).collect();
        let mut lent = Lent::of(&mut rng, n, 2, &reports);
        lent.t = t;
        for weighted in [false, true] {
            lent.weighted = weighted;
            let (record, list) = lent.searched();
            assert_eq!(record, brute::record(&strings, n, t));
            assert_eq!((record, list), brute::weighted_answer(&reports, n, t));
        }
    }
}

#[test]
fn all_reports_are_counted_whatever_their_weights() {
    let mut rng = Rng::new(43);
    let groups: [&[&[(&str, i16)]]; 3] = [
        // Nothing, weights of zero, and weights that cancel.
        &[
            &[],
            &[("01", 0)],
            &[("01", 7), ("01", -7)],
            &[("11", 32_767), ("11", 1), ("11", -32_768), ("00", 0)],
        ],
        // A weight of five, in one report or in more.
        &[
            &[("10", 5)],
            &[("10", 2), ("10", 3)],
            &[("10", 9), ("10", -4), ("01", 0)],
            &[("10", 1), ("10", 1), ("10", 1), ("10", 1), ("10", 1)],
        ],
        // Weights of the collection of example D, with others that cancel.
        &[
            &[("01", 1), ("01", 1), ("11", 1)],
            &[("01", 2), ("11", 1)],
            &[
                ("01", 3),
                ("01", -1),
                ("11", 1),
                ("00", 8),
                ("00", -8),
                ("10", 0),
            ],
        ],
    ];
    for e in [1, 2] {
        for weighted in [false, true] {
            for group in groups {
                let mut met: Vec<(Vec<u8>, Vec<u8>)> = vec![];
                for reports in group {
                    let mut lent = Lent::of(&mut rng, 2, e, &weighed(reports));
                    lent.weighted = weighted;
                    let (record, list) = lent.searched();
                    assert_eq!(record[..8], [0, 0, 0, 0, 0, 0, 0, reports.len() as u8]);
                    for (other, other_list) in &met {
                        assert_ne!(&record[..8], &other[..8]);
                        assert_eq!(&record[8..], &other[8..]);
                        assert_eq!(&list, other_list);
                    }
                    met.push((record, list));
                }
            }
        }
    }
}

#[test]
fn eleven_leaves_no_head() {
    let mut rng = Rng::new(44);
    let three = weighed(&[("0110", 1), ("0110", 1), ("1101", 1)]);
    for e in [1, 2] {
        for reports in [&three[..], &[]] {
            for weighted in [false, true] {
                let mut lent = Lent::of(&mut rng, 4, e, reports);
                lent.weighted = weighted;
                let (record, list) = lent.searched();
                for room in 0..record.len() {
                    let (found, area, untouched) = lent.search([room, list.len() + 2]);
                    assert_eq!((found, area), (refused(11), vec![0; room]));
                    assert_eq!(untouched, vec![0xee; list.len() + 2]);
                }
                for room in 0..list.len() {
                    let (found, area, untouched) = lent.search([record.len() + 9, room]);
                    assert_eq!((found, area), (refused(11), vec![0; record.len() + 9]));
                    assert_eq!(untouched, vec![0xee; room]);
                }
                let (found, area, whole) = lent.search([record.len() + 9, list.len()]);
                assert_eq!((found.number, whole), (0, list));
                assert_eq!(found.record_length, record.len() as u64);
                assert_eq!(area, [&record[..], &[0xee; 9]].concat());
            }
        }
    }
}

#[test]
fn other_refusals_leave_the_area() {
    type Cause = (u64, fn(&mut Lent));
    const CAUSES: [Cause; 10] = [
        (1, |lent| lent.n = 0),
        (1, |lent| lent.n = 257),
        (2, |lent| (lent.weighted, lent.t) = (false, 65_536)),
        (12, |lent| (lent.weighted, lent.t) = (true, 0)),
        (3, |lent| lent.e = 3),
        (4, |lent| lent.seeds[1].truncate(15)),
        (5, |lent| {
            lent.seeds = [vec![0; 16 * 65_536], vec![0; 16 * 65_536]];
            lent.public = [vec![0; 73 * 65_536], vec![0; 73 * 65_536]];
        }),
        (6, |lent| lent.public[0][65..].fill(0xff)),
        (7, |lent| lent.public[1][0] |= 0x40),
        (8, |lent| lent.public[1][1] ^= 0x01),
    ];
    let mut rng = Rng::new(45);
    let right = Lent::of(&mut rng, 3, 2, &weighed(&[("101", 1)]));
    assert_eq!(right.searched().0.len(), 80);
    for (number, change) in CAUSES {
        let mut lent = right.clone();
        change(&mut lent);
        for room in [0, 7, 8, 9, 31, 32, 79, 80, 100] {
            let (found, record, list) = lent.search([room, 1]);
            assert_eq!((found, record), (refused(number), vec![0xee; room]));
            assert_eq!(list, [0xee]);
        }
    }
}

/// The named space has room for the head, and no more where every kept prefix has the fewest
/// holders.
#[test]
fn named_space() {
    for (n, t, reports, wanted) in [
        (1, 1, 0, 32),
        (1, 1, 65_535, 32),
        (2, 2, 3, 56),
        (2, 1, 3, 74),
        (256, 65_535, 65_534, 32),
        (256, 65_535, 65_535, 14_088),
    ] {
        for weighted in [false, true] {
            if t == 1 || !weighted {
                assert_eq!(record_space(n, weighted, t, reports), wanted);
            }
        }
    }
    for (n, t, reports) in [(0, 1, 1), (257, 1, 1), (1, 0, 1), (1, 1, 65_536)] {
        assert_eq!(record_space(n, false, t, reports), 0);
        assert_eq!(record_space(n, true, t, reports), 0);
    }
    let mut rng = Rng::new(46);
    for n in [1, 2, 5, 9] {
        for (kinds, holders) in [(1, 1), (2, 1), (2, 3), (1, 256)] {
            let mut strings = [rng.bits(n), rng.bits(n)];
            (strings[0][0], strings[1][0]) = (false, true);
            let each = strings[..kinds].iter().cycle().take(kinds * holders);
            let reports: Vec<Weighed> = each.map(|string| (string.clone(), 1)).collect();
            let mut lent = Lent::of(&mut rng, n, 2, &reports);
            (lent.weighted, lent.t) = (false, holders as u64);
            let count = reports.len() as u64;
            let named = [record_space, list_space].map(|f| f(lent.n, false, lent.t, count));
            let (record, list) = lent.searched();
            assert_eq!(named, [record.len() as u64, list.len() as u64]);
        }
    }
}
