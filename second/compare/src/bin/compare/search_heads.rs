//! Fixed calls of the whole search, weighted and not, about the head of the record: numbers of
//! reports that differ in one of its bytes or in both, and areas of every size around the head and
//! around the end of each level.

use crate::search_cases::*;
use crate::searches::Call;
use crate::weighted_search_cases::{held, weighed};
use second::brute::Weighed;
use second::keys::public_share_size;
use second::rng::Rng;

/// Numbers of reports, each with the last two bytes of its head.
const COUNTS: [(usize, [u8; 2]); 18] = [
    (0, [0x00, 0x00]),
    (1, [0x00, 0x01]),
    (127, [0x00, 0x7f]),
    (128, [0x00, 0x80]),
    (255, [0x00, 0xff]),
    (256, [0x01, 0x00]),
    (257, [0x01, 0x01]),
    (258, [0x01, 0x02]),
    (300, [0x01, 0x2c]),
    (511, [0x01, 0xff]),
    (512, [0x02, 0x00]),
    (4_096, [0x10, 0x00]),
    (32_767, [0x7f, 0xff]),
    (32_768, [0x80, 0x00]),
    (65_279, [0xfe, 0xff]),
    (65_280, [0xff, 0x00]),
    (65_534, [0xff, 0xfe]),
    (65_535, [0xff, 0xff]),
];

/// The weights of reports that come again and again; those of the last two cancel.
const WEIGHTS: [&[i16]; 4] = [&[1], &[2, -1, 0], &[7, -7], &[32_767, -32_767, 0]];

/// Hands over every one of them.
pub fn each(mut take: impl FnMut(&'static str, Wanted, Call)) {
    let mut rng = Rng::new(3);
    for weighted in [false, true] {
        for expander in [1, 2] {
            counts(&mut rng, weighted, expander, &mut take);
            areas(&mut rng, weighted, expander, &mut take);
        }
    }
}

/// The search, with t = 1, of so many reports that repeat those of the pool.
fn repeated(
    rng: &mut Rng,
    n: usize,
    weighted: bool,
    expander: u64,
    pool: &[Weighed],
    count: usize,
) -> Search {
    let few = weighed(rng, n, 1, expander, pool, 0).call;
    let again = |bytes: &Vec<u8>, size: usize| -> Vec<u8> {
        bytes.iter().cycle().take(size * count).copied().collect()
    };
    let call = Call {
        weighted,
        seeds: few.seeds.each_ref().map(|seeds| again(seeds, 16)),
        public: few
            .public
            .each_ref()
            .map(|p| again(p, public_share_size(n))),
        ..few
    };
    let all: Vec<Weighed> = pool.iter().cycle().take(count).cloned().collect();
    Search::of(call, &held(&all))
}

/// Few and many reports, in just enough room, with more and with a byte less.
fn counts(rng: &mut Rng, weighted: bool, expander: u64, take: Take) {
    for (i, (count, [high, low])) in COUNTS.into_iter().enumerate() {
        for (n, most) in [(1, 65_535), (2, 4_096), (9, 300)] {
            let slow = expander == 1 && (count > 300 || n > 1 && count > 1);
            if count > most || slow {
                continue;
            }
            // All of the weights with few reports, and in turn with many.
            let few = count < 256 && expander == 2;
            let one = (i + weighted as usize) % WEIGHTS.len();
            let chosen = if few { 0..WEIGHTS.len() } else { one..one + 1 };
            for weights in &WEIGHTS[chosen] {
                let string = rng.bits(n);
                let pool = weights.iter().map(|weight| (string.clone(), *weight));
                let pool: Vec<Weighed> = pool.collect();
                let search = repeated(rng, n, weighted, expander, &pool, count);
                assert_eq!(search.record[..8], [0, 0, 0, 0, 0, 0, high, low]);
                let (record, list) = (search.record.len(), search.list.len());
                for (record_room, list_room) in [
                    (record, list),
                    (record + 9, list + 9),
                    (record - 1, list),
                    (record + 9, list.saturating_sub(1)),
                ] {
                    let (wanted, call) = search.with_areas(record_room, list_room);
                    take("heads of many counts", wanted, call);
                }
            }
        }
    }
}

/// Areas of up to 40 bytes and around the end of each level, with few reports and with hundreds.
fn areas(rng: &mut Rng, weighted: bool, expander: u64, take: Take) {
    for count in [0, 1, 3, 255, 256, 300] {
        for n in [1, 3, 9] {
            if count > 3 && (n > 3 && count < 300 || expander == 1) {
                continue;
            }
            let one = rng.bits(n);
            let other = one.iter().map(|bit| !bit).collect();
            let pool = [(one.clone(), 3), (other, -2), (one, 0)];
            let search = repeated(rng, n, weighted, expander, &pool, count);
            let mut rooms: Vec<usize> = match count {
                0..=3 => (0..=40).collect(),
                _ => vec![0, 7, 8, 9, 23, 24, 31, 32, 33, 40],
            };
            for end in &search.ends {
                rooms.extend([end - 1, *end, end + 1]);
            }
            for record_room in rooms {
                let (wanted, call) = search.with_areas(record_room, search.list.len());
                take("areas around the head and each level", wanted, call);
            }
        }
    }
}
