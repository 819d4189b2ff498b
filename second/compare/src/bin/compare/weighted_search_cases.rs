//! Fixed calls of the whole weighted search, each with what it must give, and thresholds around
//! the bounds of both kinds.

use crate::search_cases::*;
use crate::searches::Call;
use crate::weighted_largest;
use compare::make::{pass_six_and_seven, Reports};
use compare::weights::{threshold_number, total_of, AROUND, HALF, MOST};
use second::brute::{weight_held, Weighed};
use second::field::P;
use second::keys::public_share_size;
use second::rng::Rng;

/// Hands over every fixed call.
pub fn each(mut take: impl FnMut(&'static str, Wanted, Call)) {
    let mut rng = Rng::new(2);
    for expander in [1, 2] {
        known(&mut rng, expander, &mut take);
        honest(&mut rng, expander, &mut take);
        given_totals(&mut rng, expander, &mut take);
        hostile(&mut rng, expander, &mut take);
        thresholds(&mut rng, expander, &mut take);
        causes(&mut rng, expander, &mut take);
    }
    weighted_largest::each(&mut rng, &mut take);
}

/// The weighted search of honest reports, with seeds of a kind.
pub fn weighed(
    rng: &mut Rng,
    n: usize,
    t: u64,
    expander: u64,
    reports: &[Weighed],
    kind: usize,
) -> Search {
    let mut made = Reports::none(n);
    for (i, (string, weight)) in reports.iter().enumerate() {
        made.add_with(expander, *weight, string.clone(), seeds(rng, kind, i));
    }
    as_weighted(Call::of(made, t, expander), &held(reports))
}

/// The strings with the totals that their weights give.
pub fn held(reports: &[Weighed]) -> Vec<Report> {
    let one = |(string, weight): &Weighed| Report {
        string: string.clone(),
        totals: vec![total_of(*weight); string.len()],
    };
    reports.iter().map(one).collect()
}

/// The search of a call made weighted.
pub fn as_weighted(call: Call, reports: &[Report]) -> Search {
    let weighted = true;
    Search::of(Call { weighted, ..call }, reports)
}

/// Hands over a search with areas that just fit, a byte short each, and around the first level.
fn take_areas(search: &Search, name: &'static str, take: Take) {
    let (record, list) = (search.record.len(), search.list.len());
    let mut rooms = vec![(record, list), (record + 9, list + 9), (record - 1, list)];
    rooms.extend([(record - 1, list + 9), (8, list), (31, list), (32, list)]);
    if list > 0 {
        rooms.extend([(record, list - 1), (record + 9, 0), (record - 1, list - 1)]);
    }
    for (record_room, list_room) in rooms {
        let (wanted, call) = search.with_areas(record_room, list_room);
        take(name, wanted, call);
    }
}

/// Collections whose lists are known: a heavy child under a light parent, sums that cancel.
fn known(rng: &mut Rng, expander: u64, take: Take) {
    type Known = (&'static [(&'static str, i16)], u64, &'static [u8]);
    const KNOWN: [Known; 9] = [
        (&[("01", 5), ("01", -2), ("11", -7), ("10", 4)], 2, &[0x40]),
        (&[("01", 5), ("01", -2), ("11", -7), ("10", 4)], 4, &[]),
        (&[("10", 9), ("11", -9)], 1, &[]),
        (&[("10", 9), ("11", -8)], 1, &[0x80]),
        (&[("10", 9), ("11", -8)], 2, &[]),
        (&[("00", 0), ("11", 0)], 1, &[]),
        (&[("00", -32_768), ("11", 32_767)], 32_767, &[0xc0]),
        (&[("00", -32_768), ("11", 32_767)], 32_768, &[]),
        (
            &[("11", 32_767), ("11", 32_767), ("10", 2)],
            65_534,
            &[0xc0],
        ),
    ];
    for (reports, t, list) in KNOWN {
        let reports: Vec<Weighed> = reports.iter().map(|&(s, w)| (bits(s), w)).collect();
        for kind in 0..2 * KINDS {
            let search = weighed(rng, 2, t, expander, &reports, kind);
            assert_eq!(search.list, list);
            take_areas(&search, "known weights", take);
        }
    }
}

/// Honest reports with weights at the ends and others, thresholds around the sums of prefixes.
fn honest(rng: &mut Rng, expander: u64, take: Take) {
    let pools: [&[i16]; 6] = [
        &[1],
        &[-32_768, 32_767],
        &[-1, 0, 1],
        &[32_767],
        &[-3, 5, 9, -2, 7],
        &[-32_768, -1, 0, 1, 32_767],
    ];
    let mut kind = 0;
    for n in [1, 2, 7, 8, 9, 33, 256] {
        for count in [0, 1, 2, 3, 8] {
            if n > 200 && count > 2 || expander == 1 && (n > 33 || n > 9 && count > 1) {
                continue;
            }
            for pool in pools {
                let reports: Vec<Weighed> = spread(rng, n, count)
                    .into_iter()
                    .map(|string| (string, rng.pick(pool)))
                    .collect();
                let mut ts = vec![1, 2, MOST[1]];
                for (string, _) in &reports {
                    let sum = weight_held(&reports, &string[..1 + rng.below(n)]);
                    ts.extend([sum, sum + 1].iter().filter(|&&t| t > 0).map(|&t| t as u64));
                }
                ts.sort();
                ts.dedup();
                let made = weighed(rng, n, 1, expander, &reports, kind).call;
                for t in ts {
                    let search = as_weighted(Call { t, ..made.clone() }, &held(&reports));
                    take_areas(&search, "honest weights", take);
                }
                kind += 1;
            }
        }
    }
}

/// Reports that give any totals: around t, both ends of the signed reading and p, at one level.
fn given_totals(rng: &mut Rng, expander: u64, take: Take) {
    for t in [1, 2, 65_536, MOST[1]] {
        let around = [0, t - 1, t, t + 1, HALF - 1, HALF, HALF + 1, HALF + 2];
        for total in around.into_iter().chain([P - t - 1, P - t, P - 2, P - 1]) {
            for (n, level) in [(1, 0), (2, 0), (2, 1), (3, 1), (9, 0), (9, 7), (9, 8)] {
                let string = rng.bits(n);
                let mut totals = vec![t; n];
                totals[level] = total;
                let one = [Report { string, totals }];
                let made = Search::made(rng, n, t, expander, &one, level).call;
                take_areas(&as_weighted(made, &one), "signed totals", take);
            }
        }
    }
    for round in 0..80 {
        let n = 1 + round % 6;
        let t = rng.pick(&[1, 2, 65_535, 65_536, MOST[1]]);
        let mut reports = Vec::new();
        for string in spread(rng, n, 2 + round % 4) {
            let any = rng.number() % P;
            let values = [0, 1, t - 1, t, HALF, HALF + 1, P - t, P - 1, any];
            let totals = (0..n).map(|_| rng.pick(&values)).collect();
            reports.push(Report { string, totals });
        }
        let made = Search::made(rng, n, t, expander, &reports, round).call;
        take_areas(&as_weighted(made, &reports), "sums of signed totals", take);
    }
}

/// Random reports that pass 4 to 8, of whose totals about half are negative.
fn hostile(rng: &mut Rng, expander: u64, take: Take) {
    for n in [1, 2, 3, 4, 5, 7, 8, 9] {
        for (count, t) in [(1, 1), (1, MOST[1]), (2, 1), (3, 65_536)] {
            if expander == 1 && n > 5 && (count > 1 || n != 8) {
                continue;
            }
            let mut reports = Reports::none(n);
            reports.public = rng.bytes(count * public_share_size(n));
            pass_six_and_seven(&mut reports.public, n);
            reports.seeds = [rng.bytes(16 * count), rng.bytes(16 * count)];
            let mut call = Call::weighted(reports, t, expander);
            (call.record_room, call.list_room) = whole_tree(n);
            let found = call.ours(call.record_room, call.list_room);
            take("random reports", Wanted::Passed, call.clone());
            call.record_room = found.record_length as usize;
            call.list_room = found.list_length as usize;
            take("random reports, just fits", Wanted::Passed, call.clone());
            call.record_room -= 1;
            let name = "random reports, a byte short";
            take(name, Wanted::Refused(11), call.clone());
            if call.list_room > 0 {
                call.record_room += 1;
                call.list_room -= 1;
                take(name, Wanted::Refused(11), call);
            }
        }
    }
}

/// Thresholds around both bounds with both truth values.
fn thresholds(rng: &mut Rng, expander: u64, take: Take) {
    let reports = vec![(bits("10"), 1); 3];
    let made = weighed(rng, 2, 1, expander, &reports, 0).call;
    for weighted in [false, true] {
        for t in AROUND {
            let call = Call {
                weighted,
                t,
                ..made.clone()
            };
            let name = "thresholds around the bounds";
            match threshold_number(weighted, t) {
                0 => Search::of(call, &held(&reports)).take_with(name, 0, take),
                number => take(name, Wanted::Refused(number), call),
            }
        }
    }
}

/// Thresholds outside the bounds of the call's kind.
pub const THRESHOLDS: [fn(&mut Call); 6] = [
    |call| call.t = 0,
    |call| call.t = MOST[call.weighted as usize] + 1,
    |call| call.t += 1 << 31,
    |call| call.t += 1 << 32,
    |call| call.t += 1 << 63,
    |call| call.t = u64::MAX,
];

/// In a weighted search every other cause alone, 12 alone, with each of them and with all.
fn causes(rng: &mut Rng, expander: u64, take: Take) {
    let reports = [("011", 7), ("001", 4)].map(|(string, weight)| (bits(string), weight));
    let search = weighed(rng, 3, 4, expander, &reports, 0);
    let right = search.with_areas(search.record.len(), search.list.len()).1;
    search.take_with("no cause", 0, take);
    let others = || CAUSES.iter().filter(|(number, _)| *number != 2);
    for (number, change) in others() {
        let mut call = right.clone();
        change(&mut call);
        take("one cause", Wanted::Refused(*number), call);
    }
    for threshold in THRESHOLDS {
        let mut call = right.clone();
        threshold(&mut call);
        take("12 alone", Wanted::Refused(12), call);
        for (other, change) in others() {
            let mut call = right.clone();
            change(&mut call);
            threshold(&mut call);
            let number = if *other == 1 { 1 } else { 12 };
            take("12 and another cause", Wanted::Refused(number), call);
        }
        let mut call = right.clone();
        threshold(&mut call);
        for number in [11, 8, 7, 6, 4, 3] {
            let (_, change) = others().find(|(of, _)| *of == number).unwrap();
            change(&mut call);
            take("12 and higher causes", Wanted::Refused(12), call.clone());
        }
        call.n = 257;
        take("all causes", Wanted::Refused(1), call);
    }
}
