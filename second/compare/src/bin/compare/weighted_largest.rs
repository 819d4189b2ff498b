//! Fixed calls of the whole weighted search with the largest counts of reports and of prefixes.

use crate::search_cases::*;
use crate::searches::Call;
use crate::weighted_search_cases::{as_weighted, held, weighed, THRESHOLDS};
use compare::make::Reports;
use compare::weights::{HALF, MOST};
use second::brute::Weighed;
use second::field::{negate, P};
use second::keys::public_share_size;
use second::rng::Rng;

/// Hands over every one of them.
pub fn each(rng: &mut Rng, take: Take) {
    largest_counts(rng, take);
    largest_queries(rng, take);
}

/// 65,535 reports of one bit with weights at the ends; 65,536, alone and with 12.
fn largest_counts(rng: &mut Rng, take: Take) {
    let many = |rng: &mut Rng, count: usize, weights: [i16; 2], t: u64| {
        let two = weights.map(|weight| (vec![true], weight));
        let few = weighed(rng, 1, t, 2, &two, 0).call;
        let [seeds0, seeds1] = few.seeds.each_ref().map(|s| s.repeat(count / 2 + 1));
        let public = few.public[0].repeat(count / 2 + 1)[..25 * count].to_vec();
        let all: Vec<Weighed> = two.iter().cycle().take(count).cloned().collect();
        let call = Call {
            seeds: [seeds0, seeds1].map(|s| s[..16 * count].to_vec()),
            public: [public.clone(), public],
            ..few
        };
        as_weighted(call, &held(&all))
    };
    for (weights, t) in [
        ([32_767, 32_767], 1),
        ([32_767, 32_767], 2_147_385_345),
        ([32_767, 32_767], 2_147_385_346),
        ([32_767, 32_767], MOST[1]),
        ([-32_768, -32_768], 1),
        ([32_767, -32_768], 1),
        ([32_767, -32_767], 32_767),
        ([32_767, -32_767], 32_768),
    ] {
        many(rng, 65_535, weights, t).take_with("65535 weighted reports", 0, take);
    }
    let over = many(rng, 65_536, [1, 2], 1).with_areas(32, 2).1;
    take("65536 weighted reports", Wanted::Refused(5), over.clone());
    for threshold in THRESHOLDS {
        let mut call = over.clone();
        threshold(&mut call);
        take("65536 weighted reports and 12", Wanted::Refused(12), call);
    }
}

/// Next queries of 131,070 prefixes and of more; with expander 2 and a public share of zeros the
/// total is the difference of the seeds' first words at every prefix, where it is even.
fn largest_queries(rng: &mut Rng, take: Take) {
    let seed = |word: u64| u128::from(word).to_le_bytes().to_vec();
    for (n, t, total, number) in [
        (17, 5, 6, 11),
        (17, MOST[1], 1 << 40, 11),
        (17, 7, 6, 0),
        (17, 1, P - 6, 0),
    ] {
        let mut reports = Reports::none(n);
        reports.public = vec![0; public_share_size(n)];
        reports.seeds = match total > HALF {
            true => [seed(1 << 20), seed((1 << 20) + (P - total))],
            false => [seed((1 << 20) + total), seed(1 << 20)],
        };
        assert_eq!(total_at(&reports, 2, &rng.bits(n)), total);
        let mut light = Reports::none(n);
        let string = rng.bits(n);
        let mut totals = vec![0; n];
        totals[15] = negate(total);
        light.add_with(2, 1, string, [rng.bytes(16), rng.bytes(16)]);
        give_totals(&mut light, 2, &totals);
        let mut call = Call::weighted(reports, t, 2);
        let most = whole_tree(16).0 + 6 + 131_070 * 11;
        (call.record_room, call.list_room) = (most, 3 * 131_070);
        let wanted = match number {
            0 => Wanted::Passed,
            _ => Wanted::Refused(number),
        };
        take("131072 prefixes next, weighted", wanted, call.clone());
        if number == 11 {
            for server in 0..2 {
                call.seeds[server].extend(&light.seeds[server]);
                call.public[server].extend(&light.public);
            }
            let name = "131070 prefixes next, weighted";
            take(name, Wanted::Passed, call.clone());
            call.record_room -= 1;
            take(name, Wanted::Refused(11), call);
        }
    }
}
