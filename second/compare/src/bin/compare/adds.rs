//! Comparison of adding two shares of one server.

use crate::add_cases::{self, SUMS};
use compare::calls;
use compare::make::*;
use compare::queries;
use compare::tally::{shown, Outcome, Plan, Space, Tally};
use compare::weights::weight;
use second::field::{read, reduce, P};
use second::keys::public_share_size;
use second::query::{first, Query};
use second::rng::Rng;
use std::hint::black_box;
use std::ops::Range;

const DAMAGES: [&str; 8] = [
    "share 0 length",
    "share 1 length",
    "both lengths",
    "number in share 0",
    "number in share 1",
    "number p - 1",
    "share bit",
    "room",
];

/// How many collections of each kind and expander are split in two.
const SPLITS: usize = 150;

#[derive(Clone)]
pub struct Call {
    pub shares: [Vec<u8>; 2],
    pub room: usize,
}

pub fn run(start: u64, count: usize, tally: &mut Tally) {
    let mut rng = Rng::new(start ^ 7);
    for i in 0..count {
        let plan = Plan::of(i, &DAMAGES);
        let call = plan.call(&mut rng, hostile, damaged);
        compare(&mut rng, &plan, &call, tally);
    }
    add_cases::each(|name, wanted, call| {
        compare(&mut rng, &Plan::fixed(name, &wanted), &call, tally);
    });
    known(&mut rng, tally);
    overlapping(&mut rng, tally);
    splits(&mut rng, tally);
}

fn damaged(rng: &mut Rng, plan: &Plan) -> Call {
    let least = if plan.damages.is_empty() { 0 } else { 1 };
    let count = least + rng.pick(&[0, 1, 2, 3, 4, 5, 6, 7, 64]);
    let totals: Vec<u64> = (0..count)
        .map(|_| {
            let any = reduce(rng.number());
            rng.pick(&[0, 1, P - 2, P - 1, any, any])
        })
        .collect();
    let fit = 8 * count;
    let mut call = Call {
        shares: split(rng, &totals),
        room: room(rng, fit),
    };
    // Damaged numbers need whole shares, so lengths come last.
    for damage in plan.damages.iter().rev() {
        let either = rng.below(2);
        match *damage {
            "share 0 length" => wrong_length(rng, &mut call.shares[0], 8),
            "share 1 length" => wrong_length(rng, &mut call.shares[1], 8),
            "both lengths" => {
                let length = rng.pick(&[0, fit - 8, fit - 7, fit - 1, fit + 1, fit + 4, fit + 8]);
                call.shares
                    .iter_mut()
                    .for_each(|share| share.resize(length, 0));
            }
            "number in share 0" => set_number(rng, &mut call.shares[0], None),
            "number in share 1" => set_number(rng, &mut call.shares[1], None),
            "number p - 1" => set_number(rng, &mut call.shares[either], Some(P - 1)),
            "share bit" => flip(rng, &mut call.shares[either]),
            _ => call.room = short_room(rng, fit),
        }
    }
    call
}

/// Random bytes, often of equal lengths and with a number around p.
fn hostile(rng: &mut Rng) -> Call {
    let mut share = wild(rng, 8);
    let mut other = wild(rng, 8);
    if rng.below(4) != 0 {
        other = rng.bytes(share.len());
    }
    for share in [&mut share, &mut other] {
        if rng.below(3) == 0 {
            let past = rng.below(1 << 33) as u64;
            let near = P.wrapping_sub(1 << 32).wrapping_add(past);
            set_number(rng, share, Some(near));
        }
    }
    Call {
        shares: [share, other],
        room: rng.below(40),
    }
}

/// The sums that are written down, each alone.
fn known(rng: &mut Rng, tally: &mut Tally) {
    for (a, b, sum) in SUMS {
        for numbers in [[a, b], [b, a]] {
            let call = Call {
                shares: numbers.map(|number| number.to_le_bytes().to_vec()),
                room: 8,
            };
            let plan = Plan::fixed("a known sum", &[0, 8]);
            if compare(rng, &plan, &call, tally) != sum.to_le_bytes() {
                tally.fault(&format!("add: {a} and {b} must give {sum}"));
            }
        }
    }
}

/// Shares that lie in one memory, the second some bytes after the first.
fn overlapping(rng: &mut Rng, tally: &mut Tally) {
    // No byte is 0xff, so every number is below p wherever it begins.
    let bytes: Vec<u8> = (0..120).map(|_| rng.below(0xff) as u8).collect();
    let length = 40;
    for (after, room, wanted) in [
        (0, 40, [0, 40]),
        (1, 40, [0, 40]),
        (8, 47, [0, 40]),
        (20, 40, [0, 40]),
        (39, 48, [0, 40]),
        (40, 40, [0, 40]),
        (80, 41, [0, 40]),
        (0, 39, [11, 0]),
        (8, 0, [11, 0]),
    ] {
        let lent = black_box(Space::holding(&bytes));
        let all = lent.first(u64::MAX);
        let shares = [&all[..length], &all[after..after + length]];
        let plan = Plan::fixed("shares in one memory", &wanted);
        judged(rng, &plan, shares, room, tally);
        if !Space::holding(&bytes).same(&black_box(lent)) {
            tally.fault("add: a share in one memory with the other changed");
        }
    }
}

/// Reports split in two: the library's share of all must be what it adds of its two shares.
fn splits(rng: &mut Rng, tally: &mut Tally) {
    for i in 0..2 * SPLITS {
        for (expander, names) in [
            (1, ["honest reports, AES", "any reports, AES"]),
            (2, ["honest reports, expander 2", "any reports, expander 2"]),
        ] {
            let n = good_n(rng, false) as usize;
            let count = rng.below(if n > 200 { 4 } else { 9 });
            let mut all = weighted_reports(rng, n, expander, count, weight);
            if i % 2 == 1 {
                all.public = rng.bytes(all.public.len());
                pass_six_and_seven(&mut all.public, n);
            }
            let query = queries::good(rng, n, &all.strings);
            let cut = rng.below(count + 1);
            split_at(rng, tally, names[i % 2], expander, &all, &query, cut);
        }
    }
    let mut all = reports(rng, 1, 2, 5);
    all.seeds = all.seeds.map(|seeds| seeds.repeat(65_535 / 5));
    all.public = all.public.repeat(65_535 / 5);
    for cut in [1, 32_768, 65_535] {
        split_at(rng, tally, "65535 reports", 2, &all, &first(), cut);
    }
}

/// Adds the library's shares of the reports before and after a place, for both servers.
fn split_at(
    rng: &mut Rng,
    tally: &mut Tally,
    name: &'static str,
    expander: u64,
    all: &Reports,
    query: &[u8],
    cut: usize,
) {
    let count = all.seeds[0].len() / 16;
    for server in [false, true] {
        let shares =
            [0..cut, cut..count, 0..count].map(|of| share(all, expander, server, of, query));
        let [Some(before), Some(after), Some(whole)] = shares else {
            tally.fault("share: reports split in two were refused");
            continue;
        };
        let plan = Plan {
            kind: "split",
            damages: vec![name],
            wanted: vec![0, whole.len() as u64],
        };
        for shares in [[&before, &after], [&after, &before]] {
            let call = Call {
                shares: shares.map(|share| share.clone()),
                room: room(rng, whole.len()),
            };
            if compare(rng, &plan, &call, tally) != whole {
                tally.fault("add: the sum is not the share of both lists together");
            }
        }
    }
}

/// The library's share of some of the reports.
fn share(
    all: &Reports,
    expander: u64,
    server: bool,
    of: Range<usize>,
    query: &[u8],
) -> Option<Vec<u8>> {
    let size = public_share_size(all.n);
    let seeds = &all.seeds[server as usize][16 * of.start..16 * of.end];
    let public = &all.public[size * of.start..size * of.end];
    let mut out = vec![0; 8 * Query::of(query).count];
    let n = all.n as u64;
    let made = calls::share(n, expander, server, seeds, public, query, &mut out);
    (made.number == 0 && made.length == out.len() as u64).then_some(out)
}

/// Compares one call, looks at its shares afterwards, and gives what the library wrote.
fn compare(rng: &mut Rng, plan: &Plan, call: &Call, tally: &mut Tally) -> Vec<u8> {
    let holding = || call.shares.each_ref().map(|share| Space::holding(share));
    let lent = black_box(holding());
    let shares = lent.each_ref().map(|space| space.first(u64::MAX));
    let written = judged(rng, plan, shares, call.room, tally);
    let lent = black_box(lent);
    if !holding()
        .iter()
        .zip(&lent)
        .all(|(one, other)| one.same(other))
    {
        tally.fault("add: a share changed");
    }
    written
}

/// Compares one call on shares as they lie, and its space with the sums of wide numbers.
fn judged(
    rng: &mut Rng,
    plan: &Plan,
    [share0, share1]: [&[u8]; 2],
    room: usize,
    tally: &mut Tally,
) -> Vec<u8> {
    let inputs = format!("room={room} ") + &shown("share0", share0) + &shown("share1", share1);
    tally.before("add", plan, &inputs);
    let salt = rng.number();
    type Add = fn(&[u8], &[u8], &mut [u8]) -> second::Reply;
    let [ours, theirs] = [second::add_shares as Add, calls::add as Add].map(|add| {
        let mut space = Space::new(room, salt);
        let reply = add(share0, share1, space.lent());
        Outcome {
            numbers: vec![reply.number, reply.length],
            spaces: black_box(vec![space]),
        }
    });
    let theirs = tally.judge("add", plan, ours, theirs, &inputs);
    let mut wanted = Space::new(room, salt);
    if theirs.numbers[0] == 0 {
        let bytes = wanted.lent().iter_mut();
        bytes
            .zip(sums(share0, share1))
            .for_each(|(byte, sum)| *byte = sum);
    }
    if !wanted.same(&theirs.spaces[0]) {
        tally.fault("add: the space is not left as its number and wide numbers say");
    }
    theirs.spaces[0].first(theirs.numbers[1]).to_vec()
}

/// The sums of two shares, place by place, by wide numbers.
fn sums(share0: &[u8], share1: &[u8]) -> Vec<u8> {
    let wide = |bytes: &[u8]| u128::from(read(bytes));
    let pairs = share0.chunks_exact(8).zip(share1.chunks_exact(8));
    pairs
        .map(|(a, b)| ((wide(a) + wide(b)) % u128::from(P)) as u64)
        .flat_map(u64::to_le_bytes)
        .collect()
}
