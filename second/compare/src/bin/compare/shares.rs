//! Comparison of a server's share.

use compare::calls;
use compare::make::*;
use compare::queries;
use compare::tally::{shown, Outcome, Plan, Space, Tally};
use compare::weights::weight;
use second::field::P;
use second::keys::public_share_size;
use second::rng::Rng;

const DAMAGES: [&str; 13] = [
    "n",
    "expander",
    "seeds length",
    "public shares length",
    "both lengths",
    "payload",
    "payload p - 1",
    "spare bits",
    "query",
    "room",
    "seed bit",
    "public share bit",
    "query bit",
];

struct Call {
    n: u64,
    expander: u64,
    server: bool,
    seeds: Vec<u8>,
    public: Vec<u8>,
    query: Vec<u8>,
    room: usize,
}

pub fn run(start: u64, count: usize, tally: &mut Tally) {
    let mut rng = Rng::new(start ^ 3);
    for i in 0..count {
        let plan = Plan::of(i, &DAMAGES);
        let call = plan.call(&mut rng, hostile, damaged);
        compare(&mut rng, &plan, call, tally);
    }
    for (name, call) in specials(&mut rng) {
        compare(&mut rng, &Plan::special(name), call, tally);
    }
}

fn damaged(rng: &mut Rng, plan: &Plan) -> Call {
    let n = good_n(rng, plan.has("spare bits"));
    let bits = n as usize;
    let expander = good_expander(rng);
    let least = if plan.damages.is_empty() { 0 } else { 1 };
    let count = least + if n > 200 { rng.below(2) } else { rng.below(5) };
    let reports = weighted_reports(rng, bits, expander, count, weight);
    let server = rng.coin();
    let query = queries::good(rng, bits, &reports.strings);
    let asked = second::query::Query::of(&query).count;
    let mut call = Call {
        n,
        expander,
        server,
        seeds: reports.seeds[server as usize].clone(),
        public: reports.public,
        query,
        room: room(rng, 8 * asked),
    };
    // Payload and spare bit damage need whole public shares, so lengths come last.
    for damage in plan.damages.iter().rev() {
        match *damage {
            "n" => call.n = bad_n(rng),
            "expander" => call.expander = bad_expander(rng),
            "seeds length" => wrong_length(rng, &mut call.seeds, 16),
            "public shares length" => wrong_length(rng, &mut call.public, public_share_size(bits)),
            "both lengths" => {
                call.seeds.push(0);
                call.public.truncate(call.public.len() - 1);
            }
            "payload" => {
                let payload = too_large(rng);
                set_payload(rng, &mut call.public, bits, payload);
            }
            "payload p - 1" => set_payload(rng, &mut call.public, bits, P - 1),
            "spare bits" => set_spare(rng, &mut call.public, bits),
            "query" => queries::spoil(rng, bits, &mut call.query),
            "room" => call.room = short_room(rng, 8 * asked),
            "seed bit" => flip(rng, &mut call.seeds),
            "public share bit" => flip(rng, &mut call.public),
            _ => flip(rng, &mut call.query),
        }
    }
    call
}

fn hostile(rng: &mut Rng) -> Call {
    let n = rng.pick(&[1, 2, 4, 8, 12, 20]);
    let count = rng.below(4);
    let mut call = Call {
        n,
        expander: good_expander(rng),
        server: rng.coin(),
        seeds: rng.bytes(16 * count),
        public: rng.bytes(public_share_size(n as usize) * count),
        query: queries::good(rng, n as usize, &[]),
        room: rng.below(100),
    };
    match rng.below(4) {
        0 => call.query = queries::wild(rng),
        1 => {
            call.n = any_number(rng);
            call.expander = rng.pick(&[0, 1, 2, 3]);
            call.seeds = wild(rng, 16);
            call.public = wild(rng, 25);
        }
        _ => {}
    }
    call
}

/// Calls at the largest counts.
fn specials(rng: &mut Rng) -> Vec<(&'static str, Call)> {
    let mut calls = Vec::new();
    let few = reports(rng, 1, 2, 5);
    let many = |count: usize| Call {
        n: 1,
        expander: 2,
        server: count == 65_536,
        seeds: few.seeds[0]
            .iter()
            .copied()
            .cycle()
            .take(16 * count)
            .collect(),
        public: few
            .public
            .iter()
            .copied()
            .cycle()
            .take(25 * count)
            .collect(),
        query: second::query::first(),
        room: 16,
    };
    calls.push(("65535 reports", many(65_535)));
    for other in 0..12 {
        let mut call = many(65_536);
        match other {
            0 => {}
            1 => call.n = 0,
            2 => call.expander = 0,
            3 => call.seeds.truncate(16 * 65_536 - 1),
            4 => call.seeds.truncate(16 * 65_535),
            5 => set_payload(rng, &mut call.public, 1, P),
            6 => set_spare(rng, &mut call.public, 1),
            7 => call.query.clear(),
            8 => call.public.truncate(25 * 65_535),
            9 => call.public.push(0),
            10 => call.seeds.push(0),
            _ => call.room = 15,
        }
        calls.push(("65536 reports", call));
    }
    for (name, count, asked, room) in [
        ("131070 prefixes", 131_070, 131_070, 1_048_560),
        ("131070 prefixes, short room", 131_070, 131_070, 1_048_559),
        ("131071 prefixes", 131_071, 131_071, 1_048_568),
        (
            "131070 prefixes, 131071 in the count",
            131_070,
            131_071,
            1_048_568,
        ),
        (
            "131071 prefixes, 131070 in the count",
            131_071,
            131_070,
            1_048_560,
        ),
    ] {
        let report = reports(rng, 18, 2, 1);
        let mut query = queries::long(17, count);
        query[2..6].copy_from_slice(&(asked as u32).to_be_bytes());
        let call = Call {
            n: 18,
            expander: 2,
            server: true,
            seeds: report.seeds[1].clone(),
            public: report.public,
            query,
            room,
        };
        calls.push((name, call));
    }
    calls
}

fn compare(rng: &mut Rng, plan: &Plan, call: Call, tally: &mut Tally) {
    let inputs = format!("n={} expander={} ", call.n, call.expander)
        + &format!("server={} ", call.server)
        + &shown("seeds", &call.seeds)
        + &shown("public_shares", &call.public)
        + &shown("query", &call.query);
    tally.before("share", plan, &inputs);
    let salt = rng.number();
    type Share = fn(u64, u64, bool, &[u8], &[u8], &[u8], &mut [u8]) -> second::Reply;
    let [ours, theirs] = [second::share as Share, calls::share as Share].map(|share| {
        let mut space = Space::new(call.room, salt);
        let reply = share(
            call.n,
            call.expander,
            call.server,
            &call.seeds,
            &call.public,
            &call.query,
            space.lent(),
        );
        Outcome {
            numbers: vec![reply.number, reply.length],
            spaces: vec![space],
        }
    });
    tally.judge("share", plan, ours, theirs, &inputs);
}
