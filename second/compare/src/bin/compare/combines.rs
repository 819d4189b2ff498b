//! Comparison of combining.

use crate::{combine_cases, weighted_combine_cases};
use compare::calls;
use compare::make::*;
use compare::queries;
use compare::tally::{shown, Outcome, Plan, Space, Tally};
use compare::weights::{bad_t, good_t, HALF};
use second::field::{reduce, P};
use second::rng::Rng;

const DAMAGES: [&str; 11] = [
    "n",
    "t",
    "share 0 length",
    "share 1 length",
    "both lengths",
    "number in share 0",
    "number in share 1",
    "number p - 1",
    "query",
    "query bit",
    "room",
];

#[derive(Clone)]
pub struct Call {
    pub n: u64,
    pub weighted: bool,
    pub t: u64,
    pub query: Vec<u8>,
    pub shares: [Vec<u8>; 2],
    pub room: usize,
}

pub fn run(start: u64, count: usize, tally: &mut Tally) {
    let mut rng = Rng::new(start ^ 4);
    for i in 0..count {
        let plan = Plan::of(i, &DAMAGES);
        let call = plan.call(&mut rng, hostile, damaged);
        compare(&mut rng, &plan, call, tally);
    }
    combine_cases::each(|name, wanted, call| {
        compare(&mut rng, &Plan::fixed(name, &wanted), call, tally);
    });
    weighted_combine_cases::each(|name, wanted, call| {
        compare(&mut rng, &Plan::fixed(name, &wanted), call, tally);
    });
}

fn damaged(rng: &mut Rng, plan: &Plan) -> Call {
    let n = good_n(rng, false);
    let weighted = rng.coin();
    let t = good_t(rng, weighted);
    let query = queries::good(rng, n as usize, &[]);
    let count = second::query::Query::of(&query).count;
    let low = rng.below(4) == 0 && !plan.has("room");
    let mut totals = Vec::new();
    for i in 0..count {
        let any = reduce(rng.number());
        let far = rng.pick(&[HALF - 1, HALF, HALF + 1, HALF + 2, P - t, P - 1]);
        let mut total = rng.pick(&[0, t - 1, t, t, t + 1, far, any]);
        if low {
            total = rng.pick(&[0, t - 1]);
        } else if i == 0 && plan.has("room") {
            total = t;
        }
        totals.push(total);
    }
    let mut call = Call {
        n,
        weighted,
        t,
        query,
        shares: split(rng, &totals),
        room: 0,
    };
    let mut wide = vec![0; 1 << 12];
    let [share0, share1] = &call.shares;
    let made = second::combine(n, weighted, t, &call.query, share0, share1, &mut wide);
    let size = made.length as usize;
    call.room = room(rng, size);
    for damage in plan.damages.iter().rev() {
        match *damage {
            "n" => call.n = bad_n(rng),
            "t" => call.t = bad_t(rng, weighted),
            "share 0 length" => wrong_length(rng, &mut call.shares[0], 8),
            "share 1 length" => wrong_length(rng, &mut call.shares[1], 8),
            "both lengths" => {
                let length = 8 * count;
                let length = rng.pick(&[0, length - 8, length - 1, length + 1, length + 8]);
                call.shares[0].resize(length, 0);
                call.shares[1].resize(length, 0);
            }
            "number in share 0" => set_number(rng, &mut call.shares[0], None),
            "number in share 1" => set_number(rng, &mut call.shares[1], None),
            "number p - 1" => {
                let server = rng.below(2);
                set_number(rng, &mut call.shares[server], Some(P - 1));
            }
            "query" => queries::spoil(rng, n as usize, &mut call.query),
            "query bit" => flip(rng, &mut call.query),
            _ => call.room = short_room(rng, size),
        }
    }
    call
}

fn hostile(rng: &mut Rng) -> Call {
    let n = any_number(rng);
    let length = 8 * rng.below(4);
    let mut call = Call {
        n,
        weighted: rng.coin(),
        t: any_number(rng),
        query: queries::wild(rng),
        shares: [rng.bytes(length), rng.bytes(length)],
        room: rng.below(60),
    };
    if rng.coin() {
        call.n = 1 + rng.below(40) as u64;
        call.t = good_t(rng, call.weighted);
        call.query = queries::good(rng, call.n as usize, &[]);
    }
    call
}

fn compare(rng: &mut Rng, plan: &Plan, call: Call, tally: &mut Tally) {
    let [share0, share1] = &call.shares;
    let inputs = format!("n={} weighted={} t={} ", call.n, call.weighted, call.t)
        + &shown("query", &call.query)
        + &shown("share0", share0)
        + &shown("share1", share1);
    tally.before("combine", plan, &inputs);
    let salt = rng.number();
    type Combine = fn(u64, bool, u64, &[u8], &[u8], &[u8], &mut [u8]) -> second::Combined;
    let both = [second::combine as Combine, calls::combine as Combine];
    let [ours, theirs] = both.map(|combine| {
        let mut space = Space::new(call.room, salt);
        let (n, weighted, t) = (call.n, call.weighted, call.t);
        let made = combine(n, weighted, t, &call.query, share0, share1, space.lent());
        Outcome {
            numbers: vec![made.number, made.kind, made.length],
            spaces: vec![space],
        }
    });
    tally.judge("combine", plan, ours, theirs, &inputs);
}
