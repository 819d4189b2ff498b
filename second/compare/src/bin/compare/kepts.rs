//! Comparison of the share from kept nodes and of the list at the roots: random calls, the fixed
//! ones of `kept_cases`, `kept_queries`, `kept_largest` and `kept_known`, and the chains of
//! `kept_chains`.

use crate::kept_call::{compare, compare_roots, Call};
use crate::{kept_cases, kept_chains, kept_known, kept_largest, kept_queries};
use compare::kept::{any_nodes, last_of, orphaned, other_length, some_below};
use compare::make::*;
use compare::queries;
use compare::tally::{Plan, Tally};
use compare::weights::weight;
use second::field::P;
use second::keys::public_share_size;
use second::rng::Rng;
use second::Node;

const DAMAGES: [&str; 18] = [
    "n",
    "expander",
    "public shares length",
    "payload",
    "payload p - 1",
    "spare bits",
    "last query",
    "no last query",
    "query",
    "nodes for the last query",
    "nodes for the new query",
    "no nodes",
    "parent",
    "length",
    "room",
    "public share bit",
    "last query bit",
    "query bit",
];

const ROOT_DAMAGES: [&str; 3] = ["seeds length", "nodes", "no nodes"];

pub fn run(start: u64, count: usize, tally: &mut Tally) {
    let mut rng = Rng::new(start ^ 8);
    for i in 0..count {
        let plan = Plan::of(i, &DAMAGES);
        let call = plan.call(&mut rng, hostile, damaged);
        compare(&mut rng, &plan, &call, tally);
    }
    for i in 0..count {
        let plan = Plan::of(i, &ROOT_DAMAGES);
        let (seeds, nodes) = roots(&mut rng, &plan);
        let server = rng.coin();
        compare_roots(&plan, server, &seeds, &nodes, tally);
    }
    let mut take = |name: &'static str, wanted: &[u64], call: Call| {
        let plan = Plan::fixed(name, wanted);
        compare(&mut rng, &plan, &call, tally)
    };
    kept_cases::each(&mut take);
    kept_queries::each(&mut take);
    kept_largest::each(&mut take);
    kept_known::known(&mut rng, tally);
    kept_known::each_roots(tally);
    kept_chains::run(&mut rng, tally);
}

/// Reports, honest or of any bytes that pass 6 and 7.
pub fn any_reports(rng: &mut Rng, n: usize, expander: u64, count: usize) -> Reports {
    let mut made = weighted_reports(rng, n, expander, count, weight);
    if rng.coin() {
        made.public = rng.bytes(made.public.len());
        pass_six_and_seven(&mut made.public, n);
    }
    made
}

fn damaged(rng: &mut Rng, plan: &Plan) -> Call {
    let n = good_n(rng, plan.has("spare bits"));
    let bits = n as usize;
    let expander = good_expander(rng);
    let least = if plan.damages.is_empty() { 0 } else { 1 };
    let count = least + if n > 200 { rng.below(2) } else { rng.below(5) };
    let reports = any_reports(rng, bits, expander, count);
    let any = rng.below(bits);
    let length = rng.pick(&[0, bits - 1, any, any]);
    let last = last_of(rng, length, &reports.strings);
    let query = if plan.has("length") {
        other_length(rng, bits, &last, &reports.strings)
    } else if plan.has("parent") {
        orphaned(rng, &last)
    } else {
        some_below(rng, &last, 10)
    };
    let mut call = Call {
        n,
        expander,
        server: rng.coin(),
        public: reports.public,
        last,
        query,
        nodes: Vec::new(),
        room: 0,
    };
    let needed = call.counts().map(|asked| asked * count);
    let asked = call.counts()[1];
    let spare = rng.pick(&[0, 0, 1, 2, 7]);
    call.nodes = any_nodes(rng, needed[0].max(needed[1]) + spare);
    call.room = room(rng, 8 * asked);
    // Payload and spare bit damage need whole public shares, so lengths come last.
    for damage in plan.damages.iter().rev() {
        match *damage {
            "n" => call.n = bad_n(rng),
            "expander" => call.expander = bad_expander(rng),
            "public shares length" => {
                wrong_length(rng, &mut call.public, public_share_size(bits));
            }
            "payload" => {
                let payload = too_large(rng);
                set_payload(rng, &mut call.public, bits, payload);
            }
            "payload p - 1" => set_payload(rng, &mut call.public, bits, P - 1),
            "spare bits" => set_spare(rng, &mut call.public, bits),
            "last query" if call.last.is_empty() => call.last = rng.bytes(1 + asked),
            "last query" => queries::spoil(rng, bits, &mut call.last),
            "no last query" => call.last.clear(),
            "query" => queries::spoil(rng, bits, &mut call.query),
            "nodes for the last query" => call.nodes.truncate(short_room(rng, needed[0])),
            "nodes for the new query" => call.nodes.truncate(short_room(rng, needed[1])),
            "no nodes" => call.nodes.clear(),
            "room" => call.room = short_room(rng, 8 * asked),
            "public share bit" => flip(rng, &mut call.public),
            "last query bit" => flip(rng, &mut call.last),
            "query bit" => flip(rng, &mut call.query),
            // The query was made so.
            _ => {}
        }
    }
    call
}

/// Random bytes and lengths, often with whole public shares and right queries.
fn hostile(rng: &mut Rng) -> Call {
    let n = rng.pick(&[1, 2, 4, 8, 12, 20]);
    let count = rng.below(4);
    let length = rng.below(n as usize);
    let last = last_of(rng, length, &[]);
    let nodes = rng.below(30);
    let mut call = Call {
        n,
        expander: good_expander(rng),
        server: rng.coin(),
        public: rng.bytes(public_share_size(n as usize) * count),
        query: some_below(rng, &last, 6),
        last,
        nodes: any_nodes(rng, nodes),
        room: rng.below(100),
    };
    if rng.coin() {
        pass_six_and_seven(&mut call.public, n as usize);
    }
    match rng.below(6) {
        0 => call.query = queries::wild(rng),
        1 => call.last = queries::wild(rng),
        2 => {
            call.n = any_number(rng);
            call.expander = rng.pick(&[0, 1, 2, 3]);
            call.public = wild(rng, 25);
        }
        3 => call.query = queries::good(rng, n as usize, &[]),
        _ => {}
    }
    call
}

/// Seeds and a list of nodes for the roots.
fn roots(rng: &mut Rng, plan: &Plan) -> (Vec<u8>, Vec<Node>) {
    let count = rng.below(9) + !plan.damages.is_empty() as usize;
    let mut seeds: Vec<u8> = (0..count).flat_map(|_| seed(rng)).collect();
    let mut lent = room(rng, count);
    if plan.hostile() {
        seeds = wild(rng, 16);
        lent = rng.below(5);
    }
    for damage in &plan.damages {
        match *damage {
            "seeds length" => wrong_length(rng, &mut seeds, 16),
            "nodes" => lent = short_room(rng, count),
            _ => lent = 0,
        }
    }
    (seeds, any_nodes(rng, lent))
}
