//! Comparison of the key maker: random calls, and every weight.

use compare::calls;
use compare::make::*;
use compare::tally::{shown, Outcome, Plan, Space, Tally};
use compare::weights;
use second::keys::public_share_size;
use second::query::pack;
use second::rng::Rng;

const DAMAGES: [&str; 7] = [
    "n",
    "expander",
    "string length",
    "seed 0 length",
    "seed 1 length",
    "spare bits",
    "room",
];

struct Call {
    n: u64,
    expander: u64,
    weight: i16,
    string: Vec<u8>,
    seeds: [Vec<u8>; 2],
    room: usize,
}

/// A cause's number and a change of a right call that brings it about.
type Cause = (u64, fn(&mut Call));

pub fn run(start: u64, count: usize, tally: &mut Tally) {
    let mut rng = Rng::new(start ^ 2);
    for i in 0..count {
        let plan = Plan::of(i, &DAMAGES);
        let call = plan.call(&mut rng, hostile, damaged);
        compare(&mut rng, &plan, &call, tally);
    }
    every_weight(&mut rng, tally);
}

fn damaged(rng: &mut Rng, plan: &Plan) -> Call {
    let n = good_n(rng, plan.has("spare bits"));
    let bits = n as usize;
    let mut call = Call {
        n,
        expander: good_expander(rng),
        weight: weights::weight(rng),
        string: pack(&rng.bits(bits)),
        seeds: [seed(rng), seed(rng)],
        room: room(rng, public_share_size(bits)),
    };
    if rng.below(5) == 0 {
        call.seeds[1] = call.seeds[0].clone();
    }
    for damage in &plan.damages {
        match *damage {
            "n" => call.n = bad_n(rng),
            "expander" => call.expander = bad_expander(rng),
            "string length" => wrong_length(rng, &mut call.string, 1),
            "seed 0 length" => wrong_length(rng, &mut call.seeds[0], 16),
            "seed 1 length" => wrong_length(rng, &mut call.seeds[1], 16),
            "spare bits" => spare_string(rng, &mut call.string, bits),
            _ => call.room = short_room(rng, public_share_size(bits)),
        }
    }
    call
}

fn hostile(rng: &mut Rng) -> Call {
    let n = any_number(rng);
    Call {
        n,
        expander: rng.pick(&[0, 1, 2, 3]),
        weight: weights::weight(rng),
        string: wild(rng, (n % 40) as usize + 1),
        seeds: [wild(rng, 16), wild(rng, 16)],
        room: rng.below(400),
    }
}

/// Each weight with expander 2, and those at the ends with AES and with every cause.
fn every_weight(rng: &mut Rng, tally: &mut Tally) {
    let right = |rng: &mut Rng, n: u64, expander, weight| Call {
        n,
        expander,
        weight,
        string: pack(&rng.bits(n as usize)),
        seeds: [seed(rng), seed(rng)],
        room: public_share_size(n as usize),
    };
    for weight in i16::MIN..=i16::MAX {
        let n = 1 + rng.below(3) as u64;
        let call = right(rng, n, 2, weight);
        let plan = Plan::fixed("every weight", &[0, call.room as u64]);
        compare(rng, &plan, &call, tally);
    }
    let causes: [Cause; 6] = [
        (0, |_| {}),
        (11, |call| call.room -= 1),
        (7, |call| call.string[0] |= 1),
        (4, |call| call.seeds[1].truncate(15)),
        (3, |call| call.expander = 3),
        (1, |call| call.n = 257),
    ];
    for weight in [-32_768, -32_767, -2, -1, 0, 1, 2, 32_766, 32_767] {
        for expander in [1, 2] {
            for n in [1, 2, 7, 8, 9, 31, 32, 255, 256] {
                let call = right(rng, n, expander, weight);
                let plan = Plan::fixed("weights at the ends", &[0, call.room as u64]);
                compare(rng, &plan, &call, tally);
            }
            // Each cause with all higher ones, which the changes before it brought about.
            let mut call = right(rng, 7, expander, weight);
            for (number, change) in causes {
                change(&mut call);
                let plan = Plan::fixed("weights at the ends with causes", &[number]);
                compare(rng, &plan, &call, tally);
            }
        }
    }
}

fn compare(rng: &mut Rng, plan: &Plan, call: &Call, tally: &mut Tally) {
    let [seed0, seed1] = &call.seeds;
    let (n, expander, weight) = (call.n, call.expander, call.weight);
    let inputs = format!("n={n} expander={expander} weight={weight} ")
        + &shown("string", &call.string)
        + &shown("seed0", seed0)
        + &shown("seed1", seed1);
    tally.before("key", plan, &inputs);
    let salt = rng.number();
    type Key = fn(u64, u64, i16, &[u8], &[u8], &[u8], &mut [u8]) -> second::Reply;
    let [ours, theirs] = [second::key as Key, calls::key as Key].map(|key| {
        let mut space = Space::new(call.room, salt);
        let string = &call.string;
        let reply = key(n, expander, weight, string, seed0, seed1, space.lent());
        Outcome {
            numbers: vec![reply.number, reply.length],
            spaces: vec![space],
        }
    });
    tally.judge("key", plan, ours, theirs, &inputs);
}
