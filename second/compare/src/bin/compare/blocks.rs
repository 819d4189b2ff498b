//! Comparison of the expanders' blocks.

use compare::calls;
use compare::make::*;
use compare::tally::{shown, Outcome, Plan, Space, Tally};
use second::rng::Rng;

const DAMAGES: [&str; 3] = ["expander", "seed length", "room"];

pub fn run(start: u64, count: usize, tally: &mut Tally) {
    let mut rng = Rng::new(start);
    for i in 0..count {
        let plan = Plan::of(i, &DAMAGES);
        let mut expander = good_expander(&mut rng);
        let mut lent = seed(&mut rng);
        let any = rng.number();
        let j = rng.pick(&[0, 1, 2, 3, 255, 256, 1 << 32, 1 << 63, u64::MAX, any]);
        let mut size = room(&mut rng, 16);
        if plan.hostile() {
            expander = any_number(&mut rng);
            lent = wild(&mut rng, 16);
            size = rng.below(40);
        }
        for damage in &plan.damages {
            match *damage {
                "expander" => expander = bad_expander(&mut rng),
                "seed length" => wrong_length(&mut rng, &mut lent, 16),
                _ => size = short_room(&mut rng, 16),
            }
        }
        let inputs = format!("expander={expander} j={j} {}", shown("seed", &lent));
        tally.before("block", &plan, &inputs);
        let salt = rng.number();
        type Call = fn(u64, &[u8], u64, &mut [u8]) -> second::Reply;
        let [ours, theirs] = [second::block as Call, calls::block as Call].map(|call| {
            let mut space = Space::new(size, salt);
            let reply = call(expander, &lent, j, space.lent());
            Outcome {
                numbers: vec![reply.number, reply.length],
                spaces: vec![space],
            }
        });
        tally.judge("block", &plan, ours, theirs, &inputs);
    }
}
