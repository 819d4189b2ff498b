//! Measures of one block and of key making.

use crate::aes::{over_each, Aes, Seed, Work};
use crate::plain_idpf;
use crate::timing::{Measure, Subject, Timed};
use crate::Plan;
use tally::Expander;

/// One block with a fresh key: the seed of each call is the block that the call before it gave.
fn blocks(calls: usize, step: impl Fn(&Seed, u64, &mut Seed)) -> Seed {
    let mut seed = [7u8; 16];
    let mut out = [0u8; 16];
    for j in 0..calls {
        step(&seed, j as u64, &mut out);
        seed = out;
    }
    seed
}

/// Blocks in plain Rust.
#[derive(Clone, Copy)]
struct Blocks;

impl Work for Blocks {
    type Output = Seed;

    fn run<A: Aes>(self, aes: A, calls: usize) -> Seed {
        blocks(calls, |seed, j, out| *out = aes.block(seed, j))
    }
}

/// Blocks by the proved library.
fn proved_blocks(calls: usize) -> Seed {
    blocks(calls, |seed, j, out| {
        assert_eq!(tally::block_into(Expander::Aes, seed, j, out), Ok(16));
    })
}

/// One AES block with a fresh key.
pub fn measure_block(plan: &Plan) -> Timed {
    let measure = Measure {
        title: "one AES block, fresh key".to_string(),
        cleared: "no, reused",
        calls: plan.calls(20_000),
        parts: 1,
        rounds: plan.rounds,
    };
    let mut subjects = vec![Subject::proved(proved_blocks)];
    subjects.extend(over_each("", Blocks));
    measure.compare(subjects)
}

/// A packed string of n bits that is neither regular nor random.
pub fn string(n: usize) -> Vec<u8> {
    let mut packed = vec![0u8; n.div_ceil(8)];
    for i in (0..n).filter(|i| i * i / 3 % 2 == 1) {
        packed[i / 8] |= 128 >> (i % 8);
    }
    packed
}

/// Keys of n levels, one after the other; the first seed of each call comes from the key before it.
fn keys(calls: usize, n: usize, make: impl Fn(&[u8], [Seed; 2], &mut [u8])) -> Vec<u8> {
    let string = string(n);
    let mut out = vec![0u8; plain_idpf::public_share_length(n)];
    let mut seed = [1u8; 16];
    for _ in 0..calls {
        make(&string, [seed, [2u8; 16]], &mut out);
        seed.copy_from_slice(&out[out.len() - 24..out.len() - 8]);
    }
    out
}

/// Keys of n levels with a weight, in plain Rust.
#[derive(Clone, Copy)]
pub struct Keys {
    pub n: usize,
    pub weight: i16,
}

impl Work for Keys {
    type Output = Vec<u8>;

    fn run<A: Aes>(self, aes: A, calls: usize) -> Vec<u8> {
        keys(calls, self.n, |string, seeds, out| {
            plain_idpf::make_key(aes, self.n, self.weight, string, seeds, out)
        })
    }
}

/// Keys of n levels with a weight, by the proved library.
pub fn proved_keys(Keys { n, weight }: Keys, calls: usize) -> Vec<u8> {
    let (bits, expander) = (n as u64, Expander::Aes);
    keys(calls, n, |string, [s0, s1], out| {
        let made = tally::make_weighted_key_into(bits, expander, weight, string, &s0, &s1, out);
        assert_eq!(made, Ok(out.len()));
    })
}

/// One key of n levels, with weight one or another.
pub fn measure_key(plan: &Plan, n: usize, weight: i16) -> Timed {
    let weighing = match weight {
        1 => String::new(),
        _ => format!(", weight {weight}"),
    };
    let measure = Measure {
        title: format!("one key, n = {n}{weighing}"),
        cleared: "no, reused",
        calls: plan.calls(12_800 / n),
        parts: 1,
        rounds: plan.rounds,
    };
    let work = Keys { n, weight };
    let mut subjects = vec![Subject::proved(|c| proved_keys(work, c))];
    subjects.extend(over_each("", work));
    measure.compare(subjects)
}
