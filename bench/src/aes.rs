//! Ways to a block of expander 1 in Rust, and work that can be done over each of them.

use crate::hardware::Hardware;
use crate::same_aes::SameCode;
use crate::timing::{Column, Subject};
use crate::word_aes::DoubledAtOnce;
use crate::words::Doubling;
use crate::{plain_aes, words};

pub type Seed = [u8; 16];

/// Blocks of AES-128 with a seed as their key: one, or two with one key schedule.
pub trait Aes: Copy {
    fn block(self, seed: &Seed, j: u64) -> Seed;
    fn two_blocks(self, seed: &Seed, i: u64, j: u64) -> [Seed; 2];
}

/// The block number as AES takes it.
pub fn counter(j: u64) -> Seed {
    (j as u128).to_be_bytes()
}

impl<D: Doubling> Aes for D {
    #[inline(never)]
    fn block(self, seed: &Seed, j: u64) -> Seed {
        words::encrypt::<D>(*seed, counter(j))
    }

    #[inline(never)]
    fn two_blocks(self, seed: &Seed, i: u64, j: u64) -> [Seed; 2] {
        words::encrypt_two::<D>(*seed, counter(i), counter(j))
    }
}

/// AES as it is often written, with a table of bytes.
#[derive(Clone, Copy)]
pub struct ByteTable;

impl Aes for ByteTable {
    #[inline(never)]
    fn block(self, seed: &Seed, j: u64) -> Seed {
        plain_aes::encrypt(seed, &counter(j))
    }

    #[inline(never)]
    fn two_blocks(self, seed: &Seed, i: u64, j: u64) -> [Seed; 2] {
        plain_aes::encrypt_two(seed, &counter(i), &counter(j))
    }
}

/// Something to do a number of times over any AES.
pub trait Work: Copy {
    type Output;
    fn run<A: Aes>(self, aes: A, calls: usize) -> Self::Output;
}

/// The subjects that do some work in plain Rust: over the same AES, over words doubled at once, over the byte table, and over AES-NI where the processor has it.
pub fn over_each<'a, W: Work + 'a>(way: &'static str, work: W) -> Vec<Subject<'a, W::Output>> {
    let mut subjects = vec![
        Subject::new(way, Column::SameCode, move |c| work.run(SameCode, c)),
        Subject::new(way, Column::DoubledAtOnce, move |c| {
            work.run(DoubledAtOnce, c)
        }),
        Subject::new(way, Column::ByteTable, move |c| work.run(ByteTable, c)),
    ];
    if let Some(hardware) = Hardware::found() {
        let run = move |c| work.run(hardware, c);
        subjects.push(Subject::new(way, Column::Hardware, run));
    }
    subjects
}

/// The work done once over the quickest AES there is, to compare an output with.
pub fn quickest<W: Work>(work: W, calls: usize) -> W::Output {
    match Hardware::found() {
        Some(hardware) => work.run(hardware, calls),
        None => work.run(DoubledAtOnce, calls),
    }
}
