//! Speed of the proved library beside plain Rust, in one process and interleaved; every comparison checks that the outputs agree.

mod aes;
mod blocks_and_keys;
mod combining;
mod growth;
mod hardware;
mod kept_level;
mod markdown;
mod plain_aes;
mod plain_combine;
mod plain_idpf;
mod plain_kept;
mod plain_search;
mod plain_share;
mod played;
mod same_aes;
mod searching;
mod shares;
mod tables;
mod timing;
mod word_aes;
mod words;

use timing::Timed;

/// How much is run: a full round, or a short one that only checks the outputs.
pub struct Plan {
    check: bool,
    rounds: usize,
}

impl Plan {
    fn new(check: bool) -> Plan {
        let rounds = if check { 2 } else { 30 };
        Plan { check, rounds }
    }

    /// A full round's number of calls, or a twentieth of it.
    fn calls(&self, full: usize) -> usize {
        match self.check {
            true => full.div_ceil(20),
            false => full,
        }
    }

    /// The number of rounds of a whole search.
    fn few(&self) -> usize {
        if self.check {
            1
        } else {
            2
        }
    }
}

/// The proved library beside plain Rust: a line for each measure.
fn compared(plan: &Plan) -> Vec<Timed> {
    let mut all = vec![noted(plan, blocks_and_keys::measure_block(plan))];
    let mut add = |timed| all.push(noted(plan, timed));
    for n in [32, 256] {
        add(blocks_and_keys::measure_key(plan, n, 1));
        add(blocks_and_keys::measure_key(plan, n, i16::MIN));
        add(shares::measure_share(plan, n, 1));
        add(shares::measure_share(plan, n, 2));
    }
    for weighted in [false, true] {
        add(combining::measure_combining(plan, weighted));
    }
    for weighted in [false, true] {
        add(searching::measure_search(plan, weighted));
    }
    all
}

/// Kept nodes beside walks from the root, near the root and at the last level.
fn kept(plan: &Plan) -> Vec<Timed> {
    let mut all = Vec::new();
    let sizes = if plan.check {
        &[16, 32][..]
    } else {
        &[32, 64, 128, 256]
    };
    for &n in sizes {
        for (length, count) in [(8, 2), (n, 2), (8, 20), (n, 20)] {
            let timed = kept_level::measure_level(plan, n, length, count);
            all.push(noted(plan, timed));
        }
    }
    for &n in sizes {
        all.push(noted(plan, played::measure_played(plan, n as u64)));
    }
    all
}

/// What was measured, printed unless it is only checked.
fn noted(plan: &Plan, timed: Timed) -> Timed {
    if !plan.check {
        timed.print();
    }
    timed
}

fn main() {
    let told = |word: &str| std::env::args().any(|a| a == word);
    let plan = Plan::new(told("--check"));
    if hardware::Hardware::found().is_none() {
        println!("this processor has no AES-NI: its subjects are left out");
    }
    if !told("--kept") {
        let all = compared(&plan);
        let grown = growth::measure_growth(&plan);
        if !plan.check {
            markdown::print_ratios(&all);
            growth::print_growth(&grown);
        }
    }
    let kept = kept(&plan);
    if !plan.check {
        markdown::print_kept(&kept);
    }
}
