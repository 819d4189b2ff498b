//! Gives every call random bytes and changed honest inputs, and judges what it leaves by the
//! number and the lengths that it returns; what the second program would answer plays no part.
//!
//! Arguments, all optional: seed=S rounds=N from=R seconds=T trace

mod inputs;
mod judged;
#[cfg(feature = "kept")]
mod kept;
mod making;
mod round;

use compare::calls;
use std::process::ExitCode;
use std::time::{Duration, Instant};

fn main() -> ExitCode {
    let (mut seed, mut rounds, mut from, mut seconds) = (1u64, 20_000u64, 0u64, 20u64);
    let mut judged = judged::Judged::default();
    for argument in std::env::args().skip(1) {
        let (name, value) = argument.split_once('=').unwrap_or((&argument, ""));
        match (name, value.parse::<u64>()) {
            ("seed", Ok(number)) => seed = number,
            ("rounds", Ok(number)) => rounds = number,
            ("from", Ok(number)) => from = number,
            ("seconds", Ok(number)) => seconds = number,
            ("trace", _) => judged.trace = true,
            _ => {
                eprintln!("arguments: seed=S rounds=N from=R seconds=T trace");
                return ExitCode::from(2);
            }
        }
    }
    println!("seed={seed} rounds={rounds} from={from} seconds={seconds}");
    println!("called: {}", calls::NAME);
    let start = Instant::now();
    let mut done = 0;
    while done < rounds && start.elapsed() < Duration::from_secs(seconds) {
        judged.round = from.wrapping_add(done);
        round::run(seed, &mut judged);
        done += 1;
    }
    judged.print();
    println!("rounds done: {done}");
    println!("faults: {}", judged.faults);
    if judged.faults > 0 {
        return ExitCode::from(1);
    }
    ExitCode::SUCCESS
}
