//! Compares the library's calls with the second program's, byte by byte; of the search's answers
//! for honest reports, also judges demands 2 and 3 by brute force, and counts the exam's so too.
//!
//! Arguments, all optional: seed=S calls=N spoil=K trace

#[cfg(feature = "keys")]
mod add_cases;
#[cfg(feature = "keys")]
mod adds;
#[cfg(feature = "block")]
mod blocks;
#[cfg(feature = "combine")]
mod combine_cases;
#[cfg(feature = "combine")]
mod combines;
#[cfg(feature = "search")]
mod equal_totals;
#[cfg(feature = "exam")]
mod exam_cases;
#[cfg(feature = "exam")]
mod exams;
#[cfg(feature = "kept")]
mod kept_call;
#[cfg(feature = "kept")]
mod kept_cases;
#[cfg(feature = "kept")]
mod kept_chains;
#[cfg(feature = "kept")]
mod kept_known;
#[cfg(feature = "kept")]
mod kept_largest;
#[cfg(feature = "kept")]
mod kept_queries;
#[cfg(feature = "kept")]
mod kepts;
#[cfg(feature = "keys")]
mod keys;
#[cfg(feature = "search")]
mod search_call;
#[cfg(feature = "search")]
mod search_cases;
#[cfg(feature = "search")]
mod search_demands;
#[cfg(feature = "search")]
mod search_heads;
#[cfg(feature = "search")]
mod searches;
#[cfg(feature = "keys")]
mod shares;
#[cfg(feature = "search")]
mod spaces;
#[cfg(feature = "combine")]
mod weighted_combine_cases;
#[cfg(feature = "search")]
mod weighted_demands;
#[cfg(feature = "search")]
mod weighted_largest;
#[cfg(feature = "search")]
mod weighted_search_cases;

use compare::{calls, tally};
use std::process::ExitCode;

/// The numbers each call must have been seen to return.
const NUMBERS: [(&str, bool, &[u64]); 12] = [
    ("block", cfg!(feature = "block"), &[0, 3, 4, 11]),
    ("key", cfg!(feature = "keys"), &[0, 1, 3, 4, 7, 11]),
    (
        "share",
        cfg!(feature = "keys"),
        &[0, 1, 3, 4, 5, 6, 7, 9, 11],
    ),
    ("add", cfg!(feature = "keys"), &[0, 4, 6, 11]),
    (
        "combine",
        cfg!(feature = "combine"),
        &[0, 1, 2, 4, 6, 9, 11, 12],
    ),
    (
        "search",
        cfg!(feature = "search"),
        &[0, 1, 2, 3, 4, 5, 6, 7, 8, 11, 12],
    ),
    ("record space", cfg!(feature = "search"), &[0]),
    ("list space", cfg!(feature = "search"), &[0]),
    (
        "share kept",
        cfg!(feature = "kept"),
        &[0, 1, 3, 4, 5, 6, 7, 9, 11, 13, 14],
    ),
    ("roots", cfg!(feature = "kept"), &[0, 4, 5, 13]),
    ("exam", cfg!(feature = "exam"), &[0, 1, 2, 3, 10, 11]),
    ("respond", cfg!(feature = "exam"), &[0, 11]),
];

fn main() -> ExitCode {
    let (mut seed, mut count) = (1u64, 2000usize);
    let mut tally = tally::Tally::default();
    for argument in std::env::args().skip(1) {
        let (name, value) = argument.split_once('=').unwrap_or((&argument, ""));
        let number = value.parse::<u64>();
        match (name, number) {
            ("seed", Ok(number)) => seed = number,
            ("calls", Ok(number)) => count = number as usize,
            ("spoil", Ok(number)) => tally.spoil = Some(number),
            ("trace", _) => tally.trace = true,
            _ => {
                eprintln!("arguments: seed=S calls=N spoil=K trace");
                return ExitCode::from(2);
            }
        }
    }
    println!("seed={seed} calls={count} of each kind, special and fixed calls besides");
    if NUMBERS.iter().all(|(_, on, _)| !on) {
        eprintln!("build with --features block, keys, combine, search, kept or exam");
        return ExitCode::from(2);
    }
    println!("compared with: {}", calls::NAME);
    #[cfg(feature = "block")]
    blocks::run(seed, count, &mut tally);
    #[cfg(feature = "keys")]
    keys::run(seed, count, &mut tally);
    #[cfg(feature = "keys")]
    shares::run(seed, count, &mut tally);
    #[cfg(feature = "keys")]
    adds::run(seed, count, &mut tally);
    #[cfg(feature = "combine")]
    combines::run(seed, count, &mut tally);
    #[cfg(feature = "search")]
    searches::run(seed, count, &mut tally);
    #[cfg(feature = "search")]
    spaces::run(seed, count, &mut tally);
    #[cfg(feature = "kept")]
    kepts::run(seed, count, &mut tally);
    #[cfg(feature = "exam")]
    exams::run(seed, count, &mut tally);
    tally.print();
    let mut missing = 0;
    for (call, on, numbers) in NUMBERS {
        for number in numbers.iter().filter(|_| on) {
            if !tally.met(call, *number) {
                println!("NOT MET: {call} returning {number}");
                missing += 1;
            }
        }
    }
    if cfg!(feature = "combine") {
        for kind in 0..4 {
            if !tally.met_kind(kind) {
                println!("NOT MET: combine answering kind {kind}");
                missing += 1;
            }
        }
    }
    if cfg!(feature = "search") {
        for (pairs, name) in tally.all_pairs().into_iter().zip(["equal", "other"]) {
            println!("pairs of collections with {name} records: {pairs}");
            if pairs == 0 {
                println!("NOT MET: two collections with {name} records");
                missing += 1;
            }
        }
    }
    println!("calls: {}", tally.calls);
    println!("differences: {}", tally.differences);
    if tally.differences > 0 || missing > 0 {
        return ExitCode::from(1);
    }
    ExitCode::SUCCESS
}
