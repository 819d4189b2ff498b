//! Each of two servers splits its reports among threads: a thread makes the share of one part, and the parts' shares are added. A collector plays
//! the search, with a progress line where standard error is a terminal. Each added share has to be that of one call over all reports, an answer
//! in which a part is missing has to be named, and the whole search has to give the same record and list.
//!
//!     cargo run --release --example parallel_server

mod holder;

use holder::Holder;
use std::error::Error;
use std::fmt;
use std::io::{self, IsTerminal};
use std::sync::atomic::{AtomicUsize, Ordering};
use std::sync::mpsc;
use std::thread;
use tally::{
    add_shares, block, make_key, prefix_bits, public_share_length, search, share, share_length,
    Collector, CollectorError, Expander, List, Refusal, Reports, Seed, Server,
};

/// The string length and the threshold.
const N: u64 = 16;
const T: u64 = 30;

/// The popular strings, with how many installations hold each; only the last is below the threshold.
const POPULAR: [(u16, usize); 4] = [(0xbeef, 90), (0xbee5, 60), (0x1234, 30), (0x1235, 29)];

/// How many further installations hold some string of their own.
const OTHERS: usize = 151;

/// How many parts a server's reports are split into; there are more than threads, so that no thread waits long for another.
const PARTS: usize = 12;

impl Holder {
    /// The reports in parts of equal size, but for the last.
    fn parts(&self) -> Vec<Reports<'_>> {
        let size = self.seeds.len().div_ceil(PARTS).max(1);
        let shares = self.public_shares.chunks(size * public_share_length(N));
        let parts = self.seeds.chunks(size).zip(shares);
        let lent = parts.map(|(seeds, public_shares)| Reports {
            seeds,
            public_shares,
        });
        lent.collect()
    }

    /// The share of one call over some reports.
    fn answer_at_once(&self, reports: Reports<'_>, query: &[u8]) -> Result<Vec<u8>, Refusal> {
        share(N, Expander::Aes, self.server, reports, query)
    }

    /// The server's share: each thread takes the next part that no other has taken, and what comes from them is added.
    fn answer(&self, parts: &[Reports<'_>], query: &[u8]) -> Result<Vec<u8>, Refusal> {
        let threads = thread::available_parallelism().map_or(1, usize::from);
        let next = &AtomicUsize::new(0);
        let (sender, shares) = mpsc::channel();
        thread::scope(|scope| {
            for _ in 0..threads.min(parts.len()) {
                let sender = sender.clone();
                scope.spawn(move || {
                    while let Some(part) = parts.get(next.fetch_add(1, Ordering::Relaxed)) {
                        if sender.send(self.answer_at_once(*part, query)).is_err() {
                            break;
                        }
                    }
                });
            }
            drop(sender);
            let mut sum = vec![0; share_length(query)];
            for (done, of_part) in (1..).zip(shares) {
                sum = add_shares(&sum, &of_part?)?;
                self.progress(query, done, parts.len());
            }
            Ok(sum)
        })
    }

    /// Shows the progress line over the one before.
    fn progress(&self, query: &[u8], done: usize, parts: usize) {
        let level = prefix_bits(query).unwrap_or_default();
        let server = self.server as u8;
        show(format_args!(
            "\rserver {server}, level {level} of {N}: {done} parts of {parts} done    "
        ));
    }
}

/// Writes to standard error where that is a terminal.
fn show(text: fmt::Arguments<'_>) {
    if io::stderr().is_terminal() {
        eprint!("{text}");
    }
}

/// Numbered bytes in place of random ones, so that each run is the same; an installation has to draw its seeds at random.
fn drawn(number: usize) -> Result<Seed, Refusal> {
    block(Expander::Aes, b"for this example", number as u64)
}

/// The strings of all installations.
fn held_strings() -> Result<Vec<u16>, Refusal> {
    let mut held = Vec::new();
    for (string, installations) in POPULAR {
        held.extend(vec![string; installations]);
    }
    for i in 0..OTHERS {
        let bytes = drawn(10_000 + i)?;
        held.push(u16::from_be_bytes([bytes[0], bytes[1]]));
    }
    Ok(held)
}

/// Plays the search; each added share is compared with that of one call.
fn collect(zero: &Holder, one: &Holder) -> Result<Collector, Box<dyn Error>> {
    let (parts0, parts1) = (zero.parts(), one.parts());
    let mut collector = Collector::new(N, T, zero.seeds.len())?;
    while let Some(query) = collector.query() {
        let share0 = zero.answer(&parts0, query)?;
        let share1 = one.answer(&parts1, query)?;
        let whole0 = zero.answer_at_once(zero.reports(), query)?;
        let whole1 = one.answer_at_once(one.reports(), query)?;
        if (&share0, &share1) != (&whole0, &whole1) {
            return Err("an added share is not that of one call".into());
        }
        collector.answers(&share0, &share1)?;
    }
    show(format_args!("\n"));
    Ok(collector)
}

/// What a collector says in the first round where server 1 forgets its last part.
fn with_a_part_missing(zero: &Holder, one: &Holder) -> Result<(), CollectorError> {
    let mut collector = Collector::new(N, T, zero.seeds.len())?;
    let query = collector.query().unwrap_or_default();
    let parts = one.parts();
    let share0 = zero.answer(&zero.parts(), query)?;
    let share1 = one.answer(&parts[..parts.len() - 1], query)?;
    show(format_args!("\n"));
    collector.answers(&share0, &share1)
}

fn main() -> Result<(), Box<dyn Error>> {
    let (mut zero, mut one) = (Holder::new(Server::Zero), Holder::new(Server::One));
    let held = held_strings()?;
    for (i, string) in held.iter().enumerate() {
        let (seed0, seed1) = (drawn(2 * i)?, drawn(2 * i + 1)?);
        let public_share = make_key(N, Expander::Aes, &string.to_be_bytes(), &seed0, &seed1)?;
        zero.take(seed0, &public_share);
        one.take(seed1, &public_share);
    }
    println!("{} installations, threshold {T}", held.len());

    let found = collect(&zero, &one)?.into_found().ok_or("it is not over")?;
    println!("each sum of {PARTS} shares is the share of one call");
    for string in List::new(N, &found.list).ok_or("no list")?.strings() {
        println!("heavy {string}");
    }
    if found != search(N, T, Expander::Aes, zero.reports(), one.reports())? {
        return Err("the whole search differs".into());
    }
    println!("the whole search gives the same record and list");

    match with_a_part_missing(&zero, &one) {
        Err(CollectorError::FirstTotals { expected, .. }) => {
            println!("with a part missing the first totals do not add to {expected}");
            Ok(())
        }
        other => Err(format!("a missing part was not named: {other:?}").into()),
    }
}
