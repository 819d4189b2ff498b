//! Installations make keys, two servers answer queries, and a collector finds which strings of 16 bits at least five installations hold.
//! At the end the whole search on the same reports has to give the same record and list.
//!
//!     cargo run --release --example two_servers

mod holder;

use holder::Holder;
use std::error::Error;
use tally::{
    add_shares, block, make_key, public_share_length, search, share, strings, Collector,
    CollectorError, Expander, Record, Refusal, Reports, Seed, Server,
};

/// The string length and the threshold.
const N: u64 = 16;
const T: u64 = 5;

/// The popular strings, with how many installations hold each; only the last is below the threshold.
const POPULAR: [(u16, usize); 4] = [(0xbeef, 12), (0xbee5, 7), (0x1234, 5), (0x1235, 4)];

/// How many further installations hold some string of their own.
const OTHERS: usize = 20;

impl Holder {
    /// Two machines share the server's work: each answers for half of the reports, and their answers are added.
    fn answer(&self, query: &[u8]) -> Result<Vec<u8>, Refusal> {
        let half = self.seeds.len() / 2;
        let seeds = self.seeds.split_at(half);
        let shares = self.public_shares.split_at(half * public_share_length(N));
        let of = |seeds, public_shares| {
            let reports = Reports {
                seeds,
                public_shares,
            };
            share(N, Expander::Aes, self.server, reports, query)
        };
        add_shares(&of(seeds.0, shares.0)?, &of(seeds.1, shares.1)?)
    }
}

/// Numbered bytes in place of random ones, so that each run is the same; an installation has to draw its seeds at random.
fn drawn(number: usize) -> Result<Seed, Refusal> {
    block(Expander::Aes, b"for this example", number as u64)
}

/// The strings of all installations.
fn held_strings() -> Result<Vec<u16>, Refusal> {
    let mut held = Vec::new();
    for (string, installations) in POPULAR {
        held.extend(vec![string; installations]);
    }
    for i in 0..OTHERS {
        let bytes = drawn(1_000 + i)?;
        held.push(u16::from_be_bytes([bytes[0], bytes[1]]));
    }
    Ok(held)
}

/// The collector's side: both servers answer each query, until the list is found or nothing is kept.
fn collect(zero: &Holder, one: &Holder) -> Result<Collector, CollectorError> {
    let mut collector = Collector::new(N, T, zero.seeds.len())?;
    while let Some(query) = collector.query() {
        let (share0, share1) = (zero.answer(query)?, one.answer(query)?);
        collector.answers(&share0, &share1)?;
    }
    Ok(collector)
}

fn main() -> Result<(), Box<dyn Error>> {
    let (mut zero, mut one) = (Holder::new(Server::Zero), Holder::new(Server::One));
    let held = held_strings()?;
    for (i, string) in held.iter().enumerate() {
        let (seed0, seed1) = (drawn(2 * i)?, drawn(2 * i + 1)?);
        let public_share = make_key(N, Expander::Aes, &string.to_be_bytes(), &seed0, &seed1)?;
        zero.take(seed0, &public_share);
        one.take(seed1, &public_share);
    }
    println!("{} installations, threshold {T}", held.len());
    let found = collect(&zero, &one)?.into_found().ok_or("it is not over")?;
    for round in Record::new(&found.record).ok_or("no record")?.rounds() {
        let (level, asked) = (round.query().length(), round.query().count());
        let kept = round.totals().filter(|&total| T <= total).count();
        println!("level {level:2}: {asked} prefixes asked, {kept} kept");
    }
    for string in strings(N, &found.list) {
        println!("heavy {:02x}{:02x}", string[0], string[1]);
    }
    let whole = search(N, T, Expander::Aes, zero.reports(), one.reports())?;
    if whole != found {
        return Err("the whole search differs".into());
    }
    println!("the whole search gives the same record and list");
    Ok(())
}
