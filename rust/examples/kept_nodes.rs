//! Seven installations hold strings of four bits; two servers that keep their nodes and a collector find which strings at least two of them hold.
//! At the end the whole search on the same reports has to give the same record and list. It prints what `examples/c/kept_nodes.c` does.
//!
//!     cargo run --release --example kept_nodes

mod holder;

use holder::Holder;
use std::error::Error;
use tally::{
    block, make_key, nodes_count, search, BitString, Collector, Expander, KeptServer, List, Record,
    Refusal, Seed, Server, FIRST_QUERY,
};

/// The string length and the threshold.
const N: u64 = 4;
const T: u64 = 2;

/// What the installations hold.
const STRINGS: [&str; 7] = ["0110", "1011", "0001", "0110", "0010", "1100", "1011"];

impl Holder {
    /// The server with its nodes at the roots.
    fn begin(&self) -> Result<KeptServer<'_>, Refusal> {
        KeptServer::begin(N, Expander::Aes, self.server, self.reports())
    }
}

/// Numbered bytes in place of random ones, so that each run is the same; an installation has to draw its seeds at random.
fn drawn(number: usize) -> Result<Seed, Refusal> {
    block(Expander::Aes, b"for this example", number as u64)
}

fn main() -> Result<(), Box<dyn Error>> {
    let (mut zero, mut one) = (Holder::new(Server::Zero), Holder::new(Server::One));
    for (i, string) in STRINGS.iter().enumerate() {
        let (seed0, seed1) = (drawn(2 * i)?, drawn(2 * i + 1)?);
        let string = BitString::from_digits(string).ok_or("no string")?;
        let public_share = make_key(N, Expander::Aes, string.bytes(), &seed0, &seed1)?;
        zero.take(seed0, &public_share);
        one.take(seed1, &public_share);
    }

    let (mut server0, mut server1) = (zero.begin()?, one.begin()?);
    let mut collector = Collector::new(N, T, STRINGS.len())?;
    while let Some(query) = collector.query() {
        let (share0, share1) = (server0.answer(query)?, server1.answer(query)?);
        collector.answers(share0, share1)?;
    }
    let found = collector.into_found().ok_or("it is not over")?;

    for round in Record::new(&found.record).ok_or("no record")?.rounds() {
        for (prefix, total) in round.counted() {
            println!("{prefix} {total}");
        }
        let query = round.query();
        let (prefixes, nodes) = (query.count(), nodes_count(STRINGS.len(), query.bytes()));
        println!("{prefixes} prefixes, {nodes} nodes kept by each server");
    }
    for string in List::new(N, &found.list).ok_or("no list")?.strings() {
        println!("heavy {string}");
    }
    if found != search(N, T, Expander::Aes, zero.reports(), one.reports())? {
        return Err("the whole search differs".into());
    }
    println!("the whole search gives the same record and list");
    if server0.answer(&FIRST_QUERY) != Err(Refusal::NoParent) {
        return Err("the first query once more is not refused".into());
    }
    println!("the first query once more: The parent of a prefix was not in the last query.");
    zero.begin()?.answer(&FIRST_QUERY)?;
    println!("and from the roots again it is answered");
    Ok(())
}
