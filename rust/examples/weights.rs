//! Six installations report how many bytes a feature saved them, where a number below 0 is a loss. The features have names of three bits. Two servers
//! and a collector find the features whose savings, and those of each group of features whose names begin alike, add to at least 1,000 bytes. At
//! the end the whole search on the same reports has to give the same record and list. It prints what `examples/c/weights.c` does.
//!
//!     cargo run --release --example weights

mod holder;

use holder::Holder;
use std::error::Error;
use tally::{
    block, make_weighted_key, share, BitString, Expander, List, Record, Refusal, Seed, Server,
    Settings,
};

/// The string length and the threshold.
const N: u64 = 3;
const T: u64 = 1_000;

/// The reports: a feature's name, and the bytes that it saved.
const SAVINGS: [(&str, i16); 6] = [
    ("010", 700),
    ("010", 600),
    ("011", -200),
    ("000", -50),
    ("110", 1_500),
    ("111", -1_200),
];

impl Holder {
    fn answer(&self, query: &[u8]) -> Result<Vec<u8>, Refusal> {
        share(N, Expander::Aes, self.server, self.reports(), query)
    }
}

/// Numbered bytes in place of random ones, so that each run is the same; an installation has to draw its seeds at random.
fn drawn(number: usize) -> Result<Seed, Refusal> {
    block(Expander::Aes, b"for this example", number as u64)
}

/// What the bytes of the features whose names begin with `prefix` add to.
fn saved(prefix: &str) -> i64 {
    let begin = SAVINGS.iter().filter(|(name, _)| name.starts_with(prefix));
    begin.map(|&(_, bytes)| i64::from(bytes)).sum()
}

fn main() -> Result<(), Box<dyn Error>> {
    let (mut zero, mut one) = (Holder::new(Server::Zero), Holder::new(Server::One));
    for (i, (name, bytes)) in SAVINGS.iter().enumerate() {
        let (seed0, seed1) = (drawn(2 * i)?, drawn(2 * i + 1)?);
        let name = BitString::from_digits(name).ok_or("no name")?;
        let public_share =
            make_weighted_key(N, Expander::Aes, *bytes, name.bytes(), &seed0, &seed1)?;
        zero.take(seed0, &public_share);
        one.take(seed1, &public_share);
    }

    let settings = Settings::new(N, T, Expander::Aes).weighted();
    let mut collector = settings.collector(SAVINGS.len())?;
    while let Some(query) = collector.query() {
        let (share0, share1) = (zero.answer(query)?, one.answer(query)?);
        collector.answers(&share0, &share1)?;
    }
    let found = collector.into_found().ok_or("it is not over")?;

    for round in Record::new(&found.record).ok_or("no record")?.rounds() {
        for (prefix, total) in round.weighed() {
            println!("{prefix} {total}");
        }
    }
    for string in List::new(N, &found.list).ok_or("no list")?.strings() {
        println!("heavy {string}");
    }
    let (heavy, light) = (saved("110"), saved("1"));
    println!("110 saved {heavy} bytes, but 1 only {light}: it is not in the list");
    if found != settings.search(zero.reports(), one.reports())? {
        return Err("the whole search differs".into());
    }
    Ok(())
}
