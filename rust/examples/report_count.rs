//! For collectors that expect a count of reports beside the result: the record of a search piece by piece, which begins with that number. The
//! strings are 01, 01 and 11, as in example D of the scope paper; then come too little space, no reports, and weights that cancel. It prints what
//! `examples/c/report_count.c` does.
//!
//!     cargo run --release --example report_count

use std::error::Error;
use tally::{
    block, make_weighted_key, Expander, Record, Refusal, Reports, Seed, Settings, HEADING_LENGTH,
};

/// The string length, the threshold, and the bytes of example D's record.
const N: u64 = 2;
const T: u64 = 2;
const RECORD_LENGTH: usize = 56;

/// What an installation reports: its string, packed, and a weight.
type Held = (u8, i16);

/// Example D, and two reports whose weights cancel.
const EXAMPLE_D: [Held; 3] = [(0x40, 1), (0x40, 1), (0xc0, 1)];
const CANCELLING: [Held; 2] = [(0x40, 5), (0x40, -5)];

/// Numbered bytes in place of random ones, so that each run is the same; an installation has to draw its seeds at random.
fn drawn(number: usize) -> Result<Seed, Refusal> {
    block(Expander::Aes, b"for this example", number as u64)
}

/// The whole search of some reports, whose record goes into the lent space; its length.
fn search(settings: Settings, all: &[Held], record: &mut [u8]) -> Result<usize, Refusal> {
    let (mut seeds0, mut seeds1, mut public_shares) = (vec![], vec![], vec![]);
    for (i, &(string, weight)) in all.iter().enumerate() {
        let (seed0, seed1) = (drawn(2 * i)?, drawn(2 * i + 1)?);
        let public_share = make_weighted_key(N, Expander::Aes, weight, &[string], &seed0, &seed1)?;
        public_shares.extend(public_share);
        seeds0.push(seed0);
        seeds1.push(seed1);
    }
    let [zero, one] = [&seeds0, &seeds1].map(|seeds| Reports {
        seeds,
        public_shares: &public_shares,
    });
    let mut list = vec![0; settings.list_space(all.len())];
    let found = settings.search_into(zero, one, record, &mut list)?;
    Ok(found.record)
}

/// One piece of a record: its bytes in hexadecimal, and what it is.
fn print_piece(bytes: &[u8], what: &str) {
    let digits = bytes.iter().map(|byte| format!("{byte:02x}"));
    println!("{}  {what}", digits.collect::<String>());
}

/// A record, one line for each piece of it: the number of reports, and then each query with its totals.
fn print_record(record: Record<'_>) {
    let reports = format!("the number of reports: {}", record.reports());
    print_piece(&record.bytes()[..HEADING_LENGTH], &reports);
    for round in record.rounds() {
        let prefixes = round.query().prefixes().map(|prefix| format!(" {prefix}"));
        let query = format!("a query:{}", prefixes.collect::<String>());
        print_piece(round.query().bytes(), &query);
        for (prefix, total) in round.counted() {
            let what = format!("the total of {prefix}: {total}");
            print_piece(&total.to_le_bytes(), &what);
        }
    }
}

fn main() -> Result<(), Box<dyn Error>> {
    let settings = Settings::new(N, T, Expander::Aes);
    let mut space = [0; RECORD_LENGTH];
    let length = search(settings, &EXAMPLE_D, &mut space)?;
    let record = Record::new(&space[..length]).ok_or("no record")?;
    print_record(record);
    let first = record.rounds().next().ok_or("no round")?;
    let totals: Vec<u64> = first.totals().collect();
    let (reports, sum) = (record.reports(), totals.iter().sum::<u64>());
    if sum != reports {
        return Err("the first two totals do not add to the number of reports".into());
    }
    println!(
        "{length} bytes; the first two totals add to the number of reports: {} + {} = {reports}",
        totals[0], totals[1]
    );

    let short = &mut space[..RECORD_LENGTH - 1];
    let refusal = search(settings, &EXAMPLE_D, short).err();
    let refusal = refusal.ok_or("a byte too few was not refused")?;
    if refusal != Refusal::Space || short.iter().any(|&byte| byte != 0) {
        return Err("a byte too few: another refusal, or the record area is not zero".into());
    }
    let (bytes, number) = (short.len(), refusal.number());
    println!("in {bytes} bytes it is refused with {number}, and all of them become zero");

    println!("no reports:");
    let length = search(settings, &[], &mut space)?;
    print_record(Record::new(&space[..length]).ok_or("no record")?);
    println!("two reports of 01 that weigh 5 and -5, in a weighted search:");
    let length = search(settings.weighted(), &CANCELLING, &mut space)?;
    print_record(Record::new(&space[..length]).ok_or("no record")?);
    Ok(())
}
