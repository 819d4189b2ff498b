//! The sheet of examples, A to J, through the crate.

use tally::{
    combine, digits, levels, make_key, search, search_into, share, totals, Answer, Expander, Found,
    Refusal, Reports, Seed, Server, FIRST_QUERY, GROUP_ORDER, HEADING_LENGTH,
};

const BOTH: [Expander; 2] = [Expander::Aes, Expander::Classroom];

/// The collection that an example speaks of: the two servers' seeds, and the public shares.
struct Collection {
    seeds0: Vec<Seed>,
    seeds1: Vec<Seed>,
    public_shares: Vec<u8>,
}

impl Collection {
    fn zero(&self) -> Reports<'_> {
        Reports {
            seeds: &self.seeds0,
            public_shares: &self.public_shares,
        }
    }

    fn one(&self) -> Reports<'_> {
        Reports {
            seeds: &self.seeds1,
            public_shares: &self.public_shares,
        }
    }
}

/// Reports for packed strings of n bits, with some seeds.
fn collection(n: u64, expander: Expander, strings: &[u8]) -> Collection {
    let mut made = Collection {
        seeds0: Vec::new(),
        seeds1: Vec::new(),
        public_shares: Vec::new(),
    };
    for (i, string) in (1..).zip(strings) {
        let (seed0, seed1) = ([i; 16], [0x55 ^ i; 16]);
        let public_share = make_key(n, expander, &[*string], &seed0, &seed1).unwrap();
        made.seeds0.push(seed0);
        made.seeds1.push(seed1);
        made.public_shares.extend(public_share);
    }
    made
}

/// The report of example A, or with `first` 0 that of H.
fn report_a(first: u8) -> Collection {
    let mut seed1 = [0; 16];
    seed1[0] = first;
    Collection {
        seeds0: vec![[0; 16]],
        seeds1: vec![seed1],
        public_shares: make_key(1, Expander::Classroom, &[0x80], &[0; 16], &seed1).unwrap(),
    }
}

/// Both servers' shares of a collection of one-bit strings, under the classroom's expander.
fn shares(of: &Collection, query: &[u8]) -> (Vec<u8>, Vec<u8>) {
    let by = |server, reports| share(1, Expander::Classroom, server, reports, query).unwrap();
    (by(Server::Zero, of.zero()), by(Server::One, of.one()))
}

/// What a record says, one line a prefix.
fn lines(record: &[u8]) -> Vec<String> {
    let level = |l: tally::Level<'_>| {
        let line = |(prefix, total)| format!("{} {total}", digits(l.bits, prefix));
        l.counted().map(line).collect::<Vec<_>>()
    };
    levels(record).flat_map(level).collect()
}

/// A search for strings of two bits with threshold 2.
fn search_two(expander: Expander, strings: &[u8]) -> Found {
    let of = collection(2, expander, strings);
    search(2, 2, expander, of.zero(), of.one()).unwrap()
}

const D: [u8; 3] = [0x40, 0x40, 0xc0];

#[test]
fn a_public_share() {
    let expected: Vec<u8> = [
        &[1][..],
        &[2, 0, 0, 0, 0, 0, 0, 0],
        &[3, 0, 0, 0, 0, 0, 0, 0],
        &[1, 0, 0, 0, 0, 0, 0, 0],
    ]
    .concat();
    assert_eq!(report_a(1).public_shares, expected);
}

#[test]
fn b_shares_on_the_path() {
    let (share0, share1) = shares(&report_a(1), &[0, 0, 0, 0, 0, 1, 0x80]);
    assert_eq!(share0, 6u64.to_le_bytes());
    assert_eq!(share1, (GROUP_ORDER - 5).to_le_bytes());
}

#[test]
fn c_shares_off_the_path() {
    let (share0, share1) = shares(&report_a(1), &[0, 0, 0, 0, 0, 1, 0x00]);
    assert_eq!(share0, 5u64.to_le_bytes());
    assert_eq!(share1, (GROUP_ORDER - 5).to_le_bytes());
}

#[test]
fn d_the_search() {
    for expander in BOTH {
        let found = search_two(expander, &D);
        assert_eq!(found.record.len(), 56);
        assert_eq!(found.record[..HEADING_LENGTH], [0, 0, 0, 0, 0, 0, 0, 3]);
        assert_eq!(lines(&found.record), ["0 2", "1 1", "00 0", "01 2"]);
        assert_eq!(found.list, [0x40]);
    }
}

#[test]
fn d_level_by_level() {
    let of = collection(2, Expander::Aes, &D);
    let (mut query, mut record) = (FIRST_QUERY.to_vec(), vec![0, 0, 0, 0, 0, 0, 0, 3]);
    let list = loop {
        let by = |server, reports| share(2, Expander::Aes, server, reports, &query).unwrap();
        let (share0, share1) = (by(Server::Zero, of.zero()), by(Server::One, of.one()));
        record.extend(&query);
        record.extend(
            totals(&share0, &share1)
                .iter()
                .flat_map(|total| total.to_le_bytes()),
        );
        match combine(2, 2, &query, &share0, &share1).unwrap() {
            Answer::Next(next) => query = next,
            Answer::List(list) => break list,
            Answer::Ended => break Vec::new(),
        }
    };
    assert_eq!(Found { record, list }, search_two(Expander::Aes, &D));
}

#[test]
fn e_the_same_record() {
    for expander in BOTH {
        let other = search_two(expander, &[0x40, 0x40, 0x80]);
        assert_eq!(other, search_two(expander, &D));
    }
}

#[test]
fn f_an_empty_list() {
    for expander in BOTH {
        let found = search_two(expander, &[0x40, 0x00, 0xc0]);
        assert_eq!(lines(&found.record), ["0 2", "1 1", "00 1", "01 1"]);
        assert_eq!(found.record[..40], search_two(expander, &D).record[..40]);
        assert_eq!(found.record.len(), 56);
        assert!(found.list.is_empty());
    }
}

#[test]
fn g_no_reports() {
    for expander in BOTH {
        let of = collection(1, expander, &[]);
        let found = search(1, 1, expander, of.zero(), of.one()).unwrap();
        assert_eq!(lines(&found.record), ["0 0", "1 0"]);
        assert!(found.list.is_empty());
        for (space, fits) in [(31, false), (32, true)] {
            let mut record = vec![7; space];
            let (record, list) = (&mut record, &mut []);
            let made = search_into(1, 1, expander, of.zero(), of.one(), record, list);
            assert_eq!(made.is_ok(), fits);
            assert_eq!(*record == found.record, fits);
        }
    }
}

#[test]
fn h_equal_seeds() {
    let (share0, share1) = shares(&report_a(0), &FIRST_QUERY);
    assert_eq!(totals(&share0, &share1), [0, 1]);
}

#[test]
fn i_the_largest_payload() {
    let mut of = report_a(1);
    of.public_shares[17..].copy_from_slice(&(GROUP_ORDER - 1).to_le_bytes());
    let by = |of: &Collection| {
        share(1, Expander::Classroom, Server::One, of.one(), &FIRST_QUERY).map(|share| share.len())
    };
    let whole = |of: &Collection| {
        let (record, list) = (&mut [0; 32], &mut [0; 2]);
        search_into(1, 1, Expander::Classroom, of.zero(), of.one(), record, list)
            .map(|found| found.record)
    };
    assert_eq!((by(&of), whole(&of)), (Ok(16), Ok(32)));
    of.public_shares[17..].copy_from_slice(&GROUP_ORDER.to_le_bytes());
    let refused = Refusal::GroupNumber;
    assert_eq!((by(&of), whole(&of)), (Err(refused), Err(refused)));
}

#[test]
fn j_space_for_the_record() {
    for expander in BOTH {
        let of = collection(2, expander, &D);
        let expected = search_two(expander, &D);
        let (mut record, mut list) = ([7; 57], [7; 2]);
        let (zero, one) = (of.zero(), of.one());
        let refused = search_into(2, 2, expander, zero, one, &mut record[..55], &mut list);
        assert_eq!(refused, Err(Refusal::Space));
        assert_eq!(record[..55], [0; 55]);
        assert_eq!((&record[55..], list), (&[7; 2][..], [7; 2]));
        let found = search_into(2, 2, expander, zero, one, &mut record[..56], &mut list);
        let lengths = Found {
            record: 56,
            list: 1,
        };
        assert_eq!(found, Ok(lengths));
        assert_eq!(record[..56], expected.record);
        assert_eq!((record[56], list), (7, [0x40, 7]));
    }
}
