//! The types over bytes: what they read, what they refuse, and what `Debug` does not show.

use tally::{
    make_key, search, share, BitString, CollectorError, Correction, Expander, List, PublicShare,
    Query, Record, Refusal, Reports, Seed, Server, FIRST_QUERY, GROUP_ORDER,
};

const BOTH: [Expander; 2] = [Expander::Aes, Expander::Classroom];

/// The strings of example D.
const D: [u8; 3] = [0x40, 0x40, 0xc0];

/// The seed of a report of example D; the servers' seeds differ.
fn seed(server: Server, report: usize) -> Seed {
    [0xa0 + 16 * server as u8 + report as u8; 16]
}

/// Both servers' seeds and the public shares of example D.
fn example_d(expander: Expander) -> ([[Seed; 3]; 2], Vec<u8>) {
    let seeds = [Server::Zero, Server::One].map(|server| [0, 1, 2].map(|i| seed(server, i)));
    let [zero, one] = &seeds;
    let key = |i: usize| make_key(2, expander, &D[i..i + 1], &zero[i], &one[i]).unwrap();
    let public_shares = (0..3).flat_map(key).collect();
    (seeds, public_shares)
}

/// A public share written anew from its corrections.
fn written(corrections: &[Correction]) -> Vec<u8> {
    let mut bytes = vec![0; corrections.len().div_ceil(4)];
    for (i, level) in corrections.iter().enumerate() {
        let controls = u8::from(level.left) | u8::from(level.right) << 1;
        bytes[i / 4] |= controls << (2 * (i % 4));
        bytes.extend(level.seed);
        bytes.extend(level.payload.to_le_bytes());
    }
    bytes
}

#[test]
fn public_shares_are_read_whole() {
    for expander in BOTH {
        for n in (1..=17usize).chain([255, 256]) {
            let string = BitString::from_digits(&"10110".repeat(52)[..n]).unwrap();
            let n = n as u64;
            let key = make_key(n, expander, string.bytes(), &[1; 16], &[2; 16]).unwrap();
            let public_share = PublicShare::new(n, &key).unwrap();
            let corrections: Vec<Correction> = public_share.levels().collect();
            assert_eq!((public_share.n(), corrections.len()), (n, n as usize));
            assert_eq!(written(&corrections), key);
            assert_eq!(public_share.bytes(), key);
        }
        let (_, keys) = example_d(expander);
        for key in keys.chunks_exact(49) {
            let public_share = PublicShare::new(2, key).unwrap();
            assert_eq!(written(&public_share.levels().collect::<Vec<_>>()), key);
        }
    }
}

// What is refused of one public share is what the library refuses.
#[test]
fn public_shares_are_refused_as_by_a_server() {
    let check = |n: u64, bytes: &[u8]| {
        let reports = Reports {
            seeds: &[[1; 16]],
            public_shares: bytes,
        };
        let by = share(n, Expander::Aes, Server::Zero, reports, &FIRST_QUERY);
        let made = PublicShare::new(n, bytes);
        assert_eq!(made.err(), by.err(), "n {n}, {bytes:?}");
    };
    for n in [0, 1, 2, 3, 4, 257, u64::MAX] {
        for length in 0..=100 {
            check(n, &vec![0; length]);
            check(n, &vec![0xff; length]);
        }
    }
    let (_, keys) = example_d(Expander::Classroom);
    for place in 0..49 {
        for byte in [0x00, 0x0f, 0x10, 0x80, 0xff] {
            let mut key = keys[..49].to_vec();
            key[place] = byte;
            check(2, &key);
            key[41..].copy_from_slice(&GROUP_ORDER.to_le_bytes());
            check(2, &key);
        }
    }
}

// What is refused of a query is what the library refuses, where n is the largest.
#[test]
fn queries_are_refused_as_by_a_server() {
    let check = |query: &[u8]| {
        let none = Reports {
            seeds: &[],
            public_shares: &[],
        };
        let by = share(256, Expander::Aes, Server::Zero, none, query);
        let made = Query::new(query);
        assert_eq!(made.err(), by.err(), "{query:?}");
    };
    let longer = [0u8, 8, 0, 0, 0, 3, 0x01, 0x00, 0x01, 0x80, 0xff, 0x80];
    for whole in [&FIRST_QUERY[..], &longer] {
        for place in 0..whole.len() {
            check(&whole[..place]);
            for byte in 0..=255 {
                let mut query = whole.to_vec();
                query[place] = byte;
                check(&query);
            }
        }
        check(&[whole, &[0]].concat());
    }
    let query = Query::new(&longer).unwrap();
    assert_eq!((query.length(), query.count()), (9, 3));
    assert_eq!(query.bytes(), longer);
    let prefixes = query.prefixes().map(|prefix| prefix.to_string());
    let expected = ["000000010", "000000011", "111111111"];
    assert_eq!(prefixes.collect::<Vec<_>>(), expected);
}

#[test]
fn a_record_and_a_list_are_read() {
    for expander in BOTH {
        let (seeds, keys) = example_d(expander);
        let [zero, one] = [0, 1].map(|server: usize| Reports {
            seeds: &seeds[server],
            public_shares: &keys,
        });
        let found = search(2, 2, expander, zero, one).unwrap();
        let record = Record::new(&found.record).unwrap();
        assert_eq!(record.reports(), 3);
        let (mut lines, mut bytes) = (Vec::new(), record.reports().to_be_bytes().to_vec());
        for round in record.rounds() {
            let counted = round.counted();
            lines.extend(counted.map(|(prefix, total)| format!("{prefix} {total}")));
            bytes.extend(round.query().bytes());
            bytes.extend(round.totals().flat_map(u64::to_le_bytes));
        }
        assert_eq!(lines, ["0 2", "1 1", "00 0", "01 2"]);
        assert_eq!(
            (&bytes[..], record.bytes()),
            (&found.record[..], &bytes[..])
        );
        let list = List::new(2, &found.list).unwrap();
        let strings: Vec<BitString> = list.strings().collect();
        assert_eq!(strings, [BitString::from_digits("01").unwrap()]);
        assert_eq!((list.n(), list.count()), (2, 1));
        assert_eq!(list.bytes(), found.list);
    }
}

#[test]
fn a_record_not_as_laid_out_is_none() {
    let is_record =
        |rounds: &[&[u8]]| Record::new(&[&[0; 8], &rounds.concat()[..]].concat()).is_some();
    let round = [&FIRST_QUERY[..], &[0; 16]].concat();
    let second = [&[0u8, 1, 0, 0, 0, 1, 0x40][..], &[1; 8]].concat();
    let record = [&[0; 8], &round[..], &second].concat();
    for cut in 0..=record.len() {
        let whole = [8, 8 + round.len(), record.len()].contains(&cut);
        assert_eq!(Record::new(&record[..cut]).is_some(), whole, "{cut}");
    }
    assert!(is_record(&[&round, &second]));
    assert!(!is_record(&[&second]));
    assert!(!is_record(&[&round, &round]));
    let mut large = round.clone();
    large[8..16].copy_from_slice(&GROUP_ORDER.to_le_bytes());
    assert!(!is_record(&[&large]));
    let mut descending = round;
    descending[6..8].copy_from_slice(&[0x80, 0x00]);
    assert!(!is_record(&[&descending]));
}

#[test]
fn a_list_not_as_laid_out_is_none() {
    for n in [0, 257, u64::MAX] {
        assert!(List::new(n, &[]).is_none());
    }
    assert!(List::new(9, &[0; 3]).is_none());
    assert!(List::new(9, &[0x00, 0x01]).is_none());
    assert!(List::new(8, &[1, 1]).is_none());
    assert!(List::new(256, &[0; 32]).is_some());
}

#[test]
fn bit_strings_are_in_the_order_of_dictionaries() {
    let digits = [
        "",
        "0",
        "00",
        "001",
        "01",
        "0100",
        "01000000",
        "010000000",
        "1",
        "10",
    ];
    let strings = digits.map(|digits| BitString::from_digits(digits).unwrap());
    assert!(strings.windows(2).all(|pair| pair[0] < pair[1]));
    for (string, digits) in strings.iter().zip(digits) {
        assert_eq!(string.to_string(), digits);
        assert_eq!(format!("{string:?}"), format!("BitString({digits})"));
        let again = BitString::new(string.length(), string.bytes());
        assert_eq!(again, Some(*string));
        let bits = string.bits().map(|bit| if bit { '1' } else { '0' });
        assert_eq!(bits.collect::<String>(), digits);
    }
    assert_eq!(strings[0], BitString::default());
    assert_eq!(format!("{:>4}", strings[4]), "  01");
    assert!(BitString::from_digits(&"1".repeat(256)).is_some());
    assert!(BitString::from_digits(&"1".repeat(257)).is_none());
    assert!(BitString::new(257, &[0; 33]).is_none());
    assert!(BitString::new(u64::MAX, &[]).is_none());
}

#[test]
fn debug_shows_no_seed() {
    let (seeds, keys) = example_d(Expander::Aes);
    let reports = Reports {
        seeds: &seeds[1],
        public_shares: &keys,
    };
    let shown = "Reports { seeds: 3 not shown, public_shares: 147 bytes }";
    assert_eq!(format!("{reports:?}"), shown);
    assert_eq!(format!("{reports:x?}"), shown);
    assert!(!format!("{reports:#?}").contains(&format!("{:?}", seeds[1][0][0])));
}

#[test]
fn errors_of_the_collector_in_words() {
    let (expected, found) = (3, 4);
    let first = CollectorError::FirstTotals { expected, found };
    let words = "the totals of 0 and 1 add to 4, not to 3, the number of reports";
    assert_eq!(first.to_string(), words);
    let prefix = BitString::from_digits("01").unwrap();
    let children = CollectorError::Children {
        prefix,
        expected,
        found,
    };
    let words = "the totals of 010 and 011 add to 4, not to 3, the total of 01";
    assert_eq!(children.to_string(), words);
    let refused = CollectorError::from(Refusal::GroupNumber);
    assert_eq!(refused.to_string(), Refusal::GroupNumber.to_string());
    let words = "the search is over, so no answers are due";
    assert_eq!(CollectorError::Over.to_string(), words);
}
