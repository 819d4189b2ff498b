//! The collector: what it finds in honest searches, and what it says where totals do not add up.

use tally::{
    add_shares, block, make_key, public_share_length, search, share, BitString, Collector,
    CollectorError, Expander, Refusal, Reports, Seed, Server, FIRST_QUERY, GROUP_ORDER,
};

const BOTH: [Expander; 2] = [Expander::Aes, Expander::Classroom];

/// Honest reports: each server's seeds, and the public shares.
struct Held {
    n: u64,
    expander: Expander,
    seeds: [Vec<Seed>; 2],
    public_shares: Vec<u8>,
}

impl Held {
    fn new(n: u64, expander: Expander, strings: &[BitString]) -> Held {
        let (mut seeds, mut public_shares) = ([vec![], vec![]], vec![]);
        for (i, string) in (0..).zip(strings) {
            let [seed0, seed1] =
                [2 * i, 2 * i + 1].map(|j| block(Expander::Aes, &[7; 16], j).unwrap());
            public_shares.extend(make_key(n, expander, string.bytes(), &seed0, &seed1).unwrap());
            seeds[0].push(seed0);
            seeds[1].push(seed1);
        }
        Held {
            n,
            expander,
            seeds,
            public_shares,
        }
    }

    /// The reports from `from` to before `to`, as a server holds them.
    fn reports(&self, server: Server, from: usize, to: usize) -> Reports<'_> {
        let size = public_share_length(self.n);
        Reports {
            seeds: &self.seeds[server as usize][from..to],
            public_shares: &self.public_shares[from * size..to * size],
        }
    }

    fn count(&self) -> usize {
        self.seeds[0].len()
    }

    /// A server's share of some of the reports.
    fn some(&self, server: Server, from: usize, to: usize, query: &[u8]) -> Vec<u8> {
        let reports = self.reports(server, from, to);
        share(self.n, self.expander, server, reports, query).unwrap()
    }

    /// Both servers' shares of all reports.
    fn all(&self, query: &[u8]) -> [Vec<u8>; 2] {
        [Server::Zero, Server::One].map(|server| self.some(server, 0, self.count(), query))
    }

    fn collector(&self, t: u64) -> Collector {
        Collector::new(self.n, t, self.count()).unwrap()
    }

    /// Takes honest answers for some rounds.
    fn play(&self, collector: &mut Collector, rounds: usize) {
        for _ in 0..rounds {
            let [share0, share1] = self.all(collector.query().unwrap());
            assert_eq!(collector.answers(&share0, &share1), Ok(()));
        }
    }

    /// Takes honest answers to the end, which is then that of the whole search.
    fn finish(&self, mut collector: Collector, t: u64) {
        while !collector.is_over() {
            assert_eq!(collector.list(), None);
            self.play(&mut collector, 1);
        }
        assert_eq!(collector.query(), None);
        let record = collector.record().to_vec();
        let list = collector.list().unwrap().to_vec();
        let [zero, one] =
            [Server::Zero, Server::One].map(|server| self.reports(server, 0, self.count()));
        let whole = search(self.n, t, self.expander, zero, one).unwrap();
        assert_eq!((&record, &list), (&whole.record, &whole.list));
        assert_eq!(collector.into_found(), Some(whole));
    }

    /// What the collector says to two answers, which it is not to take; it stays as it was, and honest answers lead it to the end.
    fn refused(&self, collector: &mut Collector, t: u64, shares: &[Vec<u8>; 2]) -> CollectorError {
        let before = collector.clone();
        let error = collector.answers(&shares[0], &shares[1]).unwrap_err();
        assert_eq!(*collector, before);
        self.finish(collector.clone(), t);
        error
    }
}

fn bits(digits: &str) -> BitString {
    BitString::from_digits(digits).unwrap()
}

/// Strings of n bits of which many begin alike.
fn strings(n: u64, count: usize) -> Vec<BitString> {
    let digit = |i: usize, k: u64| {
        if i as u64 * (k / 3 + 1) % 7 < 4 {
            '0'
        } else {
            '1'
        }
    };
    let string = |i| (0..n).map(|k| digit(i, k)).collect::<String>();
    (0..count).map(|i| bits(&string(i))).collect()
}

/// Five reports of four bits; with threshold 2 the first round keeps `0`, and then `00` and `01`.
fn five(expander: Expander) -> Held {
    Held::new(
        4,
        expander,
        &["0010", "0011", "0100", "0100", "1111"].map(bits),
    )
}

/// Adds to the number at a place of a share.
fn change(share: &mut [u8], place: usize, by: u64) {
    let number = &mut share[8 * place..8 * place + 8];
    let sum = add_shares(number, &by.to_le_bytes()).unwrap();
    number.copy_from_slice(&sum);
}

/// That totals add to another number than is expected of them: the first ones, or those of a prefix's children.
fn unequal(prefix: &str, expected: i128, found: i128) -> CollectorError {
    match bits(prefix) {
        first if first.length() == 0 => CollectorError::FirstTotals { expected, found },
        prefix => CollectorError::Children {
            prefix,
            expected,
            found,
        },
    }
}

#[test]
fn honest_searches_are_the_whole_search() {
    for expander in BOTH {
        for n in [1, 2, 7, 8, 9, 17] {
            for count in [0, 1, 12] {
                let held = Held::new(n, expander, &strings(n, count));
                for t in [1, 2, 3, 20] {
                    held.finish(held.collector(t), t);
                }
            }
        }
    }
}

#[test]
fn the_first_query_is_that_of_every_search() {
    let collector = Collector::new(256, 65_535, 65_535).unwrap();
    assert_eq!(collector.query(), Some(&FIRST_QUERY[..]));
    assert_eq!((collector.is_over(), collector.list()), (false, None));
    assert_eq!(collector.record(), [0, 0, 0, 0, 0, 0, 0xff, 0xff]);
    assert_eq!(collector.into_found(), None);
}

#[test]
fn arguments_outside_their_bounds_are_refused() {
    for n in [0, 257, u64::MAX] {
        assert_eq!(Collector::new(n, 0, 65_536), Err(Refusal::StringLength));
    }
    for t in [0, 65_536, u64::MAX] {
        assert_eq!(Collector::new(1, t, 65_536), Err(Refusal::Threshold));
    }
    for reports in [65_536, usize::MAX] {
        assert_eq!(Collector::new(1, 1, reports), Err(Refusal::TooManyReports));
    }
}

#[test]
fn a_report_dropped_at_one_server_is_named() {
    for expander in BOTH {
        let held = five(expander);
        let mut collector = held.collector(2);
        let dropped = |server: Server, query: &[u8]| {
            let mut shares = held.all(query);
            shares[server as usize] = held.some(server, 1, 5, query);
            shares
        };
        for server in [Server::Zero, Server::One] {
            let shares = dropped(server, collector.query().unwrap());
            let error = held.refused(&mut collector, 2, &shares);
            let first = matches!(error, CollectorError::FirstTotals { expected: 5, .. });
            assert!(first, "{error}");
        }
        held.play(&mut collector, 1);
        for server in [Server::Zero, Server::One] {
            let shares = dropped(server, collector.query().unwrap());
            let error = held.refused(&mut collector, 2, &shares);
            let named = match error {
                CollectorError::Children {
                    prefix, expected, ..
                } => Some((prefix, expected)),
                _ => None,
            };
            assert_eq!(named, Some((bits("0"), 4)), "{error}");
        }
    }
}

#[test]
fn a_report_counted_twice_is_named() {
    for expander in BOTH {
        let held = five(expander);
        // The report at `i` is laid to the others once more, at both servers.
        let twice = |i: usize, query: &[u8]| {
            [Server::Zero, Server::One].map(|server| {
                let more = held.some(server, i, i + 1, query);
                add_shares(&held.some(server, 0, 5, query), &more).unwrap()
            })
        };
        for (rounds, i, parent, total) in [
            (0, 4, "", 5),
            (1, 2, "0", 4),
            (2, 2, "01", 2),
            (2, 0, "00", 2),
        ] {
            let mut collector = held.collector(2);
            held.play(&mut collector, rounds);
            let shares = twice(i, collector.query().unwrap());
            let error = held.refused(&mut collector, 2, &shares);
            assert_eq!(error, unequal(parent, total, total + 1));
        }
    }
}

#[test]
fn a_changed_share_is_named() {
    for expander in BOTH {
        let held = five(expander);
        for (rounds, place, parent, total) in [
            (0, 1, "", 5),
            (1, 0, "0", 4),
            (2, 1, "00", 2),
            (2, 2, "01", 2),
            (3, 3, "010", 2),
        ] {
            let mut collector = held.collector(2);
            held.play(&mut collector, rounds);
            for server in 0..2 {
                let mut shares = held.all(collector.query().unwrap());
                change(&mut shares[server], place, 3);
                let error = held.refused(&mut collector, 2, &shares);
                assert_eq!(error, unequal(parent, total, total + 3));
            }
        }
    }
}

#[test]
fn sums_are_those_of_whole_numbers() {
    let held = five(Expander::Aes);
    let mut collector = held.collector(2);
    // The totals 4 and 1 become 6 and p − 1, which add to 5 modulo p.
    let mut shares = held.all(&FIRST_QUERY);
    change(&mut shares[0], 0, 2);
    change(&mut shares[0], 1, GROUP_ORDER - 2);
    let error = held.refused(&mut collector, 2, &shares);
    assert_eq!(error, unequal("", 5, i128::from(GROUP_ORDER) + 5));
}

#[test]
fn shares_not_as_laid_out_are_refused() {
    let held = five(Expander::Classroom);
    let mut collector = held.collector(2);
    let [share0, share1] = held.all(&FIRST_QUERY);
    let short = |length: usize| [share0[..length].to_vec(), share1[..length].to_vec()];
    let long = |byte: u8| [vec![byte; 24], vec![byte; 24]];
    for shares in [short(0), short(8), short(15), long(0), long(0xff)] {
        let error = held.refused(&mut collector, 2, &shares);
        assert_eq!(error, CollectorError::Refused(Refusal::InputLength));
    }
    let shares = [share0, [0xff; 16].to_vec()];
    let error = held.refused(&mut collector, 2, &shares);
    assert_eq!(error, CollectorError::Refused(Refusal::GroupNumber));
}

#[test]
fn no_answers_are_due_when_the_search_is_over() {
    let held = five(Expander::Aes);
    let mut collector = held.collector(2);
    held.play(&mut collector, 4);
    assert_eq!(collector.list(), Some(bits("0100").bytes()));
    let before = collector.clone();
    assert_eq!(collector.answers(&[], &[]), Err(CollectorError::Over));
    assert_eq!(collector, before);
}
