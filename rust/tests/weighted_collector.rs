//! The collector of a weighted search: what it checks of signed totals, and what it leaves open.

mod weighing;

use tally::{
    share, BitString, Collector, CollectorError, Expander, Refusal, Server, Settings, FIRST_QUERY,
    GROUP_ORDER,
};
use weighing::{bits, held, Held, Weighted};

const FIVE: [Held; 5] = [
    ("0010", 30),
    ("0011", -12),
    ("0100", 5),
    ("0100", 6),
    ("1111", -7),
];

/// Group numbers of signed ones as a share, 8 bytes each.
fn share_of(numbers: &[i64]) -> Vec<u8> {
    let number = |&number: &i64| match u64::try_from(number) {
        Ok(number) => number.to_le_bytes(),
        Err(_) => (GROUP_ORDER - number.unsigned_abs()).to_le_bytes(),
    };
    numbers.iter().flat_map(number).collect()
}

/// What a collector says to answers whose totals are these numbers.
fn answered(collector: &mut Collector, totals: &[i64]) -> Result<(), CollectorError> {
    collector.answers(&share_of(totals), &share_of(&vec![0; totals.len()]))
}

fn begun(t: u64, reports: usize) -> Collector {
    let settings = Settings::new(4, t, Expander::Aes).weighted();
    settings.collector(reports).unwrap()
}

fn beyond(prefix: &str, found: i128) -> Result<(), CollectorError> {
    let prefix = bits(prefix);
    Err(CollectorError::Beyond { prefix, found })
}

fn children(prefix: &str, expected: i128, found: i128) -> Result<(), CollectorError> {
    let prefix = bits(prefix);
    Err(CollectorError::Children {
        prefix,
        expected,
        found,
    })
}

/// Plays an honest search, which has to be the whole one.
fn plays(settings: Settings, all: &[(BitString, i16)], collector: Collector) {
    let (of, mut collector) = (Weighted::new(settings.expander, all), collector);
    while let Some(query) = collector.query() {
        let [share0, share1] = [Server::Zero, Server::One]
            .map(|server| share(settings.n, of.expander, server, of.lent(server), query).unwrap());
        assert_eq!(collector.answers(&share0, &share1), Ok(()));
    }
    let [zero, one] = of.both();
    assert_eq!(collector.into_found(), settings.search(zero, one).ok());
}

#[test]
fn honest_searches_are_the_whole_search() {
    for expander in [Expander::Aes, Expander::Classroom] {
        for t in [1, 5, 11, 18, 1_000_000] {
            let settings = Settings::new(4, t, expander).weighted();
            for all in [&FIVE[..], &FIVE[..2], &[]] {
                plays(settings, &held(all), settings.collector(all.len()).unwrap());
            }
            let ones = FIVE.map(|(string, _)| (string, 1));
            let collector = settings.collector(5).unwrap();
            plays(settings, &held(&ones), collector.with_every_weight_one());
        }
    }
}

#[test]
fn the_first_totals_may_add_to_anything_unless_every_weight_is_one() {
    assert_eq!(answered(&mut begun(3, 2), &[10, -4]), Ok(()));
    let mut ones = begun(3, 7).with_every_weight_one();
    let (expected, found) = (7, 6);
    let first = Err(CollectorError::FirstTotals { expected, found });
    assert_eq!(answered(&mut ones, &[4, 2]), first);
    assert_eq!(answered(&mut ones, &[8, -1]), beyond("0", 8));
    assert_eq!(answered(&mut ones, &[-1, 7]), beyond("0", -1));
    assert_eq!(answered(&mut ones, &[4, 3]), Ok(()));
}

#[test]
fn told_later_that_every_weight_is_one_it_expects_no_first_totals() {
    let mut collector = begun(2, 7);
    assert_eq!(answered(&mut collector, &[5, 2]), Ok(()));
    let mut ones = collector.with_every_weight_one();
    assert_eq!(answered(&mut ones, &[3, 3, 1, 1]), children("0", 5, 6));
    assert_eq!(answered(&mut ones, &[8, -3, 1, 1]), beyond("00", 8));
    assert_eq!(answered(&mut ones, &[3, 2, 1, 1]), Ok(()));
}

#[test]
fn two_children_add_to_their_parent_as_signed_numbers() {
    let mut collector = begun(3, 3);
    assert_eq!(answered(&mut collector, &[-4, 10]), Ok(()));
    let before = collector.clone();
    assert_eq!(answered(&mut collector, &[12, -3]), children("1", 10, 9));
    assert_eq!(
        answered(&mut collector, &[-10, -20]),
        children("1", 10, -30)
    );
    assert_eq!(collector, before);
    assert_eq!(answered(&mut collector, &[-2, 12]), Ok(()));
    assert_eq!(answered(&mut collector, &[7, 5]), Ok(()));
    let pairs = [4, 3, 9, -5];
    assert_eq!(answered(&mut collector, &pairs), children("111", 5, 4));
    assert_eq!(answered(&mut collector, &[4, 3, 9, -4]), Ok(()));
    assert_eq!(
        collector.list(),
        Some(&[0b1100_0000, 0b1101_0000, 0b1110_0000][..])
    );
}

#[test]
fn a_total_beyond_the_weights_of_all_reports_is_named() {
    for (totals, prefix, found) in [
        ([65_535, 0], "0", 65_535),
        ([0, -65_537], "1", -65_537),
        ([1 << 40, 1 << 41], "0", 1 << 40),
    ] {
        assert_eq!(answered(&mut begun(1, 2), &totals), beyond(prefix, found));
    }
    assert_eq!(answered(&mut begun(1, 2), &[65_534, -65_536]), Ok(()));
    // A report that one server left out turns the totals of all prefixes into other numbers.
    let all = held(&FIVE);
    let (whole, less) = (Weighted::new(Expander::Aes, &all), &all[1..]);
    let part = Weighted::new(Expander::Aes, less);
    let of = |by: &Weighted, server| {
        share(4, by.expander, server, by.lent(server), &FIRST_QUERY).unwrap()
    };
    let shares = (of(&whole, Server::Zero), of(&part, Server::One));
    let error = begun(1, 5).answers(&shares.0, &shares.1);
    assert!(
        matches!(error, Err(CollectorError::Beyond { .. })),
        "{error:?}"
    );
}

// All prefixes are kept, with totals that add up and that 65,535 weights could have, but no honest reports.
#[test]
fn a_query_that_would_pass_the_limit_is_refused() {
    let settings = Settings::new(18, 1, Expander::Aes).weighted();
    let mut collector = settings.collector(65_535).unwrap();
    for k in 1..16 {
        assert_eq!(
            answered(&mut collector, &vec![1 << (17 - k); 1 << k]),
            Ok(())
        );
    }
    let before = collector.clone();
    let refused = CollectorError::Refused(Refusal::Space);
    assert_eq!(answered(&mut collector, &vec![2; 1 << 16]), Err(refused));
    assert_eq!(collector, before);
}

#[test]
fn errors_in_words() {
    let error = beyond("01", -70_000).unwrap_err();
    let words = "the total of 01 is -70000, to which the weights of all reports cannot add";
    assert_eq!(error.to_string(), words);
    let error = children("01", -3, -4).unwrap_err();
    let words = "the totals of 010 and 011 add to -4, not to -3, the total of 01";
    assert_eq!(error.to_string(), words);
}
