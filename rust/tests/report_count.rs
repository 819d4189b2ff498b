//! The number of reports at the beginning of a record, most significant byte first.

mod weighing;

use tally::{
    levels, make_key, search, search_into, Collector, Expander, Found, Record, Refusal, Reports,
    Settings, FIRST_QUERY, HEADING_LENGTH, REPORTS_MOST,
};
use weighing::{held, Held, Weighted};

const BOTH: [Expander; 2] = [Expander::Aes, Expander::Classroom];

const NONE: Reports<'static> = Reports {
    seeds: &[],
    public_shares: &[],
};

/// Numbers of reports, and how a record begins with them.
const COUNTS: [(usize, [u8; 8]); 6] = [
    (0, [0, 0, 0, 0, 0, 0, 0x00, 0x00]),
    (1, [0, 0, 0, 0, 0, 0, 0x00, 0x01]),
    (255, [0, 0, 0, 0, 0, 0, 0x00, 0xff]),
    (256, [0, 0, 0, 0, 0, 0, 0x01, 0x00]),
    (300, [0, 0, 0, 0, 0, 0, 0x01, 0x2c]),
    (REPORTS_MOST, [0, 0, 0, 0, 0, 0, 0xff, 0xff]),
];

/// Three reports of example D, of weight one.
const D: [Held; 3] = [("01", 1), ("01", 1), ("11", 1)];

/// A weighted search for strings of two bits with threshold 2.
fn weighted(pairs: &[Held]) -> Found {
    let of = Weighted::new(Expander::Aes, &held(pairs));
    let [zero, one] = of.both();
    let settings = Settings::new(2, 2, of.expander).weighted();
    settings.search(zero, one).unwrap()
}

/// The number of reports that a record says, and what follows it.
fn split(record: &[u8]) -> (u64, &[u8]) {
    let reports = Record::new(record).unwrap().reports();
    (reports, &record[HEADING_LENGTH..])
}

#[test]
fn a_record_begins_with_the_number_of_reports() {
    for expander in BOTH {
        let key = make_key(1, expander, &[0x80], &[1; 16], &[2; 16]).unwrap();
        for (count, head) in COUNTS {
            let seeds = [1, 2].map(|byte| vec![[byte; 16]; count]);
            let public_shares = key.repeat(count);
            let [zero, one] = [0, 1].map(|server: usize| Reports {
                seeds: &seeds[server],
                public_shares: &public_shares,
            });
            for settings in [
                Settings::new(1, 1, expander),
                Settings::new(1, 1, expander).weighted(),
            ] {
                let record = settings.search(zero, one).unwrap().record;
                let totals = [0, count as u64].map(u64::to_le_bytes).concat();
                assert_eq!(record, [&head, &FIRST_QUERY[..], &totals].concat());
                assert_eq!(Record::new(&record).unwrap().reports(), count as u64);
            }
        }
    }
}

#[test]
fn a_collector_begins_its_record_with_the_number_of_reports() {
    for (count, head) in COUNTS {
        let collector = Collector::new(256, 1, count).unwrap();
        assert_eq!(collector.record(), head);
        let record = Record::new(collector.record()).unwrap();
        assert_eq!(
            (record.reports(), record.rounds().count()),
            (count as u64, 0)
        );
        let settings = Settings::new(256, 1, Expander::Aes).weighted();
        let weighted = settings.collector(count).unwrap();
        assert_eq!(weighted.record(), head);
        assert_eq!(weighted.with_every_weight_one().record(), head);
    }
}

#[test]
fn no_reports_begin_with_eight_zero_bytes_whatever_the_area_held() {
    for expander in BOTH {
        for n in [1, 8, 256] {
            let (mut record, mut list) = ([7; 33], [7; 1]);
            let found = search_into(n, 1, expander, NONE, NONE, &mut record, &mut list);
            let lengths = Found {
                record: 32,
                list: 0,
            };
            assert_eq!(found, Ok(lengths));
            let expected = [&[0; 8], &FIRST_QUERY[..], &[0; 16], &[7]].concat();
            assert_eq!(record[..], expected);
            assert_eq!(list, [7]);
        }
    }
}

#[test]
fn weights_that_cancel_show_in_the_number_of_reports_alone() {
    let one = weighted(&[("01", 5)]);
    let three = weighted(&[("01", 5), ("01", 9), ("01", -9)]);
    assert_eq!((split(&one.record).0, split(&three.record).0), (1, 3));
    assert_eq!(split(&one.record).1, split(&three.record).1);
    assert_eq!(one.list, three.list);

    let (none, two) = (weighted(&[]), weighted(&[("01", 5), ("01", -5)]));
    assert_eq!((split(&none.record).0, split(&two.record).0), (0, 2));
    assert_eq!(split(&none.record).1, split(&two.record).1);
    let first = levels(&two.record).next().unwrap();
    assert!(first.weighed().all(|(_, total)| total == 0));
}

#[test]
fn where_every_weight_is_one_the_first_two_totals_add_to_the_number_of_reports() {
    for reports in 0..=D.len() {
        let found = weighted(&D[..reports]);
        let record = Record::new(&found.record).unwrap();
        let first = record.rounds().next().unwrap();
        assert_eq!(record.reports(), reports as u64);
        assert_eq!(first.totals().sum::<u64>(), record.reports());
    }
}

#[test]
fn a_refusal_with_11_zeroes_the_head_and_any_other_leaves_it() {
    for expander in BOTH {
        let of = Weighted::new(expander, &held(&D));
        let [zero, one] = of.both();
        for space in 0..56 {
            let mut record = [7; 56];
            let lent = &mut record[..space];
            let refused = search_into(2, 2, expander, zero, one, lent, &mut [7; 1]);
            assert_eq!(refused, Err(Refusal::Space));
            let expected = [vec![0; space], vec![7; 56 - space]].concat();
            assert_eq!(record[..], expected);
        }
        let mut record = [7; 56];
        let refused = search_into(2, 2, expander, zero, one, &mut record, &mut []);
        assert_eq!((refused, record), (Err(Refusal::Space), [0; 56]));
        for (n, t, zero) in [(0, 2, zero), (2, 0, zero), (2, 2, NONE)] {
            let mut record = [7; 56];
            let refused = search_into(n, t, expander, zero, one, &mut record, &mut [7; 1]);
            assert!(refused.is_err_and(|refusal| refusal != Refusal::Space));
            assert_eq!(record, [7; 56]);
        }
    }
}

#[test]
fn a_number_of_reports_that_no_search_takes_is_no_record() {
    let of = Weighted::new(Expander::Aes, &held(&D));
    let [zero, one] = of.both();
    let found = search(2, 2, Expander::Aes, zero, one).unwrap();
    let rounds = levels(&found.record).collect::<Vec<_>>();
    for reports in [0, 1, 3, 65_535, 65_536, 3 << 56, u64::MAX] {
        let mut record = found.record.clone();
        record[..HEADING_LENGTH].copy_from_slice(&reports.to_be_bytes());
        let read = Record::new(&record);
        let expected = (reports <= 65_535).then_some(reports);
        assert_eq!(read.map(|record| record.reports()), expected);
        // The levels are read without a look at the number before them.
        assert_eq!(levels(&record).collect::<Vec<_>>(), rounds);
    }
    for length in 0..HEADING_LENGTH {
        assert_eq!(Record::new(&found.record[..length]), None);
        assert_eq!(levels(&found.record[..length]).count(), 0);
    }
}

#[test]
fn a_record_of_before_is_no_record_and_has_no_levels() {
    for pairs in [&D[..0], &D[..1], &D, &[("01", 5), ("01", -5)]] {
        let record = weighted(pairs).record;
        let before = &record[HEADING_LENGTH..];
        assert_eq!(before[..8], 131_200u64.to_be_bytes());
        assert_eq!(Record::new(before), None);
        assert_eq!(levels(before).count(), 0);
    }
    // Whatever its first total, up to the most reports, and however much stands behind it.
    let mut before = [&FIRST_QUERY[..], &[1; 4_000_000]].concat();
    for total in 0..=REPORTS_MOST as u64 {
        before[8..16].copy_from_slice(&total.to_le_bytes());
        assert_eq!(levels(&before).count(), 0);
    }
}

#[test]
fn a_record_is_the_bytes_up_to_its_length() {
    let found = weighted(&D);
    let rounds = levels(&found.record).collect::<Vec<_>>();
    let area = [&found.record[..], &[0; 9]].concat();
    for length in found.record.len() + 1..=area.len() {
        assert_eq!(Record::new(&area[..length]), None);
        assert_eq!(levels(&area[..length]).collect::<Vec<_>>(), rounds);
    }
    // What an earlier search left behind a shorter record may read as one more round.
    let mut area = found.record.clone();
    let shorter = weighted(&[]).record;
    area[..shorter.len()].copy_from_slice(&shorter);
    assert_eq!(Record::new(&area).unwrap().rounds().count(), 2);
    // A record cut after a whole round is one.
    for (length, rounds) in [(HEADING_LENGTH, 0), (shorter.len(), 1)] {
        let cut = Record::new(&found.record[..length]).unwrap();
        assert_eq!(cut.rounds().count(), rounds);
    }
}

#[test]
fn a_wrong_number_stays_in_the_record_of_a_weighted_search_unless_weights_cannot_add_so() {
    let totals = [0, 40_000].map(u64::to_le_bytes).concat();
    let settings = Settings::new(1, 1, Expander::Aes).weighted();
    for (reports, taken) in [(1, false), (2, true), (3, true), (REPORTS_MOST, true)] {
        let mut collector = settings.collector(reports).unwrap();
        assert_eq!(collector.answers(&totals, &[0; 16]).is_ok(), taken);
        let record = Record::new(collector.record()).unwrap();
        assert_eq!(record.reports(), reports as u64);
    }
}
