//! What a weighted search refuses, in which order, and how much space it names.

use tally::{
    make_key, Answer, Expander, Refusal, Reports, Settings, BITS_MOST, FIRST_QUERY, REPORTS_MOST,
    THRESHOLD_MOST, WEIGHTED_THRESHOLD_MOST,
};

const NONE: Reports<'static> = Reports {
    seeds: &[],
    public_shares: &[],
};

fn weighted(n: u64, t: u64, expander: Expander) -> Settings {
    Settings::new(n, t, expander).weighted()
}

/// Combining for the first query with totals 0.
fn combined(settings: Settings) -> Result<Answer, Refusal> {
    settings.combine(&FIRST_QUERY, &[0; 16], &[0; 16])
}

#[test]
fn refusal_12_stands_in_the_place_of_2() {
    for t in [0, 2_147_483_648, u64::MAX] {
        let settings = weighted(1, t, Expander::Aes);
        let refused = Refusal::WeightedThreshold;
        assert_eq!((refused.number(), combined(settings)), (12, Err(refused)));
        assert_eq!(settings.search(NONE, NONE), Err(refused));
        assert_eq!(settings.collector(0), Err(refused));
        let plain = Settings::new(1, t, Expander::Aes);
        assert_eq!(combined(plain), Err(Refusal::Threshold));
        assert_eq!(plain.search(NONE, NONE), Err(Refusal::Threshold));
        assert_eq!(plain.collector(0), Err(Refusal::Threshold));
    }
    for t in [1, 65_535, 65_536, 2_147_483_647] {
        let settings = weighted(1, t, Expander::Aes);
        assert_eq!(
            settings.search(NONE, NONE).map(|found| found.list),
            Ok(vec![])
        );
        assert!(settings.collector(REPORTS_MOST).is_ok());
        let plain = Settings::new(1, t, Expander::Aes).search(NONE, NONE);
        assert_eq!(plain.is_ok(), t <= THRESHOLD_MOST);
    }
}

// Each wrong argument comes with a wrong threshold, so that two causes apply, and 11 with all of them.
#[test]
fn refusal_12_comes_after_1_and_before_the_others() {
    use tally_sys::{combine, search};
    let (mut out, key) = (
        [7; 64],
        make_key(1, Expander::Aes, &[0x80], &[1; 16], &[1; 16]),
    );
    let (seed, key, query) = ([1; 16], key.unwrap(), &FIRST_QUERY[..]);
    let [mut large, mut spare, mut other] = [key.clone(), key.clone(), key.clone()];
    large[17..].fill(0xff);
    spare[0] |= 0x80;
    other[1] ^= 1;
    let ok = (&seed[..], &key[..]);
    for (wrong, due) in [(0, 12), (1 << 31, 12), (1, 0)] {
        let mut found = |n, e, zero: (&[u8], &[u8]), one: (&[u8], &[u8])| {
            search(
                n,
                true,
                wrong,
                e,
                zero.0,
                zero.1,
                one.0,
                one.1,
                &mut [],
                &mut out[..0],
            )
            .number
        };
        let first = |number| if due == 0 { number } else { due };
        assert_eq!(found(0, 3, ok, ok), 1);
        assert_eq!(found(257, 3, ok, ok), 1);
        assert_eq!(found(1, 3, ok, ok), first(3));
        assert_eq!(found(1, 1, (&seed[1..], &key), ok), first(4));
        let many = (vec![1; 16 << 16], vec![0; 25 << 16]);
        assert_eq!(
            found(1, 1, (&many.0, &many.1), (&many.0, &many.1)),
            first(5)
        );
        assert_eq!(found(1, 1, (&seed, &large), ok), first(6));
        assert_eq!(found(1, 1, (&seed, &spare), ok), first(7));
        assert_eq!(found(1, 1, (&seed, &other), ok), first(8));
        assert_eq!(found(1, 1, ok, ok), first(11));
        let mut number = |n, query: &[u8], share0: &[u8], share1: &[u8]| {
            let reply = combine(n, true, wrong, query, share0, share1, &mut out[..0]);
            assert_eq!((reply.kind, reply.length), (0, 0));
            reply.number
        };
        let one = [1, 0, 0, 0, 0, 0, 0, 0].repeat(2);
        assert_eq!(number(0, query, &one, &[]), 1);
        assert_eq!(number(1, query, &one, &[]), first(4));
        assert_eq!(number(1, query, &one, &[0xff; 16]), first(6));
        assert_eq!(number(1, &query[1..], &one, &one), first(9));
        assert_eq!(number(1, query, &one, &[0; 16]), first(11));
    }
    assert_eq!(out, [7; 64]);
}

#[test]
fn weighted_space_is_that_of_the_fewest_holders() {
    for n in [1, 2, 9, 17, BITS_MOST] {
        for reports in [0, 1, 2, 100, 65_535] {
            for (t, holders) in [
                (1, 1),
                (32_767, 1),
                (32_768, 2),
                (65_534, 2),
                (65_535, 3),
                (2_147_385_345, 65_535),
                (2_147_385_346, 65_536),
                (2_147_483_647, 65_538),
            ] {
                let settings = weighted(n, t, Expander::Aes);
                let list = reports / holders * (n as usize).div_ceil(8);
                assert_eq!(settings.list_space(reports), list);
                let few = holders.min(THRESHOLD_MOST as usize) as u64;
                if reports / few as usize == reports / holders {
                    let record = tally::record_space(n, few, reports);
                    assert_eq!(settings.record_space(reports), record);
                }
            }
        }
    }
    let least = weighted(1, WEIGHTED_THRESHOLD_MOST, Expander::Aes);
    assert_eq!(
        (least.record_space(0), least.list_space(REPORTS_MOST)),
        (32, 0)
    );
    let most = weighted(BITS_MOST, 32_767, Expander::Aes);
    assert_eq!(most.record_space(REPORTS_MOST), 803_460_134);
    assert_eq!(most.list_space(REPORTS_MOST), 2_097_120);
    for (n, t, reports) in [
        (0, 1, 1),
        (257, 1, 1),
        (1, 0, 1),
        (1, 1 << 31, 1),
        (1, 1, 65_536),
    ] {
        let settings = weighted(n, t, Expander::Aes);
        assert_eq!(
            (settings.record_space(reports), settings.list_space(reports)),
            (0, 0)
        );
    }
}
