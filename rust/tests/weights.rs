//! Weighted searches: what they find, and how totals are read.

mod weighing;

use tally::{
    levels, make_key, signed_total, Answer, BitString, Expander, Found, List, Record, Refusal,
    Settings, FIRST_QUERY, GROUP_ORDER, THRESHOLD_MOST, WEIGHTED_THRESHOLD_MOST,
};
use weighing::{bits, held, Held, Weighted};

const BOTH: [Expander; 2] = [Expander::Aes, Expander::Classroom];

/// Six reports of three bits; `110` is heavy at 1,000 and its prefixes are light.
const SIX: [Held; 6] = [
    ("010", 700),
    ("010", 600),
    ("011", -200),
    ("000", -50),
    ("110", 1_500),
    ("111", -1_200),
];

/// What the weights of the holders of a prefix add to.
fn sum(held: &[(BitString, i16)], prefix: &str) -> i64 {
    let holds = |string: &BitString| string.to_string().starts_with(prefix);
    let weights = held.iter().filter(|(string, _)| holds(string));
    weights.map(|&(_, weight)| i64::from(weight)).sum()
}

fn weighted(n: u64, t: u64, expander: Expander) -> Settings {
    Settings::new(n, t, expander).weighted()
}

fn search(t: u64, expander: Expander, held: &[(BitString, i16)]) -> Found {
    let n = held.first().map_or(1, |(string, _)| string.length());
    let of = Weighted::new(expander, held);
    let [zero, one] = of.both();
    weighted(n, t, expander).search(zero, one).unwrap()
}

/// What a record says, one line a prefix.
fn lines(record: &[u8]) -> Vec<String> {
    let rounds = Record::new(record).unwrap().rounds();
    let all = rounds.flat_map(|round| round.weighed());
    all.map(|(prefix, total)| format!("{prefix} {total}"))
        .collect()
}

fn strings(n: u64, list: &[u8]) -> Vec<String> {
    let strings = List::new(n, list).unwrap().strings();
    strings.map(|string| string.to_string()).collect()
}

#[test]
fn totals_are_sums_of_weights_and_a_heavy_string_under_a_light_one_is_not_listed() {
    for expander in BOTH {
        let found = search(1_000, expander, &held(&SIX));
        let expected = [
            "0 1050", "1 300", "00 -50", "01 1100", "010 1300", "011 -200",
        ];
        assert_eq!(lines(&found.record), expected);
        assert_eq!(strings(3, &found.list), ["010"]);
        assert_eq!(sum(&held(&SIX), "110"), 1_500);
    }
}

#[test]
fn a_record_holds_the_group_number_of_a_negative_total() {
    for expander in BOTH {
        let found = search(1, expander, &held(&[("1", -5)]));
        let totals = [0u64, GROUP_ORDER - 5].map(u64::to_le_bytes).concat();
        let count = [0, 0, 0, 0, 0, 0, 0, 1];
        assert_eq!(found.record, [&count, &FIRST_QUERY[..], &totals].concat());
        assert!(found.list.is_empty());
        let level = levels(&found.record).next().unwrap();
        let expected = [(&[0x00][..], 0), (&[0x80][..], -5)];
        assert_eq!(level.weighed().collect::<Vec<_>>(), expected);
    }
}

#[test]
fn the_least_weight_none_and_the_most() {
    for expander in BOTH {
        for weight in [-32_768, -32_767, -1, 0, 1, 2, 32_766, 32_767] {
            let found = search(1, expander, &held(&[("0", weight)]));
            assert_eq!(lines(&found.record), [format!("0 {weight}"), "1 0".into()]);
            assert_eq!(found.list.is_empty(), weight < 1);
        }
        let all = held(&[("0", i16::MIN), ("0", i16::MIN), ("0", 0), ("1", i16::MAX)]);
        let found = search(32_767, expander, &all);
        assert_eq!(lines(&found.record), ["0 -65536", "1 32767"]);
        assert_eq!(strings(1, &found.list), ["1"]);
        assert!(search(32_768, expander, &all).list.is_empty());
    }
}

/// Strings of n bits of which many begin alike, with weights of both signs.
fn many(n: usize, count: u64) -> Vec<(BitString, i16)> {
    let mut state = 0x9e37_79b9_7f4a_7c15u64;
    let mut next = move || {
        state ^= state << 13;
        state ^= state >> 7;
        state ^= state << 17;
        state
    };
    let mut one = |_| {
        let (digits, weight) = (format!("{:0n$b}", next() >> (64 - n)), next() as i16);
        (bits(&digits), weight)
    };
    (0..count).map(&mut one).collect()
}

#[test]
fn the_list_is_the_strings_all_of_whose_prefixes_reach_the_threshold() {
    for n in [1, 2, 5, 9] {
        for count in [0, 1, 7, 60] {
            let all = many(n, count);
            for t in [1, 100, 20_000, 40_000] {
                let heavy = |string: &String| (1..=n).all(|k| t as i64 <= sum(&all, &string[..k]));
                let each = (0..1u32 << n).map(|i| format!("{i:0n$b}"));
                let expected: Vec<String> = each.filter(heavy).collect();
                let of = Weighted::new(Expander::Classroom, &all);
                let [zero, one] = of.both();
                let found = weighted(n as u64, t, of.expander)
                    .search(zero, one)
                    .unwrap();
                assert_eq!(strings(n as u64, &found.list), expected);
                for line in lines(&found.record) {
                    let (prefix, total) = line.split_once(' ').unwrap();
                    assert_eq!(total.parse(), Ok(sum(&all, prefix)));
                }
            }
        }
    }
}

#[test]
fn where_every_weight_is_one_both_searches_are_the_same() {
    for expander in BOTH {
        let ones: Vec<(BitString, i16)> = many(6, 40).iter().map(|&(s, _)| (s, 1)).collect();
        let of = Weighted::new(expander, &ones);
        let [zero, one] = of.both();
        for t in [1, 2, 5, 41, THRESHOLD_MOST] {
            let plain = tally::search(6, t, expander, zero, one);
            assert_eq!(weighted(6, t, expander).search(zero, one), plain);
            assert_eq!(Settings::new(6, t, expander).search(zero, one), plain);
        }
        let (string, _) = ones[0];
        let key = make_key(6, expander, string.bytes(), &zero.seeds[0], &one.seeds[0]);
        assert_eq!(
            key.unwrap(),
            zero.public_shares[..zero.public_shares.len() / 40]
        );
    }
}

#[test]
fn an_exact_fit_and_one_byte_less() {
    for expander in BOTH {
        let of = Weighted::new(expander, &held(&SIX));
        let [zero, one] = of.both();
        let settings = weighted(3, 1_000, expander);
        let expected = settings.search(zero, one).unwrap();
        assert_eq!((expected.record.len(), expected.list.len()), (80, 1));
        for (record_space, list_space) in [(79, 1), (80, 0)] {
            let (mut record, mut list) = ([7; 81], [7; 2]);
            let lent = (&mut record[..record_space], &mut list[..list_space]);
            let refused = settings.search_into(zero, one, lent.0, lent.1);
            assert_eq!(refused, Err(Refusal::Space));
            assert_eq!(
                (&record[..record_space], list),
                (&[0; 81][..record_space], [7; 2])
            );
            assert!(record[record_space..].iter().all(|&byte| byte == 7));
        }
        let (mut record, mut list) = ([7; 81], [7; 2]);
        let found = settings.search_into(zero, one, &mut record[..80], &mut list[..1]);
        let lengths = Found {
            record: 80,
            list: 1,
        };
        assert_eq!(found, Ok(lengths));
        assert_eq!((&record[..80], record[80]), (&expected.record[..], 7));
        assert_eq!(list, [0x40, 7]);
    }
}

/// Combining for the first query where `0` has this total and `1` has 0.
fn combined(settings: Settings, total: u64) -> Result<Answer, Refusal> {
    let share0 = [total.to_le_bytes(), [0; 8]].concat();
    settings.combine(&FIRST_QUERY, &share0, &[0; 16])
}

#[test]
fn a_total_is_kept_by_its_signed_reading() {
    let (half, most) = ((GROUP_ORDER - 1) / 2, WEIGHTED_THRESHOLD_MOST);
    for (t, total, weighted, plain) in [
        (1, 0, false, false),
        (1, 1, true, true),
        (1, half, true, true),
        (1, half + 1, false, true),
        (1, GROUP_ORDER - 1, false, true),
        (65_535, 65_534, false, false),
        (65_535, GROUP_ORDER - 65_535, false, true),
        (most, half, true, false),
        (most, most, true, false),
        (most, most - 1, false, false),
    ] {
        let answer = |kept: bool| Ok(Answer::List(vec![0x00; usize::from(kept)]));
        let settings = Settings::new(1, t, Expander::Aes);
        assert_eq!(combined(settings.weighted(), total), answer(weighted));
        assert_eq!(settings.weighted().keeps(total), weighted);
        if t <= THRESHOLD_MOST {
            assert_eq!(combined(settings, total), answer(plain));
            assert_eq!(settings.keeps(total), plain);
        }
    }
}

#[test]
fn signed_readings_at_both_ends() {
    let (half, p) = ((GROUP_ORDER - 1) / 2, GROUP_ORDER);
    assert_eq!(half, 9_223_372_034_707_292_160);
    assert_eq!(signed_total(0), 0);
    assert_eq!(signed_total(half), half as i64);
    assert_eq!(signed_total(half + 1), -(half as i64));
    assert_eq!(signed_total(p - 1), -1);
    assert_eq!((signed_total(p), signed_total(p + 1)), (0, 1));
    assert_eq!(signed_total(u64::MAX), (1 << 32) - 2);
    for total in [half - 1, half, half + 1, half + 2, p - 1, p, u64::MAX] {
        let minus = if total <= half { 0 } else { i128::from(p) };
        assert_eq!(i128::from(signed_total(total)), i128::from(total) - minus);
    }
}
