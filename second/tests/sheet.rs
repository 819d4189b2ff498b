//! The sheet of examples A to J and the run-only examples.

use second::field::P;
use second::keys::public_share_size;
use second::query::{first, pack, write};
use second::{combine, key, search, share, Combined, Found, Reply};

const ZERO: [u8; 16] = [0; 16];
const ONE: [u8; 16] = [1, 0, 0, 0, 0, 0, 0, 0, 0, 0, 0, 0, 0, 0, 0, 0];

fn made(n: usize, string: &[u8], s0: &[u8], s1: &[u8]) -> Vec<u8> {
    let mut space = vec![0u8; public_share_size(n)];
    let reply = key(n as u64, 2, 1, string, s0, s1, &mut space);
    let length = space.len() as u64;
    assert_eq!(reply, Reply { number: 0, length });
    space
}

fn shares(public: &[u8], seeds: [&[u8]; 2], query: &[u8]) -> [Vec<u64>; 2] {
    [0, 1].map(|b| {
        let mut space = [0u8; 64];
        let reply = share(1, 2, b == 1, seeds[b], public, query, &mut space);
        assert_eq!(reply.number, 0);
        let numbers = space[..reply.length as usize].chunks(8);
        numbers
            .map(|x| u64::from_le_bytes(x.try_into().unwrap()))
            .collect()
    })
}

#[test]
fn a_b_c() {
    let public = made(1, &[0x80], &ZERO, &ONE);
    let mut wanted = vec![1u8];
    for number in [2u64, 3, 1] {
        wanted.extend(number.to_le_bytes());
    }
    assert_eq!(public, wanted);
    let at_one = shares(&public, [&ZERO, &ONE], &write(1, &[vec![0x80]]));
    assert_eq!(at_one, [vec![6], vec![P - 5]]);
    let at_zero = shares(&public, [&ZERO, &ONE], &write(1, &[vec![0x00]]));
    assert_eq!(at_zero, [vec![5], vec![P - 5]]);
}

#[test]
fn h_equal_seeds() {
    let public = made(1, &[0x80], &ZERO, &ZERO);
    let both = shares(&public, [&ZERO, &ZERO], &first());
    let totals: Vec<u64> = (0..2)
        .map(|i| second::field::add(both[0][i], both[1][i]))
        .collect();
    assert_eq!(totals, [0, 1]);
}

/// Seeds of both servers and the public shares for strings of two bits.
fn collection(strings: [&str; 3]) -> (Vec<u8>, Vec<u8>, Vec<u8>) {
    let (mut seeds0, mut seeds1, mut public) = (vec![], vec![], vec![]);
    for (i, string) in strings.iter().enumerate() {
        let bits: Vec<bool> = string.chars().map(|c| c == '1').collect();
        let s0 = [i as u8 + 7; 16];
        let s1 = [0xf0 - i as u8; 16];
        public.extend(made(2, &pack(&bits), &s0, &s1));
        seeds0.extend(s0);
        seeds1.extend(s1);
    }
    (seeds0, seeds1, public)
}

fn searched(strings: [&str; 3], record: &mut [u8], list: &mut [u8]) -> Found {
    let (seeds0, seeds1, public) = collection(strings);
    search(
        2, false, 2, 2, &seeds0, &public, &seeds1, &public, record, list,
    )
}

/// The record of three reports with two queries and these totals.
fn record_of(prefixes: [u8; 4], totals: [u64; 4]) -> Vec<u8> {
    let mut record = vec![0, 0, 0, 0, 0, 0, 0, 3];
    for level in 0..2 {
        let asked = &prefixes[2 * level..2 * level + 2];
        record.extend(write(level + 1, &[vec![asked[0]], vec![asked[1]]]));
        for total in &totals[2 * level..2 * level + 2] {
            record.extend(total.to_le_bytes());
        }
    }
    record
}

#[test]
fn d_e_f_j() {
    let wanted = record_of([0x00, 0x80, 0x00, 0x40], [2, 1, 0, 2]);
    assert_eq!(wanted.len(), 56);
    let passes = Found {
        number: 0,
        record_length: 56,
        list_length: 1,
    };
    for strings in [["01", "01", "11"], ["01", "01", "10"]] {
        let (mut record, mut list) = ([0xeeu8; 56], [0xeeu8; 2]);
        assert_eq!(searched(strings, &mut record, &mut list), passes);
        assert_eq!(record[..], wanted);
        assert_eq!(list, [0x40, 0xee]);
    }
    let (mut record, mut list) = ([0xeeu8; 58], [0xeeu8; 2]);
    let found = searched(["01", "00", "11"], &mut record, &mut list);
    assert_eq!((found.number, found.list_length), (0, 0));
    let wanted = record_of([0x00, 0x80, 0x00, 0x40], [2, 1, 1, 1]);
    assert_eq!(record[..56], wanted);
    assert_eq!((record[56], record[57], list), (0xee, 0xee, [0xee; 2]));
    let refused = Found {
        number: 11,
        record_length: 0,
        list_length: 0,
    };
    for strings in [["01", "01", "11"], ["01", "01", "10"], ["01", "00", "11"]] {
        for room in [0, 1, 7, 8, 9, 24, 31, 32, 33, 47, 48, 55] {
            let (mut record, mut list) = (vec![0xeeu8; room], [0xeeu8; 2]);
            let found = searched(strings, &mut record, &mut list);
            assert_eq!((found, record, list), (refused, vec![0; room], [0xee; 2]));
        }
    }
    let mut record = [0xeeu8; 60];
    let found = searched(["01", "01", "11"], &mut record, &mut []);
    assert_eq!((found, record), (refused, [0; 60]));
}

#[test]
fn g_no_reports() {
    for expander in [1, 2] {
        let none = |record: &mut [u8]| {
            let found = search(1, false, 1, expander, &[], &[], &[], &[], record, &mut []);
            (found.number, found.record_length, found.list_length)
        };
        let mut record = [0xeeu8; 32];
        assert_eq!(none(&mut record), (0, 32, 0));
        assert_eq!(record[..8], [0; 8]);
        assert_eq!(record[8..16], first());
        assert_eq!(record[16..], [0; 16]);
        let mut record = [0xeeu8; 31];
        assert_eq!((none(&mut record), record), ((11, 0, 0), [0; 31]));
    }
}

#[test]
fn i_payload_corrections() {
    let mut public = made(1, &[0x80], &ZERO, &ONE);
    for (payload, number) in [(P - 1, 0), (P, 6), (u64::MAX, 6)] {
        public[17..].copy_from_slice(&payload.to_le_bytes());
        let mut space = [0u8; 16];
        let reply = share(1, 2, true, &ONE, &public, &first(), &mut space);
        assert_eq!(reply.number, number);
        let mut record = [0u8; 32];
        let found = search(
            1,
            false,
            1,
            2,
            &ZERO,
            &public,
            &ONE,
            &public,
            &mut record,
            &mut [0; 2],
        );
        assert_eq!(found.number, number);
    }
}

#[test]
fn bounds_of_n_and_t() {
    let mut space = vec![0u8; public_share_size(256)];
    for (n, number) in [(256, 0), (257, 1), (0, 1), (1 << 63, 1), (u64::MAX, 1)] {
        let reply = key(n, 1, 1, &[5; 32], &ZERO, &ONE, &mut space);
        assert_eq!(reply.number, number);
        let reply = share(n, 1, false, &[], &[], &first(), &mut [0; 16]);
        assert_eq!(reply.number, number);
        let found = search(n, false, 1, 1, &[], &[], &[], &[], &mut [0; 32], &mut []);
        assert_eq!(found.number, number);
        let made = combine(n, false, 1, &first(), &[0; 16], &[0; 16], &mut []);
        assert_eq!(made.number, number);
    }
    for (t, number) in [(1, 0), (65_535, 0), (0, 2), (65_536, 2), (u64::MAX, 2)] {
        let made = combine(1, false, t, &first(), &[0; 16], &[0; 16], &mut []);
        let kind = if number == 0 { 2 } else { 0 };
        let wanted = Combined {
            number,
            kind,
            length: 0,
        };
        assert_eq!(made, wanted);
        let found = search(1, false, t, 1, &[], &[], &[], &[], &mut [0; 32], &mut []);
        assert_eq!(found.number, number);
    }
}
