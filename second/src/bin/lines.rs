//! Keys and shares of chosen strings, and whole searches, as lines; weighted ones at the end.

use second::keys::public_share_size;
use second::query::{first, pack, write};
use second::text::hex;
use second::{key, search, share};

fn main() {
    for expander in [1, 2] {
        for n in [1, 2, 8, 9] {
            print(expander, n);
        }
    }
    print(1, 256);
    for expander in [2, 1] {
        examples(expander);
    }
    one_bit();
    for (label, n, t) in [
        ("G", 1, 1),
        ("n 256", 256, 1),
        ("n 257", 257, 1),
        ("n 0", 0, 1),
        ("t 0", 1, 0),
        ("t 65535", 1, 65_535),
        ("t 65536", 1, 65_536),
    ] {
        bounds(label, n, false, t);
    }
    longest(1);
    for weight in [-32_768, 0, 32_767] {
        for expander in [1, 2] {
            weighted_key(weight, expander);
        }
    }
    weighted_search();
    for t in [0, 65_536, 2_147_483_647, 2_147_483_648] {
        bounds(&format!("weighted t {t}"), 1, true, t);
    }
}

/// A search of no reports, weighted or not, with room for two totals.
fn bounds(label: &str, n: u64, weighted: bool, t: u64) {
    let mut record = [255u8; 32];
    let mut list = [255u8; 1];
    let found = search(
        n,
        weighted,
        t,
        2,
        &[],
        &[],
        &[],
        &[],
        &mut record,
        &mut list,
    );
    show(label, found, &record, &list);
}

/// The key of the string 101 for a weight.
fn weighted_key(weight: i16, expander: u64) {
    let seed0: Vec<u8> = (0..16).collect();
    let seed1: Vec<u8> = (16..32).collect();
    let mut public = vec![0u8; public_share_size(3)];
    let made = key(3, expander, weight, &[0xa0], &seed0, &seed1, &mut public);
    assert_eq!((made.number, made.length), (0, public.len() as u64));
    println!("key weight {weight} {expander} 3 {}", hex(&public));
}

/// A weighted search of four strings of two bits, t = 2, with expander 2.
fn weighted_search() {
    let (mut seeds0, mut seeds1, mut shares) = (vec![], vec![], vec![]);
    let reports = [(0x40u8, 5i16), (0x40, -2), (0xc0, -7), (0x80, 4)];
    for (i, (string, weight)) in reports.into_iter().enumerate() {
        let [seed0, seed1] = [1, 2].map(|more| [2 * i as u8 + more; 16]);
        let mut public = vec![0u8; public_share_size(2)];
        let made = key(2, 2, weight, &[string], &seed0, &seed1, &mut public);
        assert_eq!((made.number, made.length), (0, 49));
        seeds0.extend(seed0);
        seeds1.extend(seed1);
        shares.extend(public);
    }
    let mut record = [255u8; 56];
    let mut list = [255u8; 1];
    let found = search(
        2,
        true,
        2,
        2,
        &seeds0,
        &shares,
        &seeds1,
        &shares,
        &mut record,
        &mut list,
    );
    show("weighted", found, &record, &list);
}

/// The line of a search: its label, number, record and list.
fn show(label: &str, found: second::Found, record: &[u8], list: &[u8]) {
    let record = hex(&record[..found.record_length as usize]);
    let list = hex(&list[..found.list_length as usize]);
    println!("search {label} {} {record} {list}", found.number);
}

/// Root seeds of three reports, which differ in their first bytes.
fn seeds(first: u64) -> Vec<u8> {
    let mut seeds = vec![0u8; 48];
    for (i, part) in [1, 2, 3].into_iter().enumerate() {
        seeds[16 * i..16 * i + 8].copy_from_slice(&(first / part).to_le_bytes());
    }
    seeds
}

/// Examples D, E, F and J.
fn examples(expander: u64) {
    let (seeds0, seeds1) = (seeds(0xfedc_ba98_7654_3210), seeds(0x0123_4567_89ab_cdef));
    for (label, strings, room) in [
        ("D", [0x40u8, 0x40, 0xc0], 56),
        ("E", [0x40, 0x40, 0x80], 56),
        ("F", [0x40, 0x00, 0xc0], 56),
        ("J", [0x40, 0x40, 0xc0], 55),
    ] {
        let mut shares = vec![0u8; 147];
        for (i, string) in strings.into_iter().enumerate() {
            let (s0, s1) = (&seeds0[16 * i..16 * i + 16], &seeds1[16 * i..16 * i + 16]);
            let made = key(
                2,
                expander,
                1,
                &[string],
                s0,
                s1,
                &mut shares[49 * i..49 * i + 49],
            );
            assert_eq!((made.number, made.length), (0, 49));
        }
        let mut record = vec![255u8; room];
        let mut list = [255u8; 1];
        let found = search(
            2,
            false,
            2,
            expander,
            &seeds0,
            &shares,
            &seeds1,
            &shares,
            &mut record,
            &mut list,
        );
        show(label, found, &record, &list);
        if found.number == 11 {
            println!("search record area {}", hex(&record));
        }
    }
}

/// Examples H, and I with the payload corrections p − 1 and p.
fn one_bit() {
    let zero = [0u8; 16];
    let mut one = [0u8; 16];
    one[0] = 1;
    let p = 18_446_744_069_414_584_321u64;
    for (label, seed1, payload) in [
        ("H", zero, None),
        ("I p - 1", one, Some(p - 1)),
        ("I p", one, Some(p)),
    ] {
        let mut public = vec![0u8; public_share_size(1)];
        key(1, 2, 1, &[0x80], &zero, &seed1, &mut public);
        if let Some(payload) = payload {
            public[17..].copy_from_slice(&payload.to_le_bytes());
        }
        let mut record = [255u8; 32];
        let mut list = [255u8; 2];
        let found = search(
            1,
            false,
            1,
            2,
            &zero,
            &public,
            &seed1,
            &public,
            &mut record,
            &mut list,
        );
        show(label, found, &record, &list);
    }
}

/// A search of one string of 256 bits with t = 1.
fn longest(expander: u64) {
    let string = pack(
        &(0..256)
            .map(|i| (i * i + i / 3) % 2 == 1)
            .collect::<Vec<bool>>(),
    );
    let seed0: Vec<u8> = (0..16).collect();
    let seed1: Vec<u8> = (16..32).collect();
    let mut share = vec![0u8; public_share_size(256)];
    key(256, expander, 1, &string, &seed0, &seed1, &mut share);
    let mut record = vec![0u8; 14_088];
    let mut list = [0u8; 32];
    let found = search(
        256,
        false,
        1,
        expander,
        &seed0,
        &share,
        &seed1,
        &share,
        &mut record,
        &mut list,
    );
    let list = hex(&list[..found.list_length as usize]);
    println!(
        "search 256 bits {} {} {list}",
        found.number, found.record_length
    );
}

fn print(expander: u64, n: usize) {
    let bits: Vec<bool> = (0..n).map(|i| (i * i + i / 3) % 2 == 1).collect();
    let string = pack(&bits);
    let seed0: Vec<u8> = (0..16).collect();
    let seed1: Vec<u8> = (16..32).collect();
    let mut public = vec![0u8; public_share_size(n)];
    let made = key(n as u64, expander, 1, &string, &seed0, &seed1, &mut public);
    assert_eq!((made.number, made.length), (0, public.len() as u64));
    println!("key {expander} {n} {}", hex(&public));
    for (server, seed) in [(false, &seed0), (true, &seed1)] {
        for (length, query) in [(1, first()), (n, write(n, std::slice::from_ref(&string)))] {
            let mut space = [0u8; 16];
            let made = share(
                n as u64, expander, server, seed, &public, &query, &mut space,
            );
            assert_eq!(made.number, 0);
            let bytes = hex(&space[..made.length as usize]);
            println!("share {expander} {n} {} {length} {bytes}", server as u8);
        }
    }
}
