//! Makers of queries, right and wrong.

use second::judge::query_as_laid_out;
use second::query::{pack, packed_size, unpack, write};
use second::rng::Rng;
use std::collections::BTreeSet;

/// A right query, near the given strings.
pub fn good(rng: &mut Rng, n: usize, strings: &[Vec<bool>]) -> Vec<u8> {
    let any = 1 + rng.below(n);
    let length = rng.pick(&[1, n, n, any]);
    of_length(rng, length, strings)
}

/// A right query of prefixes of so many bits, near the given strings.
pub fn of_length(rng: &mut Rng, length: usize, strings: &[Vec<bool>]) -> Vec<u8> {
    let mut prefixes = BTreeSet::new();
    if length <= 3 && rng.coin() {
        prefixes.extend((0..1u8 << length).map(|i| vec![i << (8 - length)]));
    }
    for _ in 0..1 + rng.below(5) {
        let mut prefix = rng.bits(length);
        if !strings.is_empty() && rng.below(4) != 0 {
            prefix = strings[rng.below(strings.len())][..length].to_vec();
            if rng.coin() {
                prefix[rng.below(length)] ^= true;
            }
        }
        prefixes.insert(pack(&prefix));
    }
    let prefixes: Vec<Vec<u8>> = prefixes.into_iter().collect();
    write(length, &prefixes)
}

/// Damages a query until it is none for n.
pub fn spoil(rng: &mut Rng, n: usize, query: &mut Vec<u8>) {
    let right = query.clone();
    while query_as_laid_out(n as u64, query) {
        *query = right.clone();
        once(rng, n, query);
    }
}

fn once(rng: &mut Rng, n: usize, query: &mut Vec<u8>) {
    let length = u16::from_be_bytes([query[0], query[1]]) as usize + 1;
    let size = packed_size(length);
    let count = (query.len() - 6) / size;
    let wanted = u32::from_be_bytes([query[2], query[3], query[4], query[5]]);
    let end = query.len();
    match rng.below(16) {
        0 => {
            let at = 5 + size * (1 + rng.below(count));
            query[at] |= 1 << rng.below(8);
        }
        1 => {
            let (a, b) = (rng.below(count), rng.below(count));
            for k in 0..size {
                query.swap(6 + a * size + k, 6 + b * size + k);
            }
        }
        2 => {
            let last = query[end - size..].to_vec();
            query.extend(last);
            set_count(query, wanted + 1);
        }
        3 => set_count(query, wanted + 1),
        4 => set_count(query, wanted - 1),
        5 => set_length(query, length),
        6 => set_length(query, length.saturating_sub(2)),
        7 => {
            let field = rng.pick(&[n, n + 1, 0xff, 0x100, 0x7fff, 0xffff]);
            set_length(query, field);
        }
        8 => query.push(0),
        9 => query.truncate(end - 1),
        10 => query.truncate(rng.below(6)),
        11 => query.truncate(6),
        12 => {
            let count = rng.pick(&[131_071, 131_070, 1 << 24, 1 << 31, u32::MAX]);
            set_count(query, count);
        }
        13 => {
            let bits = rng.bits(n + 1);
            *query = write(n + 1, &[pack(&bits)]);
        }
        14 => {
            query.truncate(6);
            set_count(query, 0);
        }
        _ => {
            // The first prefix with its bits put lowest first.
            let string = unpack(&query[6..6 + size], 8 * size);
            for k in 0..size {
                let byte = (0..8).fold(0, |b, i| b | (string[8 * k + i] as u8) << i);
                query[6 + k] = byte;
            }
        }
    }
}

fn set_count(query: &mut [u8], count: u32) {
    query[2..6].copy_from_slice(&count.to_be_bytes());
}

fn set_length(query: &mut [u8], field: usize) {
    query[..2].copy_from_slice(&(field as u16).to_be_bytes());
}

/// The query of `count` prefixes of 17 or more bits, told apart by their first 32 bits.
pub fn long(length: usize, count: usize) -> Vec<u8> {
    let shift = 32 - length.min(32);
    let prefixes: Vec<Vec<u8>> = (0..count)
        .map(|i| {
            let mut prefix = ((i as u32) << shift).to_be_bytes().to_vec();
            prefix.resize(packed_size(length), 0);
            prefix
        })
        .collect();
    write(length, &prefixes)
}

/// Random bytes, often with a head that fits.
pub fn wild(rng: &mut Rng) -> Vec<u8> {
    let length = rng.below(20);
    let mut query = rng.bytes(length);
    if query.len() > 6 && rng.coin() {
        query[..5].fill(0);
        query[5] = length as u8 - 6;
    }
    query
}
