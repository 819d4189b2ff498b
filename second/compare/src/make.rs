//! Makers of inputs: honest, damaged and hostile.

use second::field::{add, negate, read, reduce, P};
use second::keys::{head_size, public_share_size};
use second::query::{pack, packed_size};
use second::rng::Rng;

/// Lengths n that leave spare bits in strings and public shares.
const SPARE: [u64; 8] = [1, 2, 3, 7, 9, 31, 33, 255];

pub fn good_n(rng: &mut Rng, spare: bool) -> u64 {
    if spare {
        return rng.pick(&SPARE);
    }
    match rng.below(3) {
        0 => rng.pick(&[1, 2, 7, 8, 9, 31, 32, 255, 256]),
        1 => rng.pick(&[1, 2, 3, 4, 7, 8, 9, 15, 16, 17]),
        _ => 1 + rng.below(40) as u64,
    }
}

pub fn bad_n(rng: &mut Rng) -> u64 {
    let wild = rng.number() | 1 << 40;
    let near = (1 << 32) + rng.below(257) as u64;
    let wide = [1 << 16, 1 << 59, 1 << 61, 1 << 63, (1 << 63) + 8, u64::MAX];
    let other = rng.pick(&wide);
    rng.pick(&[0, 257, 258, 512, 1 << 63, u64::MAX, wild, near, other])
}

pub fn good_expander(rng: &mut Rng) -> u64 {
    1 + rng.below(2) as u64
}

pub fn bad_expander(rng: &mut Rng) -> u64 {
    let wild = rng.number() | 4;
    let wrapped = [257, 258, 1 << 63, (1 << 32) + 1, (1 << 32) + 2];
    let other = rng.pick(&wrapped);
    rng.pick(&[0, 3, 4, u64::MAX, wild, other])
}

/// Any number, often one at an edge.
pub fn any_number(rng: &mut Rng) -> u64 {
    let wild = rng.number();
    let edge = rng.pick(&[0, 1, 2, 3, 8, 9, 31, 32, 255, 256, 257, 65_535, 65_536]);
    let high = rng.pick(&[1 << 31, 1 << 32, 1 << 63, u64::MAX - 1, u64::MAX]);
    rng.pick(&[edge, edge, edge, edge, high, wild])
}

pub fn seed(rng: &mut Rng) -> Vec<u8> {
    match rng.below(8) {
        0 => vec![0; 16],
        1 => vec![0xff; 16],
        2 => [vec![0xff; 8], vec![0; 8]].concat(),
        3 => {
            // A first word whose classroom blocks give payloads around p.
            let first = P
                .wrapping_add(rng.below(1 << 33) as u64)
                .wrapping_sub(1 << 31);
            [first.to_le_bytes().to_vec(), rng.bytes(8)].concat()
        }
        _ => rng.bytes(16),
    }
}

/// Random bytes of a random small length, often a whole number of units.
pub fn wild(rng: &mut Rng, unit: usize) -> Vec<u8> {
    let length = if rng.coin() {
        unit * rng.below(4)
    } else {
        rng.below(3 * unit + 2)
    };
    rng.bytes(length)
}

/// Makes an input of another length.
pub fn wrong_length(rng: &mut Rng, bytes: &mut Vec<u8>, unit: usize) {
    let before = bytes.len();
    match rng.below(6) {
        0 => bytes.truncate(before.saturating_sub(1)),
        1 => bytes.push(0),
        2 => bytes.clear(),
        3 => bytes.truncate(before.saturating_sub(unit)),
        4 => bytes.extend(vec![0; unit]),
        _ => bytes.truncate(rng.below(before + 1)),
    }
    if bytes.len() == before {
        bytes.push(0);
    }
}

/// Flips one bit, if there is one.
pub fn flip(rng: &mut Rng, bytes: &mut [u8]) {
    if !bytes.is_empty() {
        let at = rng.below(bytes.len());
        bytes[at] ^= 1 << rng.below(8);
    }
}

/// A space of just that size, or with spare bytes.
pub fn room(rng: &mut Rng, size: usize) -> usize {
    size + rng.pick(&[0, 0, 1, 7, 8, 40])
}

/// A space too small for that size, if it is not 0.
pub fn short_room(rng: &mut Rng, size: usize) -> usize {
    let any = rng.below(size.max(1));
    rng.pick(&[size.saturating_sub(1), size.saturating_sub(1), 0, any])
}

/// Honest reports of one search.
pub struct Reports {
    pub n: usize,
    pub strings: Vec<Vec<bool>>,
    pub seeds: [Vec<u8>; 2],
    pub public: Vec<u8>,
}

/// Honest reports of weight one, many with strings in common.
pub fn reports(rng: &mut Rng, n: usize, expander: u64, count: usize) -> Reports {
    weighted_reports(rng, n, expander, count, |_| 1)
}

/// Honest reports of these weights, many with strings in common.
pub fn weighted_reports(
    rng: &mut Rng,
    n: usize,
    expander: u64,
    count: usize,
    weight: impl Fn(&mut Rng) -> i16,
) -> Reports {
    let mut made = Reports::none(n);
    for i in 0..count {
        let mut string = rng.bits(n);
        if i > 0 && rng.below(3) != 0 {
            string = made.strings[rng.below(i)].clone();
            for bit in string.iter_mut().skip(rng.below(2 * n)) {
                *bit = rng.coin();
            }
        }
        let weight = weight(rng);
        made.add(rng, expander, weight, string);
    }
    made
}

impl Reports {
    pub fn none(n: usize) -> Reports {
        Reports {
            n,
            strings: Vec::new(),
            seeds: [Vec::new(), Vec::new()],
            public: Vec::new(),
        }
    }

    pub fn add(&mut self, rng: &mut Rng, expander: u64, weight: i16, string: Vec<bool>) {
        let s0 = seed(rng);
        let s1 = if rng.below(6) == 0 {
            s0.clone()
        } else {
            seed(rng)
        };
        self.add_with(expander, weight, string, [s0, s1]);
    }

    pub fn add_with(
        &mut self,
        expander: u64,
        weight: i16,
        string: Vec<bool>,
        [s0, s1]: [Vec<u8>; 2],
    ) {
        let mut share = vec![0; public_share_size(self.n)];
        let packed = pack(&string);
        let n = self.n as u64;
        let reply = second::key(n, expander, weight, &packed, &s0, &s1, &mut share);
        assert_eq!(reply.number, 0);
        self.public.extend(share);
        self.seeds[0].extend(s0);
        self.seeds[1].extend(s1);
        self.strings.push(string);
    }
}

/// Writes a payload correction into one level of one report.
pub fn set_payload(rng: &mut Rng, public: &mut [u8], n: usize, payload: u64) {
    let size = public_share_size(n);
    if public.len() >= size {
        let report = rng.below(public.len() / size);
        let level = rng.below(n);
        let at = report * size + head_size(n) + 24 * level + 16;
        public[at..at + 8].copy_from_slice(&payload.to_le_bytes());
    }
}

/// A group number that is p or more.
pub fn too_large(rng: &mut Rng) -> u64 {
    rng.pick(&[P, P, P + 1, u64::MAX])
}

/// Writes one number of a share, one too large where none is given.
pub fn set_number(rng: &mut Rng, share: &mut [u8], number: Option<u64>) {
    let number = number.unwrap_or_else(|| too_large(rng));
    if share.len() >= 8 {
        let at = 8 * rng.below(share.len() / 8);
        share[at..at + 8].copy_from_slice(&number.to_le_bytes());
    }
}

/// Two shares with these totals.
pub fn split(rng: &mut Rng, totals: &[u64]) -> [Vec<u8>; 2] {
    let mut shares = [Vec::new(), Vec::new()];
    for &total in totals {
        let any = reduce(rng.number());
        let part = rng.pick(&[0, 1, P - 1, any, any, any]);
        shares[0].extend(part.to_le_bytes());
        shares[1].extend(add(total, negate(part)).to_le_bytes());
    }
    shares
}

/// Clears the spare bits and takes the payload corrections modulo p, so that all pass 6 and 7.
pub fn pass_six_and_seven(public: &mut [u8], n: usize) {
    for report in public.chunks_exact_mut(public_share_size(n)) {
        if !n.is_multiple_of(4) {
            report[n / 4] &= (1 << (n % 4 * 2)) - 1;
        }
        for level in 0..n {
            let at = head_size(n) + 24 * level + 16;
            let payload = reduce(read(&report[at..at + 8]));
            report[at..at + 8].copy_from_slice(&payload.to_le_bytes());
        }
    }
}

/// Sets a spare bit in the control bits of one report, where there is one.
pub fn set_spare(rng: &mut Rng, public: &mut [u8], n: usize) {
    let size = public_share_size(n);
    let spare = 8 * head_size(n) - 2 * n;
    if public.len() >= size && spare > 0 {
        let at = 2 * n + rng.below(spare);
        let report = rng.below(public.len() / size);
        public[report * size + at / 8] |= 1 << (at % 8);
    }
}

/// A packed string of n bits with a spare bit set, where there is one.
pub fn spare_string(rng: &mut Rng, string: &mut [u8], n: usize) {
    let spare = 8 * packed_size(n) - n;
    if spare > 0 && string.len() == packed_size(n) {
        let last = string.len() - 1;
        string[last] |= 1 << rng.below(spare);
    }
}

/// Strings with many in common.
pub fn strings(rng: &mut Rng, n: usize, count: usize) -> Vec<Vec<bool>> {
    let mut all: Vec<Vec<bool>> = Vec::new();
    for i in 0..count {
        let mut string = rng.bits(n);
        if i > 0 && rng.below(4) != 0 {
            string = all[rng.below(i)].clone();
            for bit in string.iter_mut().skip(rng.below(2 * n)) {
                *bit = rng.coin();
            }
        }
        all.push(string);
    }
    all
}
