//! Reports and queries for the tests of kept nodes.

use tally::{block, make_key, query_length, BitString, Expander, Reports, Seed, Server};

/// Reports of strings of n bits: each server's seeds, and the public shares.
pub struct Held {
    pub n: u64,
    pub expander: Expander,
    seeds: [Vec<Seed>; 2],
    public_shares: Vec<u8>,
}

/// A numbered seed.
pub fn seed(number: u64) -> Seed {
    block(Expander::Aes, &[5; 16], number).unwrap()
}

/// The first bits of some bytes as a packed string.
pub fn cut(bits: u64, bytes: &[u8]) -> Vec<u8> {
    let mut packed = bytes[..bits.div_ceil(8) as usize].to_vec();
    if bits % 8 != 0 {
        *packed.last_mut().unwrap() &= !(0xff >> (bits % 8));
    }
    packed
}

impl Held {
    /// As many reports, whose strings begin alike by twos and by fours.
    pub fn new(n: u64, expander: Expander, reports: u64) -> Held {
        let (mut seeds, mut public_shares) = ([vec![], vec![]], vec![]);
        for i in 0..reports {
            let string = cut(n, &[seed(1_000 + i / 2), seed(2_000 + i / 4)].concat());
            let [seed0, seed1] = [2 * i, 2 * i + 1].map(seed);
            public_shares.extend(make_key(n, expander, &string, &seed0, &seed1).unwrap());
            seeds[0].push(seed0);
            seeds[1].push(seed1);
        }
        Held {
            n,
            expander,
            seeds,
            public_shares,
        }
    }

    /// What a server holds.
    pub fn lent(&self, server: Server) -> Reports<'_> {
        Reports {
            seeds: &self.seeds[server as usize],
            public_shares: &self.public_shares,
        }
    }
}

/// A query of prefixes in digits, which have to ascend.
pub fn asked(prefixes: &[&str]) -> Vec<u8> {
    let bits = prefixes[0].len();
    let mut query = (bits as u16 - 1).to_be_bytes().to_vec();
    query.extend((prefixes.len() as u32).to_be_bytes());
    for prefix in prefixes {
        query.extend(BitString::from_digits(prefix).unwrap().bytes());
    }
    assert_eq!(query.len(), query_length(bits as u64, prefixes.len()));
    query
}
