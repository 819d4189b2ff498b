//! Weighted reports for the tests.

use tally::{block, make_weighted_key, BitString, Expander, Reports, Seed, Server};

/// A string in digits, with the weight of the report that holds it.
pub type Held = (&'static str, i16);

/// Reports of n bits: each server's seeds, and the public shares.
pub struct Weighted {
    pub expander: Expander,
    seeds: [Vec<Seed>; 2],
    public_shares: Vec<u8>,
}

impl Weighted {
    pub fn new(expander: Expander, held: &[(BitString, i16)]) -> Weighted {
        let (mut seeds, mut public_shares) = ([vec![], vec![]], vec![]);
        for (i, (string, weight)) in (0..).zip(held) {
            let [seed0, seed1] =
                [2 * i, 2 * i + 1].map(|j| block(Expander::Aes, &[9; 16], j).unwrap());
            let (n, bytes) = (string.length(), string.bytes());
            let key = make_weighted_key(n, expander, *weight, bytes, &seed0, &seed1);
            public_shares.extend(key.unwrap());
            seeds[0].push(seed0);
            seeds[1].push(seed1);
        }
        Weighted {
            expander,
            seeds,
            public_shares,
        }
    }

    /// What a server holds.
    pub fn lent(&self, server: Server) -> Reports<'_> {
        Reports {
            seeds: &self.seeds[server as usize],
            public_shares: &self.public_shares,
        }
    }

    /// What server 0 and server 1 hold.
    pub fn both(&self) -> [Reports<'_>; 2] {
        [Server::Zero, Server::One].map(|server| self.lent(server))
    }
}

pub fn bits(digits: &str) -> BitString {
    BitString::from_digits(digits).unwrap()
}

/// Strings with their weights, read from digits.
pub fn held(pairs: &[Held]) -> Vec<(BitString, i16)> {
    let read = |&(digits, weight): &Held| (bits(digits), weight);
    pairs.iter().map(read).collect()
}
