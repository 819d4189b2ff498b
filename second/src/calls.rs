//! The calls that write one space: a block, a key, a share, the sum of two shares. The judge gives
//! the number.

use crate::expander::Expander;
use crate::query::{unpack, Query};
use crate::share::Reports;
use crate::{field, judge, keys, Reply};

impl Reply {
    /// Refuses with the judged number, or where it is 0 writes what is made.
    pub(crate) fn settle(number: u64, space: &mut [u8], make: impl FnOnce() -> Vec<u8>) -> Reply {
        if number != 0 {
            return Reply { number, length: 0 };
        }
        let bytes = make();
        space[..bytes.len()].copy_from_slice(&bytes);
        Reply {
            number,
            length: bytes.len() as u64,
        }
    }
}

/// A lent seed whose length was judged.
fn seed_of(bytes: &[u8]) -> [u8; 16] {
    let mut seed = [0u8; 16];
    seed.copy_from_slice(bytes);
    seed
}

/// Writes block j of a seed.
pub fn block(expander: u64, seed: &[u8], j: u64, block: &mut [u8]) -> Reply {
    Reply::settle(block_judged(expander, seed, block.len()), block, || {
        Expander::of(expander).block(&seed_of(seed), j).to_vec()
    })
}

/// The number with which a block refuses, or 0; it is none of the judge's calls.
fn block_judged(expander: u64, seed: &[u8], space: usize) -> u64 {
    if expander != 1 && expander != 2 {
        return 3;
    }
    if seed.len() != 16 {
        return 4;
    }
    if space < 16 {
        return 11;
    }
    0
}

/// Writes the public share of one report; its weight gives no cause.
pub fn key(
    n: u64,
    expander: u64,
    weight: i16,
    string: &[u8],
    seed0: &[u8],
    seed1: &[u8],
    public_share: &mut [u8],
) -> Reply {
    let space = public_share.len();
    let number = judge::key(n, expander, string, seed0, seed1, space);
    Reply::settle(number, public_share, || {
        let string = unpack(string, n as usize);
        let (seed0, seed1) = (seed_of(seed0), seed_of(seed1));
        keys::public_share(Expander::of(expander), weight, &string, seed0, seed1)
    })
}

/// Writes a server's share for a query.
pub fn share(
    n: u64,
    expander: u64,
    server: bool,
    seeds: &[u8],
    public_shares: &[u8],
    query: &[u8],
    share: &mut [u8],
) -> Reply {
    let space = share.len();
    let number = judge::share(n, expander, server, seeds, public_shares, query, space);
    Reply::settle(number, share, || {
        let reports = Reports {
            n: n as usize,
            seeds,
            public_shares,
        };
        let sums = reports.sums(Expander::of(expander), server, &Query::of(query));
        sums.into_iter().flat_map(field::write).collect()
    })
}

/// Writes the sum of two shares of one server, place by place.
pub fn add_shares(share0: &[u8], share1: &[u8], out: &mut [u8]) -> Reply {
    let number = judge::add(share0, share1, out.len());
    Reply::settle(number, out, || {
        let pairs = share0.chunks(8).zip(share1.chunks(8));
        let sums = pairs.map(|(a, b)| field::add(field::read(a), field::read(b)));
        sums.flat_map(field::write).collect()
    })
}

#[cfg(test)]
mod tests {
    use super::*;

    #[test]
    fn refusals_of_block() {
        let refused = |number| Reply { number, length: 0 };
        let mut space = [9u8; 17];
        assert_eq!(block(0, &[0; 15], 0, &mut []), refused(3));
        assert_eq!(block(3, &[0; 16], 0, &mut space), refused(3));
        assert_eq!(block(1, &[0; 15], 0, &mut []), refused(4));
        assert_eq!(block(1, &[0; 17], 0, &mut space), refused(4));
        assert_eq!(block(1, &[0; 16], 0, &mut space[..15]), refused(11));
        assert_eq!(space, [9; 17]);
        assert_eq!(block(2, &[0; 16], 0, &mut space).length, 16);
        assert_eq!((space[0], space[8], space[16]), (1, 1, 9));
    }
}
