//! Measures of one server's share: a query of one prefix, and a query of both children of one parent.

use crate::aes::{over_each, Aes, Work};
use crate::blocks_and_keys::string;
use crate::plain_idpf;
use crate::plain_share::{self, Walk};
use crate::same_aes::SameCode;
use crate::timing::{Measure, Subject, Timed};
use crate::Plan;
use tally::{Expander, Reports, Server};

/// A public share of n bits, and a query of one prefix of n bits or of two with one parent.
pub struct Lent {
    n: usize,
    count: usize,
    key: Vec<u8>,
    query: Vec<u8>,
}

impl Lent {
    pub fn new(n: usize, count: usize) -> Lent {
        let mut prefix = string(n);
        let mut key = vec![0u8; plain_idpf::public_share_length(n)];
        let seeds = [[1; 16], [2; 16]];
        plain_idpf::make_key(SameCode, n, 1, &prefix, seeds, &mut key);
        let mut query = Vec::new();
        query.extend_from_slice(&(n as u16 - 1).to_be_bytes());
        query.extend_from_slice(&(count as u32).to_be_bytes());
        let last = 128 >> ((n - 1) % 8);
        prefix[(n - 1) / 8] &= !last;
        query.extend_from_slice(&prefix);
        if count == 2 {
            prefix[(n - 1) / 8] |= last;
            query.extend_from_slice(&prefix);
        }
        Lent {
            n,
            count,
            key,
            query,
        }
    }

    /// Shares of one report, one after the other; the seed of each call comes from the share before it.
    fn shares(&self, calls: usize, share: impl Fn(Reports, &mut [u8]) -> bool) -> Vec<u8> {
        let mut seed = [3u8; 16];
        let mut out = vec![0u8; 8 * self.count];
        for _ in 0..calls {
            let reports = Reports {
                seeds: &[seed],
                public_shares: &self.key,
            };
            assert!(share(reports, &mut out));
            seed[..8].copy_from_slice(&out[..8]);
            seed[8..].copy_from_slice(&out[8 * self.count - 8..]);
        }
        out
    }

    /// Shares by the proved library.
    pub fn proved(&self, calls: usize) -> Vec<u8> {
        let n = self.n as u64;
        self.shares(calls, |reports, out| {
            tally::share_into(n, Expander::Aes, Server::One, reports, &self.query, out)
                == Ok(out.len())
        })
    }
}

/// Shares in plain Rust, by one way to walk.
#[derive(Clone, Copy)]
pub struct Shares<'a> {
    pub lent: &'a Lent,
    pub walk: Walk,
}

impl Work for Shares<'_> {
    type Output = Vec<u8>;

    fn run<A: Aes>(self, aes: A, calls: usize) -> Vec<u8> {
        let Lent { n, query, .. } = self.lent;
        self.lent.shares(calls, |reports, out| {
            plain_share::share(aes, self.walk, *n, true, reports, query, out) == Some(out.len())
        })
    }
}

/// One server's share of one report for a query of `count` prefixes of n bits: the time for each prefix and level.
pub fn measure_share(plan: &Plan, n: usize, count: usize) -> Timed {
    let asked = match count {
        1 => "one prefix",
        _ => "both children of a prefix",
    };
    let measure = Measure {
        title: format!("one server's share, per report, prefix and level: {asked}, n = {n}"),
        cleared: "no, reused",
        calls: plan.calls(25_600 / n),
        parts: count * n,
        rounds: plan.rounds,
    };
    let lent = Lent::new(n, count);
    let mut subjects = vec![Subject::proved(|c| lent.proved(c))];
    for walk in [Walk::FromRoot, Walk::Shared] {
        let work = Shares { lent: &lent, walk };
        match (count, walk) {
            (1, Walk::FromRoot) => subjects.extend(over_each("", work)),
            (1, Walk::Shared) => {}
            _ => subjects.extend(over_each(walk.name(), work)),
        }
    }
    measure.compare(subjects)
}
