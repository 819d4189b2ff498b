//! The measure of one level: a server's share from kept nodes, beside the share from the root.

use crate::aes::{over_each, Aes, Seed, Work};
use crate::blocks_and_keys::string;
use crate::plain_kept::{self, Node};
use crate::same_aes::SameCode;
use crate::timing::{Column, Measure, Subject, Timed};
use crate::{plain_idpf, Plan};
use std::hint::black_box;
use tally::{Expander, Reports, Server};

/// Reports of n bits, a query of both children of some prefixes, and the nodes of server 1 at these prefixes, for plain Rust and for the library.
struct Level {
    n: usize,
    seeds: Vec<Seed>,
    public_shares: Vec<u8>,
    last: Vec<u8>,
    query: Vec<u8>,
    before: Vec<Node>,
    lent: Vec<tally::Node>,
}

/// A query of packed prefixes of `length` bits.
fn asked(length: usize, prefixes: &[Vec<u8>]) -> Vec<u8> {
    let mut query = (length as u16 - 1).to_be_bytes().to_vec();
    query.extend((prefixes.len() as u32).to_be_bytes());
    query.extend(prefixes.iter().flatten());
    query
}

impl Level {
    /// As many reports, and a query of `count` prefixes of `length` bits, from 5.
    fn new(n: usize, length: usize, count: usize, reports: usize) -> Level {
        let mut made = Level {
            n,
            seeds: Vec::new(),
            public_shares: Vec::new(),
            last: Vec::new(),
            query: Vec::new(),
            before: Vec::new(),
            lent: Vec::new(),
        };
        let mut key = vec![0; plain_idpf::public_share_length(n)];
        for i in 0..reports {
            let mut held = string(n);
            held[0] = held[0] & 15 | (i as u8) << 4;
            let seeds = [[i as u8; 16], [!(i as u8); 16]];
            plain_idpf::make_key(SameCode, n, 1, &held, seeds, &mut key);
            made.seeds.push(seeds[1]);
            made.public_shares.extend(&key);
        }
        let above = length - 1;
        let parent = |i: usize| {
            let mut packed = string(above);
            packed[0] = packed[0] & 15 | (i as u8) << 4;
            packed
        };
        let parents: Vec<Vec<u8>> = (0..count / 2).map(parent).collect();
        let child = |parent: &Vec<u8>, right: bool| {
            let mut packed = parent.clone();
            packed.resize(length.div_ceil(8), 0);
            packed[above / 8] |= u8::from(right) << (7 - above % 8);
            packed
        };
        let both = |parent| [false, true].map(|right| child(parent, right));
        let children: Vec<Vec<u8>> = parents.iter().flat_map(both).collect();
        made.last = asked(above, &parents);
        made.query = asked(length, &children);
        let shares = made.public_shares.chunks(key.len());
        for (&seed, share) in made.seeds.iter().zip(shares) {
            let node = |at: &Vec<u8>| plain_idpf::node(SameCode, n, true, seed, share, at, above);
            made.before.extend(parents.iter().map(node));
        }
        let lent = |&(seed, bit): &Node| tally::Node { seed, bit };
        made.lent = made.before.iter().map(lent).collect();
        made
    }

    /// Space for a share.
    fn space(&self) -> Vec<u8> {
        vec![0; tally::share_length(&self.query)]
    }

    /// Shares by the proved library from kept nodes; before each call the nodes are copied back.
    fn proved(&self, calls: usize) -> Vec<u8> {
        let before = &self.lent[..];
        let mut nodes = vec![tally::Node::default(); 2 * before.len()];
        let mut out = self.space();
        for _ in 0..calls {
            nodes[..before.len()].copy_from_slice(before);
            let written = tally::share_kept_into(
                self.n as u64,
                Expander::Aes,
                Server::One,
                &self.public_shares,
                &self.last,
                &self.query,
                &mut nodes,
                &mut out,
            );
            assert_eq!(written, Ok(out.len()));
        }
        out
    }

    /// Shares by the proved library, each from the root.
    fn walked(&self, calls: usize) -> Vec<u8> {
        let reports = Reports {
            seeds: &self.seeds,
            public_shares: &self.public_shares,
        };
        let mut out = self.space();
        for _ in 0..calls {
            let (n, query) = (self.n as u64, &self.query);
            let written =
                tally::share_into(n, Expander::Aes, Server::One, reports, query, &mut out);
            assert_eq!(written, Ok(out.len()));
        }
        out
    }
}

/// Shares from kept nodes in plain Rust; before each call the nodes are copied back.
#[derive(Clone, Copy)]
struct Levels<'a>(&'a Level);

impl Work for Levels<'_> {
    type Output = Vec<u8>;

    fn run<A: Aes>(self, aes: A, calls: usize) -> Vec<u8> {
        let Level {
            n, before, query, ..
        } = self.0;
        let (mut nodes, mut out) = (before.clone(), self.0.space());
        for _ in 0..calls {
            nodes.clear();
            nodes.extend_from_slice(black_box(before));
            let written = plain_kept::share_kept(
                aes,
                *n,
                true,
                &self.0.public_shares,
                &self.0.last,
                query,
                &mut nodes,
                &mut out,
            );
            assert_eq!(written, Some(out.len()));
        }
        out
    }
}

/// One server's share of one level, for `count` prefixes of `length` bits: the time for each report and prefix.
pub fn measure_level(plan: &Plan, n: usize, length: usize, count: usize) -> Timed {
    let reports = if plan.check { 3 } else { 50 };
    let measure = Measure {
        title: format!(
            "one level, per report and prefix: {count} prefixes of {length} bits, n = {n}"
        ),
        cleared: "no, reused; the nodes are copied back",
        calls: plan.calls(20 / count),
        parts: reports * count,
        rounds: plan.rounds,
    };
    let level = Level::new(n, length, count, reports);
    let mut subjects = vec![Subject::proved(|c| level.proved(c))];
    subjects.push(Subject::new("", Column::FromRoot, |c| level.walked(c)));
    subjects.extend(over_each("", Levels(&level)));
    measure.compare(subjects)
}
