//! Reports, and one server's list of nodes that goes down with its queries.

use second::field::{read, reduce};
use second::keys::{head_size, public_share_size};
use second::query::{child, write, Query};
use second::rng::Rng;
use second::{roots, share, share_kept, Node};
use std::collections::BTreeSet;

/// Reports of one search, each server's seeds and the public shares.
pub struct Reports {
    pub n: usize,
    pub expander: u64,
    pub seeds: [Vec<u8>; 2],
    pub public: Vec<u8>,
}

impl Reports {
    /// Reports of random bytes that pass 6 and 7.
    pub fn any(rng: &mut Rng, n: usize, expander: u64, count: usize) -> Reports {
        let mut public = rng.bytes(count * public_share_size(n));
        for report in public.chunks_exact_mut(public_share_size(n)) {
            if !n.is_multiple_of(4) {
                report[n / 4] &= (1 << (n % 4 * 2)) - 1;
            }
            for level in report[head_size(n)..].chunks_exact_mut(24) {
                let payload = reduce(read(&level[16..]));
                level[16..].copy_from_slice(&payload.to_le_bytes());
            }
        }
        Reports {
            n,
            expander,
            seeds: [rng.bytes(16 * count), rng.bytes(16 * count)],
            public,
        }
    }

    pub fn count(&self) -> usize {
        self.seeds[0].len() / 16
    }

    /// A server's share for a query by the walk from the root.
    pub fn walked(&self, server: bool, query: &[u8]) -> Vec<u8> {
        let mut out = vec![0; 8 * Query::of(query).count];
        let (n, seeds) = (self.n as u64, &self.seeds[usize::from(server)]);
        let (expander, public) = (self.expander, &self.public);
        let made = share(n, expander, server, seeds, public, query, &mut out);
        assert_eq!((made.number, made.length), (0, out.len() as u64));
        out
    }

    /// One report of them.
    pub fn only(&self, report: usize) -> Reports {
        let size = public_share_size(self.n);
        let seeds = self.seeds.each_ref();
        Reports {
            n: self.n,
            expander: self.expander,
            seeds: seeds.map(|seeds| seeds[16 * report..16 * report + 16].to_vec()),
            public: self.public[size * report..size * (report + 1)].to_vec(),
        }
    }
}

/// The node that a spare place holds before.
pub fn spare(place: usize) -> Node {
    Node {
        seed: std::array::from_fn(|i| (place * 7 + i * 31 + 3) as u8),
        control: place.is_multiple_of(3),
    }
}

/// One server's list of nodes and the query that it stands at.
pub struct Keeper<'a> {
    pub of: &'a Reports,
    pub server: bool,
    pub last: Vec<u8>,
    pub nodes: Vec<Node>,
}

impl<'a> Keeper<'a> {
    /// A list of so many nodes at the roots, spare ones with a pattern.
    pub fn new(of: &'a Reports, server: bool, lent: usize) -> Keeper<'a> {
        let mut nodes: Vec<Node> = (0..lent).map(spare).collect();
        assert_eq!(roots(server, &of.seeds[usize::from(server)], &mut nodes), 0);
        let past = &nodes[of.count()..];
        assert!((of.count()..lent).map(spare).eq(past.iter().copied()));
        Keeper {
            of,
            server,
            last: vec![],
            nodes,
        }
    }

    /// The share for a query one level down, which must be accepted and leave all that is spare.
    pub fn share(&mut self, query: &[u8]) -> Vec<u8> {
        let asked = Query::of(query).count;
        let before = self.nodes.clone();
        let mut out = vec![0xee; 8 * asked + 5];
        let made = share_kept(
            self.of.n as u64,
            self.of.expander,
            self.server,
            &self.of.public,
            &self.last,
            query,
            &mut self.nodes,
            &mut out,
        );
        assert_eq!((made.number, made.length), (0, 8 * asked as u64));
        let used = self.of.count() * asked;
        assert_eq!(self.nodes[used..], before[used..]);
        assert_eq!(out.split_off(8 * asked), [0xee; 5]);
        self.last = query.to_vec();
        out
    }
}

/// A query of some children of the last query's prefixes, at most so many.
pub fn below(rng: &mut Rng, last: &[u8], most: usize) -> Vec<u8> {
    let last = Query::last(last);
    let mut prefixes = BTreeSet::new();
    for _ in 0..1 + rng.below(most) {
        let prefix = last.prefix(rng.below(last.count));
        prefixes.insert(child(prefix, last.length, rng.coin()));
    }
    write(last.length + 1, &prefixes.into_iter().collect::<Vec<_>>())
}
