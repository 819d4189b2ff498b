//! Makers of lists of nodes, and of queries below a last one.

use crate::make::seed;
use crate::queries::of_length;
use second::query::{child, pack, parent, write, Query};
use second::rng::Rng;
use second::Node;
use std::collections::BTreeSet;

/// Random nodes, some with seeds at an edge.
pub fn any_nodes(rng: &mut Rng, count: usize) -> Vec<Node> {
    let mut nodes = Vec::with_capacity(count);
    for _ in 0..count {
        let mut node = Node {
            seed: [0; 16],
            control: rng.coin(),
        };
        node.seed.copy_from_slice(&seed(rng));
        nodes.push(node);
    }
    nodes
}

/// The bytes of some nodes: each its seed and its control bit.
pub fn node_bytes(nodes: &[Node]) -> Vec<u8> {
    let mut bytes = Vec::with_capacity(17 * nodes.len());
    for node in nodes {
        bytes.extend(node.seed);
        bytes.push(u8::from(node.control));
    }
    bytes
}

/// A last query of prefixes of so many bits; of none it is no bytes.
pub fn last_of(rng: &mut Rng, length: usize, strings: &[Vec<bool>]) -> Vec<u8> {
    if length == 0 {
        Vec::new()
    } else {
        of_length(rng, length, strings)
    }
}

/// The query of packed prefixes in a set.
fn written(length: usize, prefixes: BTreeSet<Vec<u8>>) -> Vec<u8> {
    write(length, &prefixes.into_iter().collect::<Vec<_>>())
}

/// The query of both children of each prefix of the last query.
pub fn all_below(last: &[u8]) -> Vec<u8> {
    let last = Query::last(last);
    let both = |i: usize| [false, true].map(|bit| child(last.prefix(i), last.length, bit));
    written(last.length + 1, (0..last.count).flat_map(both).collect())
}

/// The query of some children of the last query's prefixes, at most so many.
pub fn some_below(rng: &mut Rng, last: &[u8], most: usize) -> Vec<u8> {
    let last = Query::last(last);
    let mut prefixes = BTreeSet::new();
    for _ in 0..1 + rng.below(most) {
        let prefix = last.prefix(rng.below(last.count));
        prefixes.insert(child(prefix, last.length, rng.coin()));
    }
    written(last.length + 1, prefixes)
}

/// A query one bit longer than the last, one of its prefixes without a parent there, where the
/// last query lacks a prefix.
pub fn orphaned(rng: &mut Rng, last: &[u8]) -> Vec<u8> {
    let query = some_below(rng, last, 6);
    let (last, new) = (Query::last(last), Query::of(&query));
    let asked: BTreeSet<&[u8]> = (0..last.count).map(|i| last.prefix(i)).collect();
    let mut prefixes: BTreeSet<Vec<u8>> = (0..new.count).map(|i| new.prefix(i).to_vec()).collect();
    for _ in 0..20 {
        let mut bits = rng.bits(new.length);
        if rng.coin() {
            // A prefix that differs from one with a parent in one bit.
            bits = second::query::unpack(new.prefix(rng.below(new.count)), new.length);
            bits[rng.below(new.length)] ^= true;
        }
        let prefix = pack(&bits);
        if !asked.contains(&parent(&prefix, new.length)[..]) {
            let instead = new.prefix(rng.below(new.count));
            prefixes.remove(instead);
            prefixes.insert(prefix);
            break;
        }
    }
    written(new.length, prefixes)
}

/// A right query for n whose length is not one more than that of the last, where there is one.
pub fn other_length(rng: &mut Rng, n: usize, last: &[u8], strings: &[Vec<bool>]) -> Vec<u8> {
    let next = Query::last(last).length + 1;
    let any = 1 + rng.below(n);
    let near = [next - 1, next + 1, any, n, 1].map(|length| length.clamp(1, n));
    let length = rng.pick(&near);
    let length = if length == next { n } else { length };
    of_length(rng, length, strings)
}
