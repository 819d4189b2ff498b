//! Shares from nodes that never were at the roots: each is the root of what is left of its report.

use crate::keeping::{below, spare, Keeper, Reports};
use second::field::{add, negate, read};
use second::keys::{head_size, public_share_size};
use second::query::{bit, pack, parent, write, Query};
use second::rng::Rng;
use second::{share, Node};

/// A public share without its first levels.
fn without(public: &[u8], n: usize, levels: usize) -> Vec<u8> {
    let mut cut = vec![0; head_size(n - levels)];
    for place in 2 * levels..2 * n {
        let to = place - 2 * levels;
        cut[to / 8] |= (public[place / 8] >> (place % 8) & 1) << (to % 8);
    }
    cut.extend(&public[head_size(n) + 24 * levels..]);
    cut
}

/// A server's share of one report at a prefix, from its node at the prefix's first bits, by the
/// walk of a report without those bits.
fn below_node(
    one: &Reports,
    server: bool,
    from: usize,
    node: Node,
    prefix: &[u8],
    to: usize,
) -> u64 {
    let rest = without(&one.public, one.n, from);
    let path: Vec<bool> = (from..to).map(|at| bit(prefix, at)).collect();
    let query = write(to - from, &[pack(&path)]);
    let (n, b) = ((one.n - from) as u64, node.control);
    let mut out = [0; 8];
    let made = share(n, one.expander, b, &node.seed, &rest, &query, &mut out);
    assert_eq!((made.number, made.length), (0, 8));
    // The walk takes the node's bit for its server's and negates where it is 1.
    if b == server {
        read(&out)
    } else {
        negate(read(&out))
    }
}

/// A query of prefixes of so many bits, or no bytes.
fn query_of(rng: &mut Rng, length: usize) -> Vec<u8> {
    (0..length).fold(vec![], |last, _| below(rng, &last, 5))
}

/// Random nodes.
fn any_nodes(rng: &mut Rng, count: usize) -> Vec<Node> {
    let mut nodes: Vec<Node> = (0..count).map(spare).collect();
    for node in &mut nodes {
        node.seed.copy_from_slice(&rng.bytes(16));
        node.control = rng.coin();
    }
    nodes
}

/// Compares some levels below random nodes at the prefixes of a query of so many bits.
fn compare(rng: &mut Rng, of: &Reports, server: bool, from: usize) {
    let count = of.count();
    let kept = any_nodes(rng, 10 * count + 1);
    let mut keeper = Keeper::new(of, server, kept.len());
    keeper.nodes.clone_from(&kept);
    keeper.last = query_of(rng, from);
    let began = Query::last(&keeper.last).count;
    // For each prefix asked, the place in the first query of its first bits.
    let mut origins: Vec<usize> = (0..began).collect();
    for to in from + 1..=of.n.min(from + 3) {
        let query = below(rng, &keeper.last, 10);
        let (last, new) = (Query::last(&keeper.last), Query::of(&query));
        let place = |i: usize| {
            let above = parent(new.prefix(i), to);
            (0..last.count).find(|&at| last.prefix(at) == above)
        };
        origins = (0..new.count).map(|i| origins[place(i).unwrap()]).collect();
        let out = keeper.share(&query);
        for (i, number) in out.chunks(8).enumerate() {
            let values = (0..count).map(|report| {
                let node = kept[report * began + origins[i]];
                let prefix = new.prefix(i);
                below_node(&of.only(report), server, from, node, prefix, to)
            });
            assert_eq!(read(number), values.fold(0, add));
        }
    }
}

#[test]
fn any_nodes_at_any_prefixes() {
    let mut rng = Rng::new(26);
    for expander in [1, 2] {
        for (n, from) in [
            (1, 0),
            (3, 0),
            (2, 1),
            (5, 3),
            (9, 7),
            (9, 8),
            (10, 8),
            (18, 15),
        ] {
            for count in [1, 3] {
                let of = Reports::any(&mut rng, n, expander, count);
                for server in [false, true] {
                    compare(&mut rng, &of, server, from);
                }
            }
        }
    }
}

/// A public share without no level is itself.
#[test]
fn nothing_cut() {
    let mut rng = Rng::new(27);
    for n in [1, 3, 4, 9] {
        let of = Reports::any(&mut rng, n, 2, 1);
        assert_eq!(without(&of.public, n, 0), of.public);
        assert_eq!(without(&of.public, n, n - 1).len(), public_share_size(1));
    }
}
