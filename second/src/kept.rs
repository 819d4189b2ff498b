//! A server's share for a query from the nodes kept at the last one, and the list at the roots.
//! The judge gives the number.

use crate::expander::Expander;
use crate::keys::{public_share_size, Node, Reader};
use crate::query::{bit, parent, Query};
use crate::{field, judge, Reply};
use std::collections::HashMap;

/// For each prefix of a query the place of its parent in the last one.
fn parents(last: &Query, query: &Query) -> Vec<usize> {
    let places: HashMap<&[u8], usize> = (0..last.count).map(|i| (last.prefix(i), i)).collect();
    (0..query.count)
        .map(|i| places[&parent(query.prefix(i), query.length)[..]])
        .collect()
}

/// The nodes one level down, report by report and in query order, and the sum at each prefix
/// before the negation for server 1.
fn down(
    n: usize,
    expander: Expander,
    public_shares: &[u8],
    last: &Query,
    query: &Query,
    nodes: &[Node],
) -> (Vec<Node>, Vec<u64>) {
    let places = parents(last, query);
    let mut made = Vec::new();
    let mut sums = vec![0; query.count];
    let reports = public_shares.chunks_exact(public_share_size(n));
    for (report, public_share) in reports.enumerate() {
        let kept = &nodes[report * last.count..(report + 1) * last.count];
        let (correction, payload) = Reader::of(n, public_share).below(last.length).read();
        for (i, sum) in sums.iter_mut().enumerate() {
            let side = bit(query.prefix(i), last.length);
            let node = kept[places[i]].corrected(expander, side, &correction);
            *sum = field::add(*sum, node.payload(expander));
            if node.control {
                *sum = field::add(*sum, payload);
            }
            made.push(node.finished(expander));
        }
    }
    (made, sums)
}

/// Writes a server's share for a query from the nodes kept at the last one, and the new nodes.
#[allow(clippy::too_many_arguments)]
pub fn share_kept(
    n: u64,
    expander: u64,
    server: bool,
    public_shares: &[u8],
    last_query: &[u8],
    query: &[u8],
    nodes: &mut [Node],
    share: &mut [u8],
) -> Reply {
    let number = judge::share_kept(
        n,
        expander,
        server,
        public_shares,
        last_query,
        query,
        nodes.len(),
        share.len(),
    );
    Reply::settle(number, share, || {
        let (last, query) = (Query::last(last_query), Query::of(query));
        let expander = Expander::of(expander);
        let (made, sums) = down(n as usize, expander, public_shares, &last, &query, nodes);
        nodes[..made.len()].copy_from_slice(&made);
        let signed = |sum| if server { field::negate(sum) } else { sum };
        sums.into_iter()
            .flat_map(|sum| field::write(signed(sum)))
            .collect()
    })
}

/// Writes the list at the roots and gives the number: each seed in order with the server's bit.
pub fn roots(server: bool, seeds: &[u8], nodes: &mut [Node]) -> u64 {
    let number = judge::roots(seeds, nodes.len());
    if number == 0 {
        for (node, seed) in nodes.iter_mut().zip(seeds.chunks_exact(16)) {
            *node = Node::root(server, std::array::from_fn(|i| seed[i]));
        }
    }
    number
}
