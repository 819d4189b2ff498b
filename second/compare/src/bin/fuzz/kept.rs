//! The share from kept nodes and the list at the roots: lists that go down from the roots, inputs
//! near those, and bytes and nodes that have nothing to do with each other.

use crate::inputs::{bytes, length, number, perhaps};
use crate::judged::Call;
use crate::making::Fuzz;
use crate::round::Reports;
use compare::kept::{all_below, any_nodes, some_below};
use compare::{calls, queries};
use second::field::{read, P};
use second::keys::public_share_size;
use second::query::Query;
use second::Node;

/// The fields of a call: n, the expander and the server.
type Fields = (u64, u64, bool);

impl Fuzz<'_> {
    /// The share, where it was made; a refusal leaves every node, a success the spare ones.
    pub fn share_kept(
        &mut self,
        (n, expander, server): Fields,
        inputs: [&[u8]; 3],
        nodes: &mut [Node],
        room: usize,
    ) -> Option<Vec<u8>> {
        let call = Call {
            name: "share kept",
            may: &[0, 1, 3, 4, 5, 6, 7, 9, 11, 13, 14],
            fields: &[n, expander, server as u64, nodes.len() as u64],
        };
        let before = nodes.to_vec();
        let mut accepted = false;
        let make = |[public, last, query]: [&[u8]; 3], [out]: [&mut [u8]; 1]| {
            let reply = calls::share_kept(n, expander, server, public, last, query, nodes, out);
            accepted = reply.number == 0;
            (reply.number, [reply.length])
        };
        let [share] = self.judged.call(&mut self.rng, &call, inputs, [room], make);
        let mut used = 0;
        if accepted {
            let asked = Query::of(inputs[2]).count;
            used = inputs[0].len() / public_share_size(n as usize) * asked;
            if share.len() != 8 * asked || share.chunks_exact(8).any(|sum| read(sum) >= P) {
                self.judged.fault("share kept: an answer that is no share");
            }
        }
        if nodes.get(used..) != before.get(used..) {
            self.judged
                .fault("share kept: a node changed that must not");
        }
        accepted.then_some(share)
    }

    /// A refusal leaves every node, a success those past the seeds.
    pub fn roots(&mut self, server: bool, seeds: &[u8], nodes: &mut [Node]) {
        let call = Call {
            name: "roots",
            may: &[0, 4, 5, 13],
            fields: &[server as u64, nodes.len() as u64],
        };
        let before = nodes.to_vec();
        let mut written = 0;
        let make = |[seeds]: [&[u8]; 1], []: [&mut [u8]; 0]| {
            let number = calls::roots(server, seeds, nodes);
            written = if number == 0 { seeds.len() / 16 } else { 0 };
            (number, [])
        };
        self.judged.call(&mut self.rng, &call, [seeds], [], make);
        let is_root = |(node, seed): (&Node, &[u8])| node.seed == seed && node.control == server;
        let right = nodes[..written]
            .iter()
            .zip(seeds.chunks_exact(16))
            .all(is_root);
        if !right || nodes[written..] != before[written..] {
            self.judged
                .fault("roots: not each seed with the server's bit and the rest as before");
        }
    }

    /// A list that goes down from the roots, each share that of the walk, and calls near those.
    pub fn keeps(&mut self, reports: &Reports) {
        let (n, count) = (reports.n, reports.strings.len());
        let server = self.rng.coin();
        let seeds = &reports.seeds[server as usize];
        let lent = 8 * count + self.rng.below(3);
        let mut nodes = any_nodes(&mut self.rng, lent);
        self.roots(server, seeds, &mut nodes);
        let mut last = Vec::new();
        let levels = if n > 200 { n } else { 1 + self.rng.below(n) };
        for level in 0..levels {
            let few = Query::last(&last).count <= 4;
            let query = if few && self.rng.coin() {
                all_below(&last)
            } else {
                some_below(&mut self.rng, &last, 8)
            };
            let inputs = [&reports.public[..], &last, &query];
            if n < 200 || level + 2 > n {
                self.near(reports, server, inputs, &nodes);
            }
            let fields = (n as u64, reports.expander, server);
            let size = 8 * Query::of(&query).count;
            let share = self.share_kept(fields, inputs, &mut nodes, size);
            let walked = self.share(fields, [seeds, &reports.public, &query], size);
            if share != Some(walked) {
                self.judged
                    .fault("share kept: not the share of the walk from the root");
            }
            last = query;
        }
    }

    /// A call near a right one, with nodes of its own.
    fn near(&mut self, reports: &Reports, server: bool, inputs: [&[u8]; 3], nodes: &[Node]) {
        let rng = &mut self.rng;
        let mut near = inputs.map(|bytes| perhaps(rng, bytes));
        match rng.below(12) {
            0 => near[1] = queries::good(rng, reports.n, &reports.strings),
            1 => near[2] = queries::good(rng, reports.n, &reports.strings),
            2 => near[1].clear(),
            _ => {}
        }
        let mut nodes = nodes.to_vec();
        match rng.below(6) {
            0 => nodes = any_nodes(rng, nodes.len()),
            1 => nodes.truncate(rng.below(nodes.len() + 1)),
            _ => {}
        }
        let (n, expander) = (number(rng, reports.n as u64), number(rng, reports.expander));
        let room = length(rng, 8 * Query::of(inputs[2]).count);
        let inputs = near.each_ref().map(|b| &b[..]);
        self.share_kept((n, expander, server), inputs, &mut nodes, room);
        let seeds = perhaps(&mut self.rng, &reports.seeds[server as usize]);
        self.roots(server, &seeds, &mut nodes);
    }

    /// Both calls with bytes, nodes and lengths that have nothing to do with each other.
    pub fn wild_kept(&mut self, fields: Fields, inputs: [&[u8]; 3]) {
        let rng = &mut self.rng;
        let (count, room) = (rng.below(20), length(rng, 16));
        let mut nodes = any_nodes(rng, count);
        self.share_kept(fields, inputs, &mut nodes, room);
        let seeds = bytes(&mut self.rng, 32);
        self.roots(fields.2, &seeds, &mut nodes);
    }

    /// The most reports or one more, with the nodes that they need, and at times one fewer.
    pub fn many_kept(&mut self, seeds: &[u8], public: &[u8]) {
        let (count, server) = (seeds.len() / 16, self.rng.coin());
        let lent = 2 * count - self.rng.below(2);
        let mut nodes = any_nodes(&mut self.rng, lent);
        self.roots(server, seeds, &mut nodes);
        let query = second::query::first();
        self.share_kept((1, 2, server), [public, &[], &query], &mut nodes, 16);
    }
}
