//! A call of the share from kept nodes, and one of the list at the roots, as they are compared.

use compare::calls;
use compare::kept::node_bytes;
use compare::tally::{shown, Outcome, Plan, Space, Tally};
use second::query::Query;
use second::rng::Rng;
use second::{Node, Reply};
use std::hint::black_box;

#[derive(Clone)]
pub struct Call {
    pub n: u64,
    pub expander: u64,
    pub server: bool,
    pub public: Vec<u8>,
    pub last: Vec<u8>,
    pub query: Vec<u8>,
    pub nodes: Vec<Node>,
    pub room: usize,
}

/// What the library made of a call.
pub struct Made {
    pub share: Vec<u8>,
    pub nodes: Vec<Node>,
}

impl Call {
    /// How many prefixes a right call's last and new query have.
    pub fn counts(&self) -> [usize; 2] {
        [Query::last(&self.last), Query::of(&self.query)].map(|query| query.count)
    }

    pub fn with(&self, change: impl FnOnce(&mut Call)) -> Call {
        let mut call = self.clone();
        change(&mut call);
        call
    }

    fn shown(&self) -> String {
        let (nodes, room) = (self.nodes.len(), self.room);
        format!(
            "n={} expander={} server={} ",
            self.n, self.expander, self.server
        ) + &format!("nodes={nodes} room={room} ")
            + &shown("public_shares", &self.public)
            + &shown("last", &self.last)
            + &shown("query", &self.query)
            + &shown("nodes", &node_bytes(&self.nodes[..nodes.min(4)]))
    }
}

type ShareKept = fn(u64, u64, bool, &[u8], &[u8], &[u8], &mut [Node], &mut [u8]) -> Reply;

/// Compares one call: number, length, the share's space, every node and the lent inputs.
pub fn compare(rng: &mut Rng, plan: &Plan, call: &Call, tally: &mut Tally) -> Made {
    let inputs = call.shown();
    tally.before("share kept", plan, &inputs);
    let salt = rng.number();
    let holding = || [&call.public, &call.last, &call.query].map(|bytes| Space::holding(bytes));
    let mut left = Vec::new();
    let both = [
        second::share_kept as ShareKept,
        calls::share_kept as ShareKept,
    ];
    let [ours, theirs] = both.map(|share_kept| {
        let lent = black_box(holding());
        let [public, last, query] = lent.each_ref().map(|space| space.first(u64::MAX));
        let mut space = Space::new(call.room, salt);
        let mut nodes = call.nodes.clone();
        let (n, expander, server) = (call.n, call.expander, call.server);
        let reply = share_kept(
            n,
            expander,
            server,
            public,
            last,
            query,
            &mut nodes,
            space.lent(),
        );
        let mut spaces: Vec<Space> = black_box(lent).into();
        spaces.extend([space, Space::holding(&node_bytes(&nodes))]);
        left = nodes;
        Outcome {
            numbers: vec![reply.number, reply.length],
            spaces,
        }
    });
    let theirs = tally.judge("share kept", plan, ours, theirs, &inputs);
    let unchanged = holding()
        .iter()
        .zip(&theirs.spaces)
        .all(|(one, other)| one.same(other));
    if !unchanged {
        tally.fault("share kept: an input changed");
    }
    Made {
        share: theirs.spaces[3].first(theirs.numbers[1]).to_vec(),
        nodes: left,
    }
}

type Roots = fn(bool, &[u8], &mut [Node]) -> u64;

/// Compares one list at the roots, and gives the library's.
pub fn compare_roots(
    plan: &Plan,
    server: bool,
    seeds: &[u8],
    nodes: &[Node],
    tally: &mut Tally,
) -> Vec<Node> {
    let inputs = format!("server={server} nodes={} ", nodes.len()) + &shown("seeds", seeds);
    tally.before("roots", plan, &inputs);
    let mut left = Vec::new();
    let [ours, theirs] = [second::roots as Roots, calls::roots as Roots].map(|roots| {
        let lent = black_box(Space::holding(seeds));
        let mut nodes = nodes.to_vec();
        let number = roots(server, lent.first(u64::MAX), &mut nodes);
        let spaces = vec![black_box(lent), Space::holding(&node_bytes(&nodes))];
        left = nodes;
        Outcome {
            numbers: vec![number],
            spaces,
        }
    });
    let theirs = tally.judge("roots", plan, ours, theirs, &inputs);
    if !Space::holding(seeds).same(&theirs.spaces[0]) {
        tally.fault("roots: a seed changed");
    }
    left
}
