//! Shares from kept nodes are those of the walk from the root, and the list holds the nodes that are due.

mod keeping;

use keeping::{asked, Held};
use tally::{
    block, nodes_count, query_length, roots, roots_into, share, share_kept, BitString, Collector,
    Expander, Node, PublicShare, Query, Refusal, Server, Settings, FIRST_QUERY,
};

const BOTH: [Server; 2] = [Server::Zero, Server::One];
const EXPANDERS: [Expander; 2] = [Expander::Aes, Expander::Classroom];

/// A node that no call makes here.
const SPARE: Node = Node {
    seed: [0xa5; 16],
    bit: true,
};

/// The node of each report at each prefix by the rule of the scope paper, report by report.
fn nodes_of(held: &Held, server: Server, prefixes: &[BitString]) -> Vec<Node> {
    let size = tally::public_share_length(held.n);
    let reports = held.lent(server).public_shares.chunks(size);
    let reports = held.lent(server).seeds.iter().zip(reports);
    let mut nodes = Vec::new();
    for (&seed, public_share) in reports {
        let share = PublicShare::new(held.n, public_share).unwrap();
        for prefix in prefixes {
            let root = Node {
                seed,
                bit: server == Server::One,
            };
            nodes.push(walked(held.expander, root, share, prefix));
        }
    }
    nodes
}

/// The node at a prefix, bit by bit from the root.
fn walked(expander: Expander, root: Node, share: PublicShare<'_>, prefix: &BitString) -> Node {
    let bits = prefix.to_string();
    bits.chars()
        .zip(share.levels())
        .fold(root, |node, (bit, level)| {
            let right = bit == '1';
            let mut child = block(expander, &node.seed, right.into()).unwrap();
            let mut bit = child[0] & 1 == 1;
            child[0] &= 0xfe;
            if node.bit {
                child.iter_mut().zip(level.seed).for_each(|(a, b)| *a ^= b);
                bit ^= if right { level.right } else { level.left };
            }
            Node {
                seed: block(expander, &child, 2).unwrap(),
                bit,
            }
        })
}

/// A list of nodes with the query that it stands at, and spare nodes behind it.
struct Kept<'a> {
    held: &'a Held,
    server: Server,
    nodes: Vec<Node>,
    last: Vec<u8>,
}

impl<'a> Kept<'a> {
    fn begin(held: &'a Held, server: Server, room: usize) -> Kept<'a> {
        let mut nodes = vec![SPARE; room];
        let seeds = held.lent(server).seeds;
        roots_into(server, seeds, &mut nodes).unwrap();
        assert_eq!(nodes[..seeds.len()], roots(server, seeds).unwrap());
        assert_eq!(
            nodes[..seeds.len()],
            nodes_of(held, server, &[BitString::default()])
        );
        assert!(nodes[seeds.len()..].iter().all(|&node| node == SPARE));
        Kept {
            held,
            server,
            nodes,
            last: vec![],
        }
    }

    /// The share for a query; it is that of the walk, the nodes are those of the rule, and those past them are as they were.
    fn answer(&mut self, query: &[u8]) -> Vec<u8> {
        let Held { n, expander, .. } = *self.held;
        let lent = self.held.lent(self.server);
        let before = self.nodes.clone();
        let kept = share_kept(
            n,
            expander,
            self.server,
            lent.public_shares,
            &self.last,
            query,
            &mut self.nodes,
        )
        .unwrap();
        assert_eq!(kept, share(n, expander, self.server, lent, query).unwrap());
        let prefixes: Vec<BitString> = Query::new(query).unwrap().prefixes().collect();
        let written = nodes_count(lent.seeds.len(), query);
        assert_eq!(
            self.nodes[..written],
            nodes_of(self.held, self.server, &prefixes)
        );
        assert_eq!(self.nodes[written..], before[written..]);
        self.last = query.to_vec();
        kept
    }
}

/// The room for a search over as many reports, with four nodes to spare.
fn room(reports: usize) -> usize {
    reports * (2 * reports).max(2) + 4
}

#[test]
fn a_search_with_kept_nodes_is_the_whole_search() {
    for expander in EXPANDERS {
        for (n, reports) in [
            (1, 3),
            (2, 5),
            (7, 8),
            (8, 8),
            (9, 8),
            (17, 9),
            (64, 6),
            (256, 4),
        ] {
            let held = Held::new(n, expander, reports as u64);
            for t in [1, 2, 4] {
                let [mut zero, mut one] =
                    BOTH.map(|server| Kept::begin(&held, server, room(reports)));
                let mut collector = Collector::new(n, t, reports).unwrap();
                while let Some(query) = collector.query() {
                    let (share0, share1) = (zero.answer(query), one.answer(query));
                    collector.answers(&share0, &share1).unwrap();
                }
                let [zero, one] = BOTH.map(|server| held.lent(server));
                let whole = Settings::new(n, t, expander).search(zero, one).unwrap();
                assert_eq!(collector.into_found(), Some(whole));
            }
        }
    }
}

// The prefixes need not be both children of what was asked before: some parents have one child here, some none, and the list grows and shrinks.
#[test]
fn any_children_of_the_last_prefixes_may_be_asked() {
    let rounds: [&[&str]; 9] = [
        &["0", "1"],
        &["00", "01", "10", "11"],
        &["000", "001", "010", "011", "100", "101", "110", "111"],
        &["0001", "0110", "1110"],
        &["00010", "00011", "01100", "01101", "11100", "11101"],
        &["111011"],
        &["1110110", "1110111"],
        &["11101100", "11101101", "11101110", "11101111"],
        &["111011001", "111011010", "111011011", "111011111"],
    ];
    for expander in EXPANDERS {
        let held = Held::new(9, expander, 5);
        for server in BOTH {
            let mut kept = Kept::begin(&held, server, 5 * 8 + 3);
            for prefixes in rounds {
                kept.answer(&asked(prefixes));
            }
        }
    }
}

#[test]
fn a_list_may_be_moved_and_made_longer_between_calls() {
    let held = Held::new(9, Expander::Aes, 4);
    let mut kept = Kept::begin(&held, Server::One, 4 * 2);
    kept.answer(&FIRST_QUERY);
    let mut longer = kept.nodes.clone();
    longer.resize(4 * 4, SPARE);
    kept.nodes = longer;
    kept.answer(&asked(&["00", "01", "10", "11"]));
    kept.answer(&asked(&["110"]));
    kept.nodes.truncate(4 * 2);
    kept.answer(&asked(&["1100", "1101"]));
}

#[test]
fn no_reports_need_no_nodes() {
    for server in BOTH {
        let ask = |last: &[u8], query: &[u8]| {
            share_kept(8, Expander::Aes, server, &[], last, query, &mut [])
        };
        assert_eq!(roots(server, &[]), Ok(vec![]));
        assert_eq!(ask(&[], &FIRST_QUERY), Ok(vec![0; 16]));
        assert_eq!(ask(&FIRST_QUERY, &asked(&["01"])), Ok(vec![0; 8]));
        assert_eq!(ask(&[], &asked(&["01"])), Err(Refusal::NoParent));
    }
}

#[test]
fn nodes_are_counted_within_the_bounds() {
    let wide = query_length(17, 131_070);
    let mut query = vec![0; wide];
    query[..6].copy_from_slice(&[0, 16, 0, 1, 0xff, 0xfe]);
    assert_eq!(nodes_count(65_535, &query), 65_535 * 131_070);
    assert_eq!(nodes_count(usize::MAX, &query), usize::MAX);
    assert_eq!(nodes_count(0, &[]), 0);
}
