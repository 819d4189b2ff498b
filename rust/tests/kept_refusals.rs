//! Every cause with which the calls on kept nodes refuse, in order, and that a refusal changes nothing.

mod keeping;

use keeping::{asked, Held};
use tally::{
    public_share_length, roots, roots_into, Expander, Node, Refusal, Server, FIRST_QUERY,
    GROUP_ORDER, REPORTS_MOST,
};
use tally_sys::Reply;

/// What is lent to one call; the defaults are accepted.
#[derive(Clone)]
struct Lent {
    n: u64,
    expander: u64,
    public_shares: Vec<u8>,
    last: Vec<u8>,
    query: Vec<u8>,
    nodes: Vec<Node>,
    space: usize,
}

/// Three reports of nine bits, a list at four prefixes of two bits, and a query of six of three bits.
fn accepted() -> Lent {
    let held = Held::new(9, Expander::Aes, 3);
    let node = |i: u64| Node {
        seed: keeping::seed(7_000 + i),
        bit: i % 2 == 0,
    };
    Lent {
        n: held.n,
        expander: held.expander.number(),
        public_shares: held.lent(Server::Zero).public_shares.to_vec(),
        last: asked(&["00", "01", "10", "11"]),
        query: asked(&["000", "001", "010", "100", "101", "111"]),
        nodes: (0..18).map(node).collect(),
        space: 48,
    }
}

impl Lent {
    /// The number of the call, whose refusal has length 0 and leaves nodes and space as they were.
    fn number(&self) -> u64 {
        let (mut nodes, mut out) = (self.nodes.clone(), vec![7; self.space]);
        let Reply { number, length } = tally_sys::share_kept(
            self.n,
            self.expander,
            false,
            &self.public_shares,
            &self.last,
            &self.query,
            &mut nodes,
            &mut out,
        );
        if number == 0 {
            assert_eq!(length, 8 * 6);
        } else {
            assert_eq!(length, 0);
            assert!(nodes == self.nodes, "{number} changes a node");
            assert!(out.iter().all(|&byte| byte == 7), "{number} writes");
        }
        number
    }

    fn with(&self, change: impl FnOnce(&mut Lent)) -> Lent {
        let mut changed = self.clone();
        change(&mut changed);
        changed
    }
}

type Fault = (u64, fn(&mut Lent));

/// A fault for each cause, in the order in which they are judged.
const FAULTS: [Fault; 10] = [
    (1, |lent| lent.n = 257),
    (3, |lent| lent.expander = 3),
    (4, |lent| lent.public_shares.push(0)),
    (5, |lent| {
        lent.public_shares = vec![0; (REPORTS_MOST + 1) * public_share_length(9)]
    }),
    (6, |lent| {
        let end = public_share_length(9);
        lent.public_shares[end - 8..end].copy_from_slice(&GROUP_ORDER.to_le_bytes())
    }),
    (7, |lent| lent.public_shares[2] |= 0x04),
    (9, |lent| *lent.last.last_mut().unwrap() |= 1),
    (13, |lent| lent.nodes.truncate(17)),
    (14, |lent| {
        lent.last = asked(&["00", "01", "10"]);
    }),
    (11, |lent| lent.space = 47),
];

#[test]
fn each_cause_is_returned_by_itself() {
    assert_eq!(accepted().number(), 0);
    for (due, fault) in FAULTS {
        assert_eq!(accepted().with(fault).number(), due);
    }
}

// Where two causes apply the earlier one is returned; faults of the public shares do not stand beside each other, since one call has one list of them.
#[test]
fn the_first_of_two_causes_is_returned() {
    for (i, (due, first)) in FAULTS.into_iter().enumerate() {
        for (later, second) in FAULTS.into_iter().skip(i + 1) {
            let shares = 4..=7;
            let last = [9, 14];
            if shares.contains(&due) && shares.contains(&later)
                || last.contains(&due) && last.contains(&later)
                || due == 1 && shares.contains(&later)
            {
                continue;
            }
            let number = accepted().with(second).with(first).number();
            assert_eq!(number, due, "with {later}");
        }
    }
    // 4 before 6 and 7, 5 before 6, 6 before 7, and 9 of the new query before 14.
    let [of4, of6, of7] = [FAULTS[2].1, FAULTS[4].1, FAULTS[5].1];
    assert_eq!(accepted().with(of6).with(of7).number(), 6);
    assert_eq!(accepted().with(of7).with(of6).with(of4).number(), 4);
    let many = |lent: &mut Lent| {
        lent.public_shares = vec![0xff; (REPORTS_MOST + 1) * public_share_length(9)]
    };
    assert_eq!(accepted().with(many).number(), 5);
    let wrong = |lent: &mut Lent| {
        lent.query = asked(&["0000"]);
        lent.query[6] |= 1;
    };
    assert_eq!(accepted().with(wrong).number(), 9);
    // 13 before 14, also where the lengths alone say that there is no parent.
    let other = accepted().with(|lent| lent.last = FIRST_QUERY.to_vec());
    assert_eq!(other.number(), 14);
    assert_eq!(other.with(|lent| lent.nodes.truncate(17)).number(), 13);
}

#[test]
fn n_is_judged_before_all_others() {
    for n in [0, 257, u64::MAX] {
        let nothing_right = accepted().with(|lent| {
            lent.n = n;
            lent.expander = 0;
            lent.public_shares = vec![0xff; 7];
            lent.last = vec![1];
            lent.query = vec![];
            lent.nodes = vec![];
            lent.space = 0;
        });
        assert_eq!(nothing_right.number(), 1);
        assert_eq!(nothing_right.with(|lent| lent.n = 9).number(), 3);
    }
}

#[test]
fn refusal_9_of_either_query() {
    let longer = asked(&["0000000000"]);
    let wrong: [&[u8]; 7] = [
        &[0],
        &FIRST_QUERY[..7],
        &[0, 0, 0, 0, 0, 0],
        &[0, 0, 0, 0, 0, 2, 0x80, 0x00],
        &[0, 0, 0, 0, 0, 1, 0x01],
        &[0, 0, 0xff, 0xff, 0xff, 0xff, 0x00, 0x80],
        &longer,
    ];
    for bytes in wrong {
        let last = accepted().with(|lent| lent.last = bytes.to_vec());
        assert_eq!(last.number(), 9, "after {bytes:?}");
        let new = accepted().with(|lent| lent.query = bytes.to_vec());
        assert_eq!(new.number(), 9, "asked {bytes:?}");
    }
    // No bytes are a last query, but no new one.
    assert_eq!(accepted().with(|lent| lent.query = vec![]).number(), 9);
    assert_eq!(accepted().with(|lent| lent.last = vec![]).number(), 14);
}

#[test]
fn refusal_13_counts_the_last_and_the_new_query() {
    let to = |count: usize| move |lent: &mut Lent| lent.nodes.truncate(count);
    for count in [0, 1, 11, 12, 17] {
        assert_eq!(accepted().with(to(count)).number(), 13);
    }
    assert_eq!(accepted().with(to(18)).number(), 0);
    // The last query has four prefixes and the new one two: twelve nodes are read, and six written.
    let fewer = accepted().with(|lent| {
        lent.query = asked(&["010", "011"]);
        lent.space = 16;
    });
    for count in [0, 6, 11] {
        assert_eq!(fewer.with(to(count)).number(), 13);
    }
    let exact = fewer.with(to(12));
    let mut nodes = exact.nodes.clone();
    let reply = tally_sys::share_kept(
        9,
        1,
        false,
        &exact.public_shares,
        &exact.last,
        &exact.query,
        &mut nodes,
        &mut [0; 16],
    );
    assert_eq!((reply.number, reply.length), (0, 16));
    assert!(nodes[..6] != exact.nodes[..6] && nodes[6..] == exact.nodes[6..]);
}

#[test]
fn refusal_14_where_one_parent_is_missing() {
    for last in [
        &["01", "10", "11"][..],
        &["00", "10", "11"],
        &["00", "01", "10"],
        &["0", "1"],
        &["000", "001"],
        &["0000"],
    ] {
        let lent = accepted().with(|lent| lent.last = asked(last));
        assert_eq!(lent.number(), 14, "after {last:?}");
    }
    // The same query again, and the one before it.
    let again = accepted().with(|lent| lent.last = lent.query.clone());
    assert_eq!(again.number(), 14);
    let back = accepted().with(|lent| lent.query = FIRST_QUERY.to_vec());
    assert_eq!(back.number(), 14);
    // Strings of n bits have no children.
    let below = accepted().with(|lent| lent.n = 3);
    let whole = below.with(|lent| {
        lent.public_shares = Held::new(3, Expander::Aes, 3)
            .lent(Server::Zero)
            .public_shares
            .to_vec();
        lent.last = lent.query.clone();
    });
    assert_eq!(whole.number(), 14);
}

#[test]
fn the_roots_refuse_with_4_5_and_13() {
    let spare = Node {
        seed: [9; 16],
        bit: false,
    };
    let mut nodes = [spare; 3];
    for (length, room, due) in [(15, 0, 4), (33, 3, 4), (48, 2, 13), (16, 0, 13)] {
        let number = tally_sys::roots(true, &vec![1; length], &mut nodes[..room]);
        assert_eq!((number, nodes), (due, [spare; 3]));
    }
    let many = vec![1; 16 * (REPORTS_MOST + 1)];
    assert_eq!(tally_sys::roots(true, &many, &mut nodes), 5);
    assert_eq!(tally_sys::roots(true, &many[1..], &mut nodes), 4);
    assert_eq!(tally_sys::roots(true, &many[16..], &mut nodes), 13);
    assert_eq!(nodes, [spare; 3]);
    assert_eq!(tally_sys::roots(true, &[1; 32], &mut nodes), 0);
    let root = Node {
        seed: [1; 16],
        bit: true,
    };
    assert_eq!(nodes, [root, root, spare]);
    let seeds = vec![[1; 16]; REPORTS_MOST + 1];
    assert_eq!(roots(Server::Zero, &seeds), Err(Refusal::TooManyReports));
    let refused = roots_into(Server::Zero, &seeds[..4], &mut nodes);
    assert_eq!(refused, Err(Refusal::TooFewNodes));
    assert!(roots(Server::Zero, &seeds[1..]).is_ok());
}
