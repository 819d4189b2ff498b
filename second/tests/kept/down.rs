//! Shares from nodes kept since the roots: known nodes, any queries, lists that grow and shrink.

use crate::keeping::{below, spare, Keeper, Reports};
use second::field::{read, P};
use second::query::{bit, first, pack, write, Query};
use second::rng::Rng;
use second::Node;

/// A node of a seed of two words, least significant byte first.
fn node(a: u64, b: u64, control: bool) -> Node {
    let words = u128::from(a) | u128::from(b) << 64;
    Node {
        seed: words.to_le_bytes(),
        control,
    }
}

/// The numbers of a share.
fn numbers(share: &[u8]) -> Vec<u64> {
    share.chunks(8).map(read).collect()
}

/// Example A with its shares B and C, and the nodes worked out by hand.
#[test]
fn sheet_a_to_c() {
    let mut public = vec![0; 25];
    (public[0], public[1], public[9], public[17]) = (1, 2, 3, 1);
    let mut one = vec![0; 16];
    one[0] = 1;
    let of = Reports {
        n: 1,
        expander: 2,
        seeds: [vec![0; 16], one],
        public,
    };
    for (server, root, shares, nodes) in [
        (
            false,
            node(0, 0, false),
            [5, 6],
            [node(3, 4, true), node(5, 7, false)],
        ),
        (
            true,
            node(1, 0, true),
            [P - 5, P - 5],
            [node(3, 4, true), node(3, 3, true)],
        ),
    ] {
        let mut keeper = Keeper::new(&of, server, 3);
        assert_eq!(keeper.nodes, [root, spare(1), spare(2)]);
        assert_eq!(numbers(&keeper.share(&first())), shares);
        assert_eq!(keeper.nodes, [nodes[0], nodes[1], spare(2)]);
        for (place, prefix) in [0x00, 0x80].into_iter().enumerate() {
            let mut keeper = Keeper::new(&of, server, 3);
            let query = write(1, &[vec![prefix]]);
            assert_eq!(numbers(&keeper.share(&query)), [shares[place]]);
            assert_eq!(keeper.nodes, [nodes[place], spare(1), spare(2)]);
        }
    }
}

/// Two levels of one report, worked out by hand: the second level reads the second corrections.
#[test]
fn two_levels_by_hand() {
    // Level 1: all corrections 0. Level 2: seed correction (8, 0), left bit 1, payload 100.
    let mut public = vec![0; 49];
    (public[0], public[25], public[41]) = (0x04, 8, 100);
    let of = Reports {
        n: 2,
        expander: 2,
        seeds: [vec![0; 16], vec![0; 16]],
        public,
    };
    let mut keeper = Keeper::new(&of, false, 2);
    // 0: block 0 is (1, 1), so the bit is 1 and the seed (0, 1); the draw is (3, 4) and 4.
    // 1: block 1 is (2, 2), so the bit is 0 and the seed (2, 2); the draw is (5, 7) and 6.
    assert_eq!(numbers(&keeper.share(&first())), [4, 6]);
    assert_eq!(keeper.nodes, [node(3, 4, true), node(5, 7, false)]);
    // 00: block 0 of (3, 4) is (4, 8), bit 0; corrected (12, 8), bit 1; drawn (15, 23) and 16.
    // 10: block 0 of (5, 7) is (6, 13), bit 0, not corrected; drawn (9, 22) and 10.
    let query = write(2, &[vec![0x00], vec![0x80]]);
    assert_eq!(numbers(&keeper.share(&query)), [116, 10]);
    assert_eq!(keeper.nodes, [node(15, 23, true), node(9, 22, false)]);
}

/// Random queries down to the last level, of more and of fewer prefixes than the last.
#[test]
fn shares_equal_those_of_the_walk_from_the_root() {
    let mut rng = Rng::new(21);
    let (mut grown, mut shrunk) = (0, 0);
    for expander in [1, 2] {
        for n in [1, 2, 3, 4, 5, 7, 8, 9, 10, 16, 17, 24, 33] {
            for count in [0, 1, 2, 3, 5] {
                let of = Reports::any(&mut rng, n, expander, count);
                for server in [false, true] {
                    let mut keeper = Keeper::new(&of, server, count * 12 + 2);
                    for _ in 0..n {
                        let most = 1 + rng.below(12);
                        let query = below(&mut rng, &keeper.last, most);
                        let before = Query::last(&keeper.last).count;
                        assert_eq!(keeper.share(&query), of.walked(server, &query));
                        let now = Query::of(&query).count;
                        grown += usize::from(now > before);
                        shrunk += usize::from(now < before);
                    }
                }
            }
        }
    }
    assert!(grown > 500 && shrunk > 500, "{grown} {shrunk}");
}

/// Strings of 256 bits, one prefix a query and then two.
#[test]
fn the_longest_strings() {
    let mut rng = Rng::new(22);
    let of = Reports::any(&mut rng, 256, 2, 2);
    for server in [false, true] {
        let mut keeper = Keeper::new(&of, server, 4);
        for length in 1..=256 {
            let query = below(&mut rng, &keeper.last, 2);
            let share = keeper.share(&query);
            if length % 15 == 1 || length > 250 {
                assert_eq!(share, of.walked(server, &query));
            }
        }
    }
}

/// Nodes stand report by report, prefixes in query order: each is that of its report and path alone.
#[test]
fn every_node_stands_in_its_place() {
    let mut rng = Rng::new(23);
    for expander in [1, 2] {
        for (n, count) in [(3, 4), (9, 3)] {
            let of = Reports::any(&mut rng, n, expander, count);
            let mut keeper = Keeper::new(&of, true, count * 6);
            for length in 1..=n {
                let query = below(&mut rng, &keeper.last, 6);
                keeper.share(&query);
                let asked = Query::of(&query);
                for report in 0..count {
                    let only = of.only(report);
                    for i in 0..asked.count {
                        let prefix = asked.prefix(i);
                        let mut alone = Keeper::new(&only, true, 1);
                        for bits in 1..=length {
                            let path: Vec<bool> = (0..bits).map(|at| bit(prefix, at)).collect();
                            alone.share(&write(bits, &[pack(&path)]));
                        }
                        assert_eq!(keeper.nodes[report * asked.count + i], alone.nodes[0]);
                    }
                }
            }
        }
    }
}

/// A list that shrinks keeps its former nodes past the new ones, and may be lent shorter then.
#[test]
fn former_nodes_stay_past_the_new_ones() {
    let mut rng = Rng::new(24);
    let of = Reports::any(&mut rng, 3, 2, 3);
    let mut keeper = Keeper::new(&of, false, 13);
    keeper.share(&first());
    keeper.share(&write(2, &[0x00, 0x40, 0x80, 0xc0].map(|x| vec![x])));
    let full = keeper.nodes.clone();
    assert_eq!(full[12], spare(12));
    let one = write(3, &[vec![0x60]]);
    assert_eq!(keeper.share(&one), of.walked(false, &one));
    assert_eq!(keeper.nodes[3..], full[3..]);
    assert_ne!(keeper.nodes[..3], full[..3]);
}
