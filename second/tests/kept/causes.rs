//! The causes of the share from kept nodes: each alone, each with every later one, and fits.

use crate::keeping::{spare, Reports};
use second::field::P;
use second::query::{first, write, Query};
use second::rng::Rng;
use second::{judge, share_kept, Node};

/// A call of strings of three bits, whose last query is of two.
#[derive(Clone)]
struct Call {
    n: u64,
    expander: u64,
    public: Vec<u8>,
    last: Vec<u8>,
    query: Vec<u8>,
    nodes: usize,
    room: usize,
}

impl Call {
    /// Two reports, the last query `00`, `01`, `11` and the new one `000`, `010`, `011`, `110`.
    fn right() -> Call {
        let mut rng = Rng::new(41);
        Call {
            n: 3,
            expander: 2,
            public: Reports::any(&mut rng, 3, 2, 2).public,
            last: two(&[0x00, 0x40, 0xc0]),
            query: three(&[0x00, 0x40, 0x60, 0xc0]),
            nodes: 8,
            room: 32,
        }
    }

    /// The number, which the judge must give too; a refusal must leave nodes and space.
    fn number(&self) -> u64 {
        for server in [false, true] {
            let mut nodes: Vec<Node> = (0..self.nodes).map(spare).collect();
            let mut out = vec![0xee; self.room];
            let made = share_kept(
                self.n,
                self.expander,
                server,
                &self.public,
                &self.last,
                &self.query,
                &mut nodes,
                &mut out,
            );
            assert_eq!(made.number, self.judged(server));
            if made.number == 0 {
                let asked = Query::of(&self.query).count;
                assert_eq!(made.length, 8 * asked as u64);
                assert!(out[8 * asked..].iter().all(|byte| *byte == 0xee));
            } else {
                assert_eq!(made.length, 0);
                assert!(nodes.into_iter().eq((0..self.nodes).map(spare)));
                assert_eq!(out, vec![0xee; self.room]);
            }
        }
        self.judged(true)
    }

    fn judged(&self, server: bool) -> u64 {
        judge::share_kept(
            self.n,
            self.expander,
            server,
            &self.public,
            &self.last,
            &self.query,
            self.nodes,
            self.room,
        )
    }

    fn with(&self, change: impl Fn(&mut Call)) -> Call {
        let mut call = self.clone();
        change(&mut call);
        call
    }
}

/// The query of these prefixes of two bits.
fn two(prefixes: &[u8]) -> Vec<u8> {
    write(2, &prefixes.iter().map(|x| vec![*x]).collect::<Vec<_>>())
}

/// The query of these prefixes of three bits.
fn three(prefixes: &[u8]) -> Vec<u8> {
    write(3, &prefixes.iter().map(|x| vec![*x]).collect::<Vec<_>>())
}

/// A cause's number and a change that brings it about.
type Cause = (u64, fn(&mut Call));

/// Changes in the order of their causes; none of them takes another's away.
const CAUSES: [Cause; 16] = [
    (1, |call| call.n = 0),
    (1, |call| call.n = 257),
    (3, |call| call.expander = 0),
    (3, |call| call.expander = 3),
    (4, |call| call.public.push(0)),
    (5, |call| call.public = call.public[..73].repeat(65_536)),
    (6, |call| {
        call.public[65..73].copy_from_slice(&P.to_le_bytes())
    }),
    (7, |call| call.public[0] |= 0x40),
    (9, |call| call.last.push(0)),
    (9, |call| call.last.truncate(5)),
    (9, |call| call.query[5] = 5),
    (13, |call| call.nodes = 7),
    (13, |call| call.nodes = 0),
    (14, |call| {
        call.query[6..10].copy_from_slice(&[0x00, 0x40, 0x80, 0xc0])
    }),
    (11, |call| call.room = 31),
    (11, |call| call.room = 0),
];

#[test]
fn each_cause_and_each_two() {
    let right = Call::right();
    assert_eq!(right.number(), 0);
    for (i, (number, change)) in CAUSES.into_iter().enumerate() {
        assert_eq!(right.with(change).number(), number);
        // The later change first, as five brings about a new list of public shares.
        for (_, later) in &CAUSES[i..] {
            let both = right.with(|call| {
                later(call);
                change(call);
            });
            assert_eq!(both.number(), number);
        }
    }
}

#[test]
fn each_cause_with_all_later_ones() {
    let mut call = Call::right();
    for (number, change) in CAUSES.into_iter().rev() {
        change(&mut call);
        assert_eq!(call.number(), number);
    }
}

#[test]
fn the_nodes_and_the_space_just_fit_or_not() {
    let right = Call::right();
    let fewer = |call: &mut Call| call.query = three(&[0x60]);
    for nodes in 0..=12 {
        for room in 0..=40 {
            let lent = |call: &mut Call| (call.nodes, call.room) = (nodes, room);
            let wanted = match (nodes, room) {
                (0..=7, _) => 13,
                (_, 0..=31) => 11,
                _ => 0,
            };
            assert_eq!(right.with(lent).number(), wanted);
            // With one prefix the last query has more: six nodes for it, two for the new one.
            let wanted = match (nodes, room) {
                (0..=5, _) => 13,
                (_, 0..=7) => 11,
                _ => 0,
            };
            let call = right.with(lent).with(fewer);
            assert_eq!(call.number(), wanted);
        }
    }
}

#[test]
fn the_roots_as_last_query() {
    let roots = Call::right().with(|call| call.last.clear());
    assert_eq!(roots.number(), 14);
    let first = roots.with(|call| call.query = first());
    for (nodes, room, wanted) in [
        (4, 16, 0),
        (5, 17, 0),
        (3, 16, 13),
        (4, 15, 11),
        (3, 15, 13),
        (1, 16, 13),
        (0, 0, 13),
    ] {
        let call = first.with(|call| (call.nodes, call.room) = (nodes, room));
        assert_eq!(call.number(), wanted);
    }
    for prefix in [0x00, 0x80] {
        let one = first.with(|call| {
            call.query = write(1, &[vec![prefix]]);
            (call.nodes, call.room) = (2, 8);
        });
        assert_eq!(one.number(), 0);
        assert_eq!(one.with(|call| call.nodes = 1).number(), 13);
    }
    assert_eq!(first.with(|call| call.query.clear()).number(), 9);
}

/// With no reports no node is needed, and all other causes are judged as ever.
#[test]
fn no_reports() {
    let none = Call::right().with(|call| {
        call.public.clear();
        call.nodes = 0;
    });
    assert_eq!(none.number(), 0);
    for nodes in 0..3 {
        let call = none.with(|call| call.nodes = nodes);
        assert_eq!(call.number(), 0);
        assert_eq!(call.with(|call| call.room = 31).number(), 11);
        assert_eq!(call.with(|call| call.last.clear()).number(), 14);
        assert_eq!(call.with(|call| call.last.truncate(1)).number(), 9);
        let first = call.with(|call| (call.last, call.query) = (vec![], first()));
        assert_eq!(first.number(), 0);
    }
    let mut out = [0xee; 33];
    let made = share_kept(3, 1, true, &[], &none.last, &none.query, &mut [], &mut out);
    assert_eq!((made.number, made.length), (0, 32));
    assert_eq!((&out[..32], out[32]), (&[0; 32][..], 0xee));
}

/// 14 for every pair of lengths but one, and for a missing parent at every place.
#[test]
fn parents() {
    let base = Call::right().with(|call| {
        call.n = 20;
        call.public = Reports::any(&mut Rng::new(42), 20, 2, 1).public;
        (call.nodes, call.room) = (100, 100);
    });
    let zeros = |length: usize| match length {
        0 => vec![],
        _ => write(length, &[vec![0; length.div_ceil(8)]]),
    };
    for last in 0..=20 {
        for new in 1..=20 {
            let call = base.with(|call| (call.last, call.query) = (zeros(last), zeros(new)));
            assert_eq!(call.number(), if new == last + 1 { 0 } else { 14 });
        }
    }
    for length in [1, 2, 3, 7, 8, 9, 15, 16, 17] {
        // Prefixes that differ in their last bits, or in the first where there are so few.
        let all: Vec<u32> = (0..1 << length.min(3)).collect();
        let packed = |bits: usize, values: &[u32]| {
            let one = |value: &u32| (value << (24 - bits)).to_be_bytes()[1..].to_vec();
            let cut = |mut bytes: Vec<u8>| {
                bytes.truncate(bits.div_ceil(8));
                bytes
            };
            write(bits, &values.iter().map(one).map(cut).collect::<Vec<_>>())
        };
        for missing in 0..=all.len() {
            let left: Vec<u32> = (0..all.len())
                .filter(|&i| i != missing)
                .map(|i| all[i])
                .collect();
            for asked in 0..2 * all.len() as u32 {
                let call = base.with(|call| {
                    call.last = packed(length, &left);
                    call.query = packed(length + 1, &[asked]);
                });
                let there = left.contains(&(asked / 2));
                assert_eq!(call.number(), if there { 0 } else { 14 });
            }
            let every: Vec<u32> = (0..2 * all.len() as u32).collect();
            let call = base.with(|call| {
                call.last = packed(length, &left);
                call.query = packed(length + 1, &every);
                call.room = 8 * every.len();
            });
            assert_eq!(call.number(), if missing == all.len() { 0 } else { 14 });
        }
    }
}

/// The products are of whole numbers: 65,535 reports and 65,538 prefixes pass 2^32.
#[test]
fn large_products() {
    let count = 65_538_u32;
    let prefixes: Vec<Vec<u8>> = (0..count)
        .map(|i| (i << 7).to_be_bytes()[1..].to_vec())
        .collect();
    let wide = write(17, &prefixes);
    let public = vec![0; 65_535 * 437];
    for (last, query) in [
        (&wide, write(18, &[vec![0; 3]])),
        (&write(16, &[vec![0; 2]]), wide.clone()),
    ] {
        for nodes in [0, 65_534, 65_535, 1 << 31] {
            let room = 1 << 20;
            let judged = judge::share_kept(18, 2, true, &public, last, &query, nodes, room);
            assert_eq!(judged, 13);
        }
    }
    let enough = 65_535 * 65_538;
    let query = write(18, &[vec![0; 3]]);
    let judged = |nodes| judge::share_kept(18, 2, true, &public, &wide, &query, nodes, 8);
    assert_eq!((judged(enough), judged(enough - 1)), (0, 13));
}
