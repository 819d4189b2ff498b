//! Fixed calls of the share from kept nodes, each with the number and length it must give.

use crate::kept_call::{Call, Made};
use compare::kept::any_nodes;
use compare::make::{pass_six_and_seven, set_payload};
use second::field::P;
use second::keys::public_share_size;
use second::query::{first, write};
use second::rng::Rng;

/// What takes each call: its name, what it must give, the call.
pub type Take<'a> = &'a mut dyn FnMut(&'static str, &[u64], Call) -> Made;

/// Hands over every fixed call.
pub fn each(take: Take) {
    for (expander, server) in [(1, false), (1, true), (2, false), (2, true)] {
        let right = right(expander, server);
        causes(take, &right);
        fits(take, &right);
        at_the_roots(take, &right);
        no_reports(take, &right);
    }
}

/// A query of prefixes in one byte each.
pub fn short(length: usize, prefixes: &[u8]) -> Vec<u8> {
    let prefixes: Vec<Vec<u8>> = prefixes.iter().map(|prefix| vec![*prefix]).collect();
    write(length, &prefixes)
}

/// Random public shares that pass 6 and 7.
pub fn any_public(rng: &mut Rng, n: usize, count: usize) -> Vec<u8> {
    let mut public = rng.bytes(count * public_share_size(n));
    pass_six_and_seven(&mut public, n);
    public
}

/// Two reports of three bits, the last query `00`, `01`, `11`, the new `000`, `010`, `011`, `110`.
pub fn right(expander: u64, server: bool) -> Call {
    let mut rng = Rng::new(1);
    Call {
        n: 3,
        expander,
        server,
        public: any_public(&mut rng, 3, 2),
        last: short(2, &[0x00, 0x40, 0xc0]),
        query: short(3, &[0x00, 0x40, 0x60, 0xc0]),
        nodes: any_nodes(&mut rng, 8),
        room: 32,
    }
}

/// A cause's number and a change that brings it about.
type Cause = (u64, fn(&mut Call));

/// Changes of the right call in the order of their causes; none takes another cause's away.
const CAUSES: [Cause; 22] = [
    (1, |call| call.n = 0),
    (1, |call| call.n = 257),
    (1, |call| call.n = u64::MAX),
    (3, |call| call.expander = 0),
    (3, |call| call.expander = 3),
    (4, |call| call.public.push(0)),
    (4, |call| call.public.truncate(call.public.len() - 1)),
    (5, |call| call.public = call.public[..73].repeat(65_536)),
    (6, |call| {
        set_payload(&mut Rng::new(2), &mut call.public, 3, P)
    }),
    (6, |call| call.public[138..146].fill(0xff)),
    (7, |call| call.public[0] |= 0x40),
    (7, |call| call.public[73] |= 0x80),
    (9, |call| call.last.push(0)),
    (9, |call| call.last.truncate(5)),
    (9, |call| call.last[1] = 3),
    (9, |call| call.query[5] = 5),
    (9, |call| call.query.clear()),
    (13, |call| call.nodes.truncate(7)),
    (13, |call| call.nodes.clear()),
    (14, |call| call.last[7] = 0x80),
    (11, |call| call.room = 31),
    (11, |call| call.room = 0),
];

/// Each cause alone, each with each later one, and each with all later ones.
fn causes(take: Take, right: &Call) {
    take("no cause", &[0, 32], right.clone());
    for (i, (number, change)) in CAUSES.into_iter().enumerate() {
        let wanted = [number, 0];
        take("each cause", &wanted, right.with(change));
        // Pairs with so many reports are made once.
        if number == 5 && (right.expander, right.server) != (2, true) {
            continue;
        }
        for (_, later) in CAUSES[i..].iter().filter(|(other, _)| *other != number) {
            let both = right.with(|call| {
                later(call);
                change(call);
            });
            take("each two causes", &wanted, both);
        }
    }
    // Of each cause the last change, and then the first.
    for turn in [0, 1] {
        let mut call = right.clone();
        let alike = CAUSES.chunk_by(|(one, _), (next, _)| one == next);
        for same in alike.rev() {
            let (number, change) = if turn == 0 {
                same[same.len() - 1]
            } else {
                same[0]
            };
            change(&mut call);
            take("each cause with all later ones", &[number, 0], call.clone());
        }
    }
}

/// Lists and spaces of every size around the fit, with more and with fewer prefixes than the last.
fn fits(take: Take, right: &Call) {
    let more = any_nodes(&mut Rng::new(3), 12);
    for (query, needed, fit) in [
        (right.query.clone(), 8, 32),
        (short(3, &[0x20, 0x40, 0x60]), 6, 24),
        (short(3, &[0x40, 0xe0]), 6, 16),
        (short(3, &[0x60]), 6, 8),
    ] {
        for lent in 0..=12 {
            for room in [0, fit - 8, fit - 1, fit, fit + 1, fit + 9] {
                let wanted = match (lent, room) {
                    _ if lent < needed => [13, 0],
                    _ if room < fit => [11, 0],
                    _ => [0, fit as u64],
                };
                let call = right.with(|call| {
                    call.query.clone_from(&query);
                    call.nodes = more[..lent].to_vec();
                    call.room = room;
                });
                take("nodes and space around the fit", &wanted, call);
            }
        }
    }
}

/// The last query as no bytes.
fn at_the_roots(take: Take, right: &Call) {
    let name = "no bytes as last query";
    let roots = right.with(|call| call.last.clear());
    take(name, &[14, 0], roots.clone());
    take(name, &[9, 0], roots.with(|call| call.query.clear()));
    for (prefixes, needed, fit) in [(&[0x00, 0x80][..], 4, 16), (&[0x00], 2, 8), (&[0x80], 2, 8)] {
        for lent in 0..=6 {
            for room in [0, fit - 1, fit, fit + 7] {
                let wanted = match (lent, room) {
                    _ if lent < needed => [13, 0],
                    _ if room < fit => [11, 0],
                    _ => [0, fit as u64],
                };
                let call = roots.with(|call| {
                    call.query = short(1, prefixes);
                    call.nodes.truncate(lent);
                    call.room = room;
                });
                take(name, &wanted, call);
            }
        }
    }
}

/// With no reports no node is needed, and the share is all zeros.
fn no_reports(take: Take, right: &Call) {
    for lent in [0, 1, 8] {
        let none = right.with(|call| {
            call.public.clear();
            call.nodes.truncate(lent);
        });
        let name = "no reports";
        take(name, &[0, 32], none.clone());
        take(name, &[11, 0], none.with(|call| call.room = 31));
        take(name, &[14, 0], none.with(|call| call.last[7] = 0x80));
        take(name, &[14, 0], none.with(|call| call.last.clear()));
        take(name, &[9, 0], none.with(|call| call.last.truncate(8)));
        take(name, &[9, 0], none.with(|call| call.query.clear()));
        let first = none.with(|call| (call.last, call.query) = (Vec::new(), first()));
        take(name, &[0, 16], first);
    }
}
