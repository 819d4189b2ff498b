//! Shares and nodes worked out by hand, and fixed lists at the roots.

use crate::kept_call::{compare, compare_roots, Call};
use crate::kept_cases::short;
use compare::kept::any_nodes;
use compare::tally::{Plan, Tally};
use second::field::P;
use second::query::first;
use second::rng::Rng;
use second::Node;

/// A node of a seed of two words, least significant byte first.
fn node(a: u64, b: u64, control: bool) -> Node {
    let words = u128::from(a) | u128::from(b) << 64;
    Node {
        seed: words.to_le_bytes(),
        control,
    }
}

/// Nodes and shares worked out by hand: A to C of the sheet, and two levels of another report.
pub fn known(rng: &mut Rng, tally: &mut Tally) {
    let mut sheet = vec![0; 25];
    (sheet[0], sheet[1], sheet[9], sheet[17]) = (1, 2, 3, 1);
    // Level 1: all corrections 0. Level 2: seed correction (8, 0), left bit 1, payload 100.
    let mut two = vec![0; 49];
    (two[0], two[25], two[41]) = (0x04, 8, 100);
    let (one, ends) = (first(), short(2, &[0x00, 0x80]));
    let (at0, at1) = (node(3, 4, true), node(5, 7, false));
    for (server, public, last, query, before, share, after) in [
        (
            false,
            &sheet,
            &[][..],
            &one,
            [node(0, 0, false); 2],
            [5, 6],
            [at0, at1],
        ),
        (
            true,
            &sheet,
            &[],
            &one,
            [node(1, 0, true); 2],
            [P - 5, P - 5],
            [at0, node(3, 3, true)],
        ),
        (
            false,
            &two,
            &[],
            &one,
            [node(0, 0, false); 2],
            [4, 6],
            [at0, at1],
        ),
        (
            false,
            &two,
            &one,
            &ends,
            [at0, at1],
            [116, 10],
            [node(15, 23, true), node(9, 22, false)],
        ),
        (
            true,
            &two,
            &one,
            &ends,
            [at0, at1],
            [P - 116, P - 10],
            [node(15, 23, true), node(9, 22, false)],
        ),
    ] {
        let call = Call {
            n: public.len() as u64 / 24,
            expander: 2,
            server,
            public: public.clone(),
            last: last.to_vec(),
            query: query.clone(),
            nodes: before.to_vec(),
            room: 16,
        };
        let made = compare(rng, &Plan::fixed("known nodes", &[0, 16]), &call, tally);
        let wanted: Vec<u8> = share.into_iter().flat_map(u64::to_le_bytes).collect();
        if made.share != wanted || made.nodes != after {
            tally.fault("share kept: not the share and nodes worked out by hand");
        }
    }
}

/// Lists at the roots of every length around the fit, and of the most seeds.
pub fn each_roots(tally: &mut Tally) {
    let mut rng = Rng::new(4);
    let seeds = rng.bytes(16 * 65_537);
    let mut take = |name, number, length: usize, lent: usize| {
        for server in [false, true] {
            let nodes = any_nodes(&mut rng, lent);
            let plan = Plan::fixed(name, &[number]);
            let left = compare_roots(&plan, server, &seeds[..length], &nodes, tally);
            let written = if number == 0 { length / 16 } else { 0 };
            let right = left.iter().enumerate().all(|(i, node)| {
                if i >= written {
                    return *node == nodes[i];
                }
                node.seed == seeds[16 * i..16 * i + 16] && node.control == server
            });
            if !right || left.len() != lent {
                tally.fault("roots: not each seed with the server's bit and the rest as before");
            }
        }
    };
    for length in 0..=65 {
        for lent in 0..=6 {
            let number = match length {
                _ if length % 16 != 0 => 4,
                _ if lent < length / 16 => 13,
                _ => 0,
            };
            take("seeds and nodes around the fit", number, length, lent);
        }
    }
    let most = 65_535;
    for (number, length, lent) in [
        (0, 16 * most, most),
        (0, 16 * most, most + 2),
        (13, 16 * most, most - 1),
        (13, 16 * most, 0),
        (4, 16 * most + 1, most + 1),
        (4, 16 * most - 1, 0),
        (5, 16 * most + 16, most + 1),
        (5, 16 * most + 16, most),
        (5, 16 * most + 32, 0),
        (4, 16 * most + 31, 0),
    ] {
        take("the most seeds", number, length, lent);
    }
}
