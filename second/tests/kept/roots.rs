//! The list at the roots.

use crate::keeping::spare;
use second::{judge, roots, Node};

/// The number, which the judge must give too; nodes that are not to change must be as before.
fn number(server: bool, seeds: &[u8], lent: usize) -> u64 {
    let mut nodes: Vec<Node> = (0..lent).map(spare).collect();
    let number = roots(server, seeds, &mut nodes);
    assert_eq!(number, judge::roots(seeds, lent));
    let written = if number == 0 { seeds.len() / 16 } else { 0 };
    for (place, node) in nodes.into_iter().enumerate() {
        let wanted = if place < written {
            let mut seed = [0; 16];
            seed.copy_from_slice(&seeds[16 * place..16 * place + 16]);
            Node {
                seed,
                control: server,
            }
        } else {
            spare(place)
        };
        assert_eq!(node, wanted);
    }
    number
}

#[test]
fn lengths_and_fits() {
    let seeds: Vec<u8> = (0..65).collect();
    for server in [false, true] {
        for length in 0..=seeds.len() {
            for lent in 0..=6 {
                let wanted = match length {
                    _ if length % 16 != 0 => 4,
                    _ if lent < length / 16 => 13,
                    _ => 0,
                };
                assert_eq!(number(server, &seeds[..length], lent), wanted);
            }
        }
    }
}

#[test]
fn the_most_seeds() {
    let seeds = vec![5; 16 * 65_537];
    for (length, lent, wanted) in [
        (16 * 65_535, 65_534, 13),
        (16 * 65_535, 65_535, 0),
        (16 * 65_535, 65_537, 0),
        (16 * 65_535 + 1, 65_537, 4),
        (16 * 65_536, 65_536, 5),
        (16 * 65_536, 65_535, 5),
        (16 * 65_536, 0, 5),
        (16 * 65_536 - 1, 0, 4),
        (16 * 65_536 + 15, 65_537, 4),
        (16 * 65_537, 65_537, 5),
    ] {
        assert_eq!(number(true, &seeds[..length], lent), wanted);
    }
}
