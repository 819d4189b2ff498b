//! The key maker, with the nodes and the reader of public shares that the servers use too.

use crate::expander::Expander;
use crate::field;

/// A seed.
pub type Seed = [u8; 16];

/// The bytes of one level's seed correction and payload correction.
const LEVEL: usize = 24;

/// The bytes of the control bits of a public share, two bits a level.
pub fn head_size(n: usize) -> usize {
    n.div_ceil(4)
}

/// The bytes of a public share.
pub fn public_share_size(n: usize) -> usize {
    head_size(n) + LEVEL * n
}

/// The seed and control bit that a server has at one prefix.
#[derive(Clone, Copy, Debug, PartialEq, Eq)]
pub struct Node {
    pub seed: Seed,
    pub control: bool,
}

/// The seed correction and the left and right bit correction of one level.
pub(crate) struct Correction {
    pub seed: Seed,
    pub controls: [bool; 2],
}

/// The XOR of two seeds.
fn xor(a: &Seed, b: &Seed) -> Seed {
    std::array::from_fn(|i| a[i] ^ b[i])
}

impl Node {
    /// The node of the empty prefix, for one server.
    pub fn root(server: bool, seed: Seed) -> Node {
        let control = server;
        Node { seed, control }
    }

    /// The child on one side, true for right, before correction.
    fn child(self, expander: Expander, side: bool) -> Node {
        let mut seed = expander.block(&self.seed, u64::from(side));
        let control = seed[0] & 1 == 1;
        seed[0] &= 0xfe;
        Node { seed, control }
    }

    /// The child on one side, after correction.
    pub(crate) fn corrected(self, expander: Expander, side: bool, correction: &Correction) -> Node {
        let mut child = self.child(expander, side);
        if self.control {
            child.seed = xor(&child.seed, &correction.seed);
            child.control ^= correction.controls[usize::from(side)];
        }
        child
    }

    /// The draw of a corrected node: the node with its final seed.
    pub fn finished(self, expander: Expander) -> Node {
        let seed = expander.block(&self.seed, 2);
        Node { seed, ..self }
    }

    /// The draw of a corrected node: its payload W.
    pub fn payload(self, expander: Expander) -> u64 {
        field::reduce(field::read(&expander.block(&self.seed, 3)[..8]))
    }
}

/// The corrections of the level below two nodes, for the string's bit there.
fn correct(expander: Expander, nodes: [Node; 2], bit: bool) -> Correction {
    let left = nodes.map(|node| node.child(expander, false));
    let right = nodes.map(|node| node.child(expander, true));
    let lose = if bit { &left } else { &right };
    Correction {
        seed: xor(&lose[0].seed, &lose[1].seed),
        controls: [
            left[0].control ^ left[1].control ^ bit ^ true,
            right[0].control ^ right[1].control ^ bit,
        ],
    }
}

/// The payload correction at two corrected nodes, for a weight.
fn correct_payload(expander: Expander, nodes: [Node; 2], weight: i16) -> u64 {
    let [w0, w1] = nodes.map(|node| node.payload(expander));
    let weight = field::of_weight(weight);
    let payload = field::add(field::add(weight, field::negate(w0)), w1);
    if nodes[1].control {
        field::negate(payload)
    } else {
        payload
    }
}

/// The public share of a report for a weight, a string and two root seeds.
pub fn public_share(
    expander: Expander,
    weight: i16,
    string: &[bool],
    seed0: Seed,
    seed1: Seed,
) -> Vec<u8> {
    let mut share = Vec::with_capacity(public_share_size(string.len()));
    share.resize(head_size(string.len()), 0);
    let mut nodes = [Node::root(false, seed0), Node::root(true, seed1)];
    for (level, &bit) in string.iter().enumerate() {
        let correction = correct(expander, nodes, bit);
        nodes = nodes.map(|node| node.corrected(expander, bit, &correction));
        let [left, right] = correction.controls.map(u8::from);
        share[level / 4] |= (left | right << 1) << (2 * (level % 4));
        share.extend(correction.seed);
        share.extend(field::write(correct_payload(expander, nodes, weight)));
        nodes = nodes.map(|node| node.finished(expander));
    }
    share
}

/// A reader that walks one lent public share level by level.
pub(crate) struct Reader<'a> {
    head: &'a [u8],
    levels: &'a [u8],
    next: usize,
}

impl<'a> Reader<'a> {
    /// A reader before the first level of a public share for strings of n bits.
    pub fn of(n: usize, public_share: &'a [u8]) -> Reader<'a> {
        let (head, levels) = public_share.split_at(head_size(n));
        Reader {
            head,
            levels,
            next: 0,
        }
    }

    /// The same reader before the level below prefixes of so many bits.
    pub fn below(self, length: usize) -> Reader<'a> {
        Reader {
            next: length,
            ..self
        }
    }

    /// The next level's corrections, its payload correction last.
    pub fn read(&mut self) -> (Correction, u64) {
        let controls = self.head[self.next / 4] >> (2 * (self.next % 4));
        let level = &self.levels[LEVEL * self.next..LEVEL * (self.next + 1)];
        self.next += 1;
        let correction = Correction {
            seed: std::array::from_fn(|i| level[i]),
            controls: [controls & 1 == 1, controls >> 1 & 1 == 1],
        };
        (correction, field::read(&level[16..]))
    }
}

#[cfg(test)]
mod tests {
    use super::*;
    use crate::chance::Chance;

    #[test]
    fn sizes() {
        let rows = [(1, 1), (4, 1), (5, 2), (9, 3), (255, 64), (256, 64)];
        for (n, head) in rows {
            assert_eq!(head_size(n), head);
            assert_eq!(public_share_size(n), head + 24 * n);
        }
    }

    #[test]
    fn sheet_a() {
        let mut seed1 = [0; 16];
        seed1[0] = 1;
        let share = public_share(Expander::Classroom, 1, &[true], [0; 16], seed1);
        let mut expected = vec![0; 25];
        (expected[0], expected[1], expected[9], expected[17]) = (1, 2, 3, 1);
        assert_eq!(share, expected);
    }

    #[test]
    fn a_payload_is_below_p() {
        let node = Node::root(false, [255; 16]);
        assert_eq!(node.payload(Expander::Classroom), 3);
        let mut seed = [255; 16];
        seed[0] = 251;
        let node = Node::root(false, seed);
        assert_eq!(node.payload(Expander::Classroom), u64::MAX - field::P);
    }

    #[test]
    fn sheet_a_with_weights() {
        let mut seed1 = [0; 16];
        seed1[0] = 1;
        // In A the payloads are 6 and 4 and the new t1 is 1: the correction is 2 less the weight.
        for (weight, payload) in [
            (-32_768, 32_770),
            (-1, 3),
            (0, 2),
            (1, 1),
            (2, 0),
            (3, field::P - 1),
            (32_767, field::P - 32_765),
        ] {
            let share = public_share(Expander::Classroom, weight, &[true], [0; 16], seed1);
            let plain = public_share(Expander::Classroom, 1, &[true], [0; 16], seed1);
            assert_eq!(share[..17], plain[..17]);
            assert_eq!(field::read(&share[17..]), payload);
        }
    }

    #[test]
    fn shares_have_their_size_and_no_spare_bits() {
        let mut chance = Chance(5);
        for n in 1..=256 {
            let string = chance.string(n);
            let (weight, seed0, seed1) = (chance.number() as i16, chance.seed(), chance.seed());
            let share = public_share(Expander::Classroom, weight, &string, seed0, seed1);
            assert_eq!(share.len(), public_share_size(n));
            assert!((2 * n..8 * head_size(n)).all(|i| share[i / 8] >> (i % 8) & 1 == 0));
            let levels = share[head_size(n)..].chunks_exact(LEVEL);
            for level in levels {
                assert!(level[0] & 1 == 0 && field::read(&level[16..]) < field::P);
            }
        }
    }
}
