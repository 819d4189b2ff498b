//! A server's share for a query.

use crate::expander::Expander;
use crate::field;
use crate::keys::{public_share_size, Node, Reader};
use crate::query::{bit, Query};

/// One report as one server sees it.
struct Report<'a> {
    expander: Expander,
    root: Node,
    reader: Reader<'a>,
}

impl Report<'_> {
    /// The corrected node of a prefix of 1 bit or more, before its draw, and its payload correction.
    fn corrected(&mut self, prefix: &[u8], length: usize) -> (Node, u64) {
        let parent = self.node(prefix, length - 1);
        let (correction, payload) = self.reader.read();
        let side = bit(prefix, length - 1);
        (parent.corrected(self.expander, side, &correction), payload)
    }

    /// The node of a prefix, from that of the prefix one bit shorter.
    fn node(&mut self, prefix: &[u8], length: usize) -> Node {
        if length == 0 {
            self.root
        } else {
            self.corrected(prefix, length).0.finished(self.expander)
        }
    }

    /// The share at a prefix of 1 bit or more, before the negation for server 1.
    fn value(mut self, prefix: &[u8], length: usize) -> u64 {
        let (node, correction) = self.corrected(prefix, length);
        let payload = node.payload(self.expander);
        if node.control {
            field::add(payload, correction)
        } else {
            payload
        }
    }
}

/// All lent reports: strings of n bits, the server's seeds, the public shares.
pub struct Reports<'a> {
    /// The bits of a string.
    pub n: usize,
    /// The server's root seeds, one after the other.
    pub seeds: &'a [u8],
    /// The public shares, one after the other.
    pub public_shares: &'a [u8],
}

impl Reports<'_> {
    /// The number of reports.
    pub fn count(&self) -> usize {
        self.seeds.len() / 16
    }

    /// One server's sum over all reports at one packed prefix; server is true for 1.
    pub fn sum(&self, expander: Expander, server: bool, prefix: &[u8], length: usize) -> u64 {
        let seeds = self.seeds.chunks_exact(16);
        let public_shares = self.public_shares.chunks_exact(public_share_size(self.n));
        let sum = seeds
            .zip(public_shares)
            .fold(0, |sum, (seed, public_share)| {
                let root = Node::root(server, std::array::from_fn(|i| seed[i]));
                let reader = Reader::of(self.n, public_share);
                let report = Report {
                    expander,
                    root,
                    reader,
                };
                field::add(sum, report.value(prefix, length))
            });
        if server {
            field::negate(sum)
        } else {
            sum
        }
    }

    /// One server's sum for each prefix of a query, in order.
    pub fn sums(&self, expander: Expander, server: bool, query: &Query) -> Vec<u64> {
        (0..query.count)
            .map(|i| self.sum(expander, server, query.prefix(i), query.length))
            .collect()
    }
}

#[cfg(test)]
mod tests {
    use super::*;
    use crate::chance::Chance;
    use crate::field::P;
    use crate::keys::public_share;
    use crate::query::{child, first, pack, write};

    /// Both servers' sums for a query.
    fn sums(
        e: Expander,
        n: usize,
        seeds: [&[u8]; 2],
        shares: &[u8],
        query: &[u8],
    ) -> [Vec<u64>; 2] {
        [false, true].map(|server| {
            let seeds = seeds[usize::from(server)];
            let public_shares = shares;
            let reports = Reports {
                n,
                seeds,
                public_shares,
            };
            reports.sums(e, server, &Query::of(query))
        })
    }

    /// The totals of honest reports for a query, with seeds by chance, or the same seed for both.
    fn totals(e: Expander, strings: &[Vec<bool>], query: &[u8], same: bool) -> Vec<u64> {
        let mut chance = Chance(6);
        let (mut seeds0, mut seeds1, mut shares) = (vec![], vec![], vec![]);
        for string in strings {
            let seed0 = chance.seed();
            let seed1 = if same { seed0 } else { chance.seed() };
            shares.extend(public_share(e, 1, string, seed0, seed1));
            seeds0.extend(seed0);
            seeds1.extend(seed1);
        }
        let n = strings.first().map_or(1, Vec::len);
        let [sums0, sums1] = sums(e, n, [&seeds0, &seeds1], &shares, query);
        let pairs = sums0.into_iter().zip(sums1);
        pairs.map(|(a, b)| field::add(a, b)).collect()
    }

    #[test]
    fn sheet_b_c_and_h() {
        let (e, zero, mut one) = (Expander::Classroom, [0; 16], [0; 16]);
        one[0] = 1;
        let mut share = public_share(e, 1, &[true], zero, one);
        let shares = sums(e, 1, [&zero, &one], &share, &first());
        assert_eq!(shares, [[5, 6], [P - 5, P - 5]]);
        share[17..].copy_from_slice(&field::write(P - 1));
        let shares = sums(e, 1, [&zero, &one], &share, &first());
        assert_eq!(shares, [[3, 6], [P - 3, P - 3]]);
        let share = public_share(e, 1, &[true], zero, zero);
        let [sums0, sums1] = sums(e, 1, [&zero, &zero], &share, &first());
        assert_eq!(field::add(sums0[0], sums1[0]), 0);
        assert_eq!(field::add(sums0[1], sums1[1]), 1);
    }

    #[test]
    fn sheet_d_and_g() {
        let strings = [[false, true], [false, true], [true, true]].map(Vec::from);
        let zero = pack(&[false]);
        let second = write(2, &[false, true].map(|last| child(&zero, 1, last)));
        for e in [1, 2].map(Expander::of) {
            assert_eq!(totals(e, &strings, &first(), false), [2, 1]);
            assert_eq!(totals(e, &strings, &second, false), [0, 2]);
            assert_eq!(totals(e, &[], &first(), false), [0, 0]);
        }
    }

    #[test]
    fn honest_totals_count_strings() {
        let mut chance = Chance(7);
        for n in [1, 2, 7, 8, 9, 31, 32, 255, 256] {
            let mut strings: Vec<_> = (0..6).map(|_| chance.string(n)).collect();
            strings.push(strings[0].clone());
            strings.push([&strings[0][..n / 2], &strings[1][n / 2..]].concat());
            let lengths = [1, 2, 3, 8, 9, n / 2, n - 1, n];
            for length in lengths.into_iter().filter(|l| (1..=n).contains(l)) {
                let mut asked: Vec<_> = strings.iter().map(|s| s[..length].to_vec()).collect();
                asked.extend((0..4).map(|_| chance.string(length)));
                asked.sort();
                asked.dedup();
                let packed: Vec<_> = asked.iter().map(|prefix| pack(prefix)).collect();
                let held = |prefix| strings.iter().filter(|s| s.starts_with(prefix)).count();
                let counts: Vec<_> = asked.iter().map(|prefix| held(prefix) as u64).collect();
                let query = write(length, &packed);
                for (number, same) in [(1, false), (1, true), (2, false), (2, true)] {
                    let totals = totals(Expander::of(number), &strings, &query, same);
                    assert_eq!(totals, counts);
                }
            }
        }
    }
}
