//! Whole searches by kept nodes, weighted and not, against the walk from the root and the search.

use crate::keeping::{Keeper, Reports};
use second::brute::{weighted_answer, Weighed};
use second::keys::public_share_size;
use second::query::{first, pack};
use second::rng::Rng;
use second::{combine, key, search, share_kept};

/// Honest reports of these strings and weights.
fn honest(rng: &mut Rng, n: usize, expander: u64, weighed: &[Weighed]) -> Reports {
    let seeds = [rng.bytes(16 * weighed.len()), rng.bytes(16 * weighed.len())];
    let mut public = vec![];
    for (i, (string, weight)) in weighed.iter().enumerate() {
        let [s0, s1] = seeds.each_ref().map(|seeds| &seeds[16 * i..16 * i + 16]);
        let mut one = vec![0; public_share_size(n)];
        let made = key(n as u64, expander, *weight, &pack(string), s0, s1, &mut one);
        assert_eq!(made.number, 0);
        public.extend(one);
    }
    Reports {
        n,
        expander,
        seeds,
        public,
    }
}

/// The record and the list of the whole search.
fn searched(of: &Reports, weighted: bool, t: u64) -> (Vec<u8>, Vec<u8>) {
    let (mut record, mut list) = (vec![0; 1 << 16], vec![0; 1 << 12]);
    let found = search(
        of.n as u64,
        weighted,
        t,
        of.expander,
        &of.seeds[0],
        &of.public,
        &of.seeds[1],
        &of.public,
        &mut record,
        &mut list,
    );
    assert_eq!(found.number, 0);
    record.truncate(found.record_length as usize);
    list.truncate(found.list_length as usize);
    (record, list)
}

/// Calls of a list of nodes that must be refused and leave everything.
fn refused_between(keeper: &mut Keeper, query: &[u8]) {
    let nodes = keeper.nodes.clone();
    let mut out = vec![0xee; 2 * query.len() + 16];
    let whole = (&keeper.last.clone()[..], query);
    for (number, n, last, query, room) in [
        (1, 0, whole.0, whole.1, out.len()),
        (9, keeper.of.n, &whole.1[..5], whole.1, out.len()),
        (9, keeper.of.n, whole.0, &whole.1[1..], out.len()),
        (14, keeper.of.n, whole.1, whole.1, out.len()),
        (11, keeper.of.n, whole.0, whole.1, 7),
    ] {
        let made = share_kept(
            n as u64,
            keeper.of.expander,
            keeper.server,
            &keeper.of.public,
            last,
            query,
            &mut keeper.nodes,
            &mut out[..room],
        );
        assert_eq!((made.number, made.length), (number, 0));
        assert_eq!(keeper.nodes, nodes);
    }
    assert!(out.iter().all(|byte| *byte == 0xee));
}

/// The record and the list of a search whose shares come from kept nodes; refused calls between
/// must not show, and every share must be that of the walk from the root.
fn kept_search(of: &Reports, weighted: bool, t: u64) -> (Vec<u8>, Vec<u8>) {
    let lent = of.count().max(1) * 64;
    let mut keepers = [false, true].map(|server| Keeper::new(of, server, lent));
    let (mut query, mut record) = (first(), (of.count() as u64).to_be_bytes().to_vec());
    loop {
        let [share0, share1] = keepers.each_mut().map(|keeper| {
            refused_between(keeper, &query);
            let share = keeper.share(&query);
            assert_eq!(share, of.walked(keeper.server, &query));
            share
        });
        record.extend(&query);
        for (a, b) in share0.chunks(8).zip(share1.chunks(8)) {
            let [a, b] = [a, b].map(second::field::read);
            record.extend(second::field::write(second::field::add(a, b)));
        }
        let mut out = vec![0; 1 << 12];
        let n = of.n as u64;
        let made = combine(n, weighted, t, &query, &share0, &share1, &mut out);
        assert_eq!(made.number, 0);
        out.truncate(made.length as usize);
        match made.kind {
            1 => query = out,
            2 => return (record, out),
            _ => return (record, vec![]),
        }
    }
}

/// Strings with many in common and their weights.
fn weighed(rng: &mut Rng, n: usize, count: usize, weights: &[i16]) -> Vec<Weighed> {
    let mut all: Vec<Weighed> = vec![];
    for i in 0..count {
        let mut string = rng.bits(n);
        if i > 0 && rng.below(4) != 0 {
            string = all[rng.below(i)].0.clone();
            for bit in string.iter_mut().skip(rng.below(2 * n)) {
                *bit = rng.coin();
            }
        }
        all.push((string, rng.pick(weights)));
    }
    all
}

#[test]
fn unweighted_searches() {
    let mut rng = Rng::new(31);
    let mut listed = 0;
    for expander in [1, 2] {
        for n in [1, 2, 3, 7, 8, 9, 15, 16, 17] {
            for count in [0, 1, 2, 5, 9] {
                for t in [1, 2, 3] {
                    let weighed = weighed(&mut rng, n, count, &[1]);
                    let of = honest(&mut rng, n, expander, &weighed);
                    let answer = kept_search(&of, false, t);
                    assert_eq!(answer, searched(&of, false, t));
                    assert_eq!(answer, weighted_answer(&weighed, n, t));
                    listed += answer.1.len();
                }
            }
        }
    }
    assert!(listed > 100, "{listed}");
}

#[test]
fn weighted_searches() {
    let mut rng = Rng::new(32);
    let (mut listed, mut ended) = (0, 0);
    for expander in [1, 2] {
        for n in [1, 2, 3, 8, 9, 17] {
            for weights in [&[-2, -1, 0, 1, 2, 3][..], &[-32_768, 0, 1, 32_767, 32_767]] {
                for (count, t) in [(0, 1), (1, 1), (4, 2), (9, 1), (9, 3), (9, 32_768)] {
                    let weighed = weighed(&mut rng, n, count, weights);
                    let of = honest(&mut rng, n, expander, &weighed);
                    let answer = kept_search(&of, true, t);
                    assert_eq!(answer, searched(&of, true, t));
                    assert_eq!(answer, weighted_answer(&weighed, n, t));
                    listed += answer.1.len();
                    ended += usize::from(answer.1.is_empty());
                }
            }
        }
    }
    assert!(listed > 20 && ended > 20, "{listed} {ended}");
}

/// Example D by kept nodes.
#[test]
fn example_d() {
    let mut rng = Rng::new(33);
    let strings = [[false, true], [false, true], [true, true]];
    let weighed = strings.map(|string| (string.to_vec(), 1));
    for expander in [1, 2] {
        let of = honest(&mut rng, 2, expander, &weighed);
        let (record, list) = kept_search(&of, false, 2);
        assert_eq!((record.len(), &list[..]), (56, &[0x40][..]));
        assert_eq!(record[..8], [0, 0, 0, 0, 0, 0, 0, 3]);
        assert_eq!(record[8..16], first());
        let totals = |at: usize| [at, at + 8].map(|at| record[at]);
        assert_eq!([totals(16), totals(40)], [[2, 1], [0, 2]]);
    }
}
