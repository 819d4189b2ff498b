//! Fixed calls of the share from kept nodes about its two queries: lengths, parents, damaged bytes.

use crate::kept_call::Call;
use crate::kept_cases::{any_public, right, Take};
use compare::kept::any_nodes;
use second::judge;
use second::query::{packed_size, write};
use second::rng::Rng;

/// Hands over every fixed call.
pub fn each(take: Take) {
    lengths(take);
    parents(take);
    for at_the_roots in [false, true] {
        damaged(take, at_the_roots);
    }
}

/// A call of one report of so many bits, with queries still to come.
fn base(n: usize) -> Call {
    let mut rng = Rng::new(5);
    Call {
        n: n as u64,
        expander: 2,
        server: true,
        public: any_public(&mut rng, n, 1),
        last: Vec::new(),
        query: Vec::new(),
        nodes: any_nodes(&mut rng, 20),
        room: 200,
    }
}

/// The query of these numbers, each the last bits of a prefix of so many; of none it is no bytes.
fn numbered(length: usize, numbers: &[u32]) -> Vec<u8> {
    if length == 0 {
        return Vec::new();
    }
    let size = packed_size(length);
    let one = |number: &u32| {
        let mut prefix = vec![0; size];
        for bit in (0..length.min(32)).filter(|bit| number >> bit & 1 == 1) {
            let at = length - 1 - bit;
            prefix[at / 8] |= 0x80 >> (at % 8);
        }
        prefix
    };
    write(length, &numbers.iter().map(one).collect::<Vec<_>>())
}

/// Every two lengths of short strings and of the longest; only one more gives a share.
fn lengths(take: Take) {
    for n in [1, 2, 9, 17, 256] {
        let base = base(n);
        let all = (0..=n).filter(|length| n < 20 || length % 51 <= 1 || *length > 253);
        let all: Vec<usize> = all.collect();
        for &last in &all {
            for new in all.iter().copied().filter(|new| *new > 0) {
                let wanted = if new == last + 1 { [0, 8] } else { [14, 0] };
                let call = base.with(|call| {
                    call.last = numbered(last, &[0]);
                    call.query = numbered(new, &[0]);
                });
                take("lengths of the last and the new query", &wanted, call);
            }
        }
        // The last query may be of n bits, but nothing can stand below it.
        let call = base.with(|call| {
            call.last = numbered(n, &[1]);
            call.query = numbered(n + 1, &[2]);
        });
        take("a query longer than n", &[9, 0], call.clone());
        let turned = call.with(|call| std::mem::swap(&mut call.last, &mut call.query));
        take("a last query longer than n", &[9, 0], turned);
    }
}

/// A parent missing at each place of the last query, for each child alone and for all.
fn parents(take: Take) {
    for length in [1, 2, 3, 7, 8, 9, 15, 16, 17, 31, 32, 33, 63, 64, 65, 255] {
        let base = base(256);
        let all: Vec<u32> = (0..1 << length.min(3)).collect();
        let children: Vec<u32> = (0..2 * all.len() as u32).collect();
        for missing in 0..=all.len() {
            let mut left = all.clone();
            if missing < left.len() {
                left.remove(missing);
            }
            let mut ask = |name, asked: &[u32]| {
                let there = asked.iter().all(|child| left.contains(&(child / 2)));
                let wanted = if there {
                    [0, 8 * asked.len() as u64]
                } else {
                    [14, 0]
                };
                let call = base.with(|call| {
                    call.last = numbered(length, &left);
                    call.query = numbered(length + 1, asked);
                });
                take(name, &wanted, call);
            };
            ask("all children, one parent missing", &children);
            for &child in &children {
                ask("one child, one parent missing", &[child]);
            }
            for i in 0..children.len() {
                ask("some children, one parent missing", &children[i..]);
                ask("some children, one parent missing", &children[..=i]);
            }
        }
    }
}

/// Each byte of either query replaced by every value, each dropped, one put in at each place, and
/// each query cut at every length.
fn damaged(take: Take, at_the_roots: bool) {
    let right = right(2, false).with(|call| {
        if at_the_roots {
            call.last.clear();
            call.query = second::query::first();
        }
    });
    for of_last in [true, false] {
        let bytes = if of_last { &right.last } else { &right.query };
        let mut damages = Vec::new();
        for at in 0..bytes.len() {
            for value in 0..=255 {
                let mut other = bytes.clone();
                other[at] = value;
                damages.push(other);
            }
            let mut less = bytes.clone();
            less.remove(at);
            damages.push(less);
            damages.push(bytes[..at].to_vec());
        }
        for at in 0..=bytes.len() {
            for value in [0x00, 0x01, 0x02, 0x40, 0x80, 0xc0, 0xff] {
                let mut more = bytes.clone();
                more.insert(at, value);
                damages.push(more);
            }
        }
        for other in damages {
            let laid_out = judge::query_as_laid_out(3, &other) || of_last && other.is_empty();
            let call = right.with(|call| {
                let place = if of_last {
                    &mut call.last
                } else {
                    &mut call.query
                };
                *place = other;
            });
            let name = match (of_last, laid_out) {
                (true, false) => "a last query that is none",
                (true, true) => "another last query",
                (false, false) => "a query that is none",
                (false, true) => "another query",
            };
            let wanted: &[u64] = if laid_out { &[] } else { &[9, 0] };
            take(name, wanted, call);
        }
    }
}
