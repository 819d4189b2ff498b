//! Random bytes, lengths and numbers, and honest inputs changed at random.

use compare::make::{any_number, seed};
use second::rng::Rng;

/// A length: the right one, or any from 0 to a few hundred, or now and then a large one.
pub fn length(rng: &mut Rng, right: usize) -> usize {
    let (small, any, large) = (rng.below(20), rng.below(400), rng.below(80_000));
    if rng.below(300) == 0 {
        return large;
    }
    rng.pick(&[right, right, right, right, right + 1, small, any])
}

/// Random bytes of a length as above.
pub fn bytes(rng: &mut Rng, right: usize) -> Vec<u8> {
    let length = length(rng, right);
    rng.bytes(length)
}

/// Honest bytes, mostly left alone, else changed, cut, lengthened or drawn anew.
pub fn perhaps(rng: &mut Rng, honest: &[u8]) -> Vec<u8> {
    let mut made = honest.to_vec();
    match rng.below(24) {
        0 => made = bytes(rng, honest.len()),
        1 => made.truncate(rng.below(honest.len() + 1)),
        2 => {
            let more = bytes(rng, 1);
            made.extend(more);
        }
        3 => made.extend_from_slice(honest),
        4..=6 if !made.is_empty() => {
            for _ in 0..1 + rng.below(4) {
                let at = rng.below(made.len());
                made[at] = rng.number() as u8;
            }
        }
        7 if !made.is_empty() => {
            let at = rng.below(made.len());
            made[at] ^= 1 << rng.below(8);
        }
        8 if made.len() >= 8 => {
            // Group numbers are too large where eight bytes are all ones.
            let at = rng.below(made.len() - 7);
            made[at..at + 8].fill(0xff);
        }
        _ => {}
    }
    made
}

/// A number, mostly the right one.
pub fn number(rng: &mut Rng, right: u64) -> u64 {
    let any = any_number(rng);
    if rng.below(16) == 0 {
        any
    } else {
        right
    }
}

/// The seeds of so many reports, one after the other.
pub fn seeds(rng: &mut Rng, count: usize) -> Vec<u8> {
    (0..count).flat_map(|_| seed(rng)).collect()
}
