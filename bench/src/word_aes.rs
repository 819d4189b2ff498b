//! The quickest doubling in words of 32 bits: all four bytes at once, by masks.

use crate::words::{Doubling, Word};

/// AES with the same structs and steps, but for the doubling.
#[derive(Clone, Copy)]
pub struct DoubledAtOnce;

impl Doubling for DoubledAtOnce {
    fn doubled(Word { bits }: Word) -> Word {
        let low = bits & 0x7f7f7f7f;
        let top = (bits / 128) & 0x01010101;
        Word {
            bits: (2 * low) ^ (27 * top),
        }
    }
}
