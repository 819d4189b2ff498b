//! The two expanders, which turn a seed and a number into a block.

use crate::aes;

/// One of the two expanders.
#[derive(Clone, Copy, Debug, PartialEq, Eq)]
pub enum Expander {
    /// Expander 1: AES-128 with the seed as key.
    Aes,
    /// Expander 2: the classroom's, which hides nothing.
    Classroom,
}

impl Expander {
    /// The expander of a number, 1 or 2.
    pub fn of(number: u64) -> Expander {
        match number {
            1 => Expander::Aes,
            2 => Expander::Classroom,
            _ => unreachable!(),
        }
    }

    /// Block j of a seed.
    pub fn block(self, seed: &[u8; 16], j: u64) -> [u8; 16] {
        match self {
            Expander::Aes => aes::encrypt(seed, &u128::from(j).to_be_bytes()),
            Expander::Classroom => classroom(seed, j),
        }
    }
}

/// Block j of a seed by the classroom expander.
fn classroom(seed: &[u8; 16], j: u64) -> [u8; 16] {
    let words = u128::from_le_bytes(*seed);
    let (a, b) = (words as u64, (words >> 64) as u64);
    let first = a.wrapping_add(j).wrapping_add(1);
    let second = b.wrapping_add(first);
    (u128::from(first) | u128::from(second) << 64).to_le_bytes()
}

#[cfg(test)]
mod tests {
    use super::*;

    #[test]
    fn numbers() {
        assert_eq!(Expander::of(1), Expander::Aes);
        assert_eq!(Expander::of(2), Expander::Classroom);
    }

    #[test]
    fn aes_counts_in_the_last_bytes() {
        let seed = [7; 16];
        let mut counter = [0; 16];
        counter[14..].copy_from_slice(&[1, 3]);
        assert_eq!(
            Expander::Aes.block(&seed, 259),
            aes::encrypt(&seed, &counter)
        );
    }

    #[test]
    fn aes_of_the_zero_seed() {
        let block = 0x66e94bd4ef8a2c3b884cfa59ca342b2eu128.to_be_bytes();
        assert_eq!(Expander::Aes.block(&[0; 16], 0), block);
        let block = 0x58e2fccefa7e3061367f1d57a4e7455au128.to_be_bytes();
        assert_eq!(Expander::Aes.block(&[0; 16], 1), block);
    }

    #[test]
    fn classroom_words_wrap() {
        let block = Expander::Classroom.block(&[0; 16], 3);
        assert_eq!(block, [4, 0, 0, 0, 0, 0, 0, 0, 4, 0, 0, 0, 0, 0, 0, 0]);
        let block = Expander::Classroom.block(&[255; 16], 2);
        assert_eq!(block, [2, 0, 0, 0, 0, 0, 0, 0, 1, 0, 0, 0, 0, 0, 0, 0]);
        let seed = [0, 1, 0, 0, 0, 0, 0, 0, 0, 0, 2, 0, 0, 0, 0, 0];
        let block = Expander::Classroom.block(&seed, u64::MAX);
        assert_eq!(block, [0, 1, 0, 0, 0, 0, 0, 0, 0, 1, 2, 0, 0, 0, 0, 0]);
    }
}
