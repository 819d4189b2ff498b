//! AES-128 by the processor's own instructions, AES-NI, where it has them; the benchmark's only unsafe code.

use crate::aes::{Aes, Seed};

/// The instructions of a processor that has them; `found` alone makes a value of it.
#[derive(Clone, Copy)]
pub struct Hardware(());

#[cfg(target_arch = "x86_64")]
impl Hardware {
    /// The instructions, if this processor has them.
    pub fn found() -> Option<Hardware> {
        let both = is_x86_feature_detected!("aes") && is_x86_feature_detected!("sse2");
        both.then_some(Hardware(()))
    }
}

#[cfg(target_arch = "x86_64")]
impl Aes for Hardware {
    fn block(self, seed: &Seed, j: u64) -> Seed {
        // SAFETY: there is a `Hardware` only where `found` saw the instructions.
        unsafe { instructions::encrypt(seed, [crate::aes::counter(j)])[0] }
    }

    fn two_blocks(self, seed: &Seed, i: u64, j: u64) -> [Seed; 2] {
        // SAFETY: there is a `Hardware` only where `found` saw the instructions.
        unsafe { instructions::encrypt(seed, [i, j].map(crate::aes::counter)) }
    }
}

#[cfg(target_arch = "x86_64")]
mod instructions {
    use core::arch::x86_64::*;

    /// The round key after k, by the round constant R.
    #[target_feature(enable = "aes,sse2")]
    unsafe fn next_round_key<const R: i32>(k: __m128i) -> __m128i {
        let temp = _mm_shuffle_epi32::<0xff>(_mm_aeskeygenassist_si128::<R>(k));
        let k = _mm_xor_si128(k, _mm_slli_si128::<4>(k));
        let k = _mm_xor_si128(k, _mm_slli_si128::<8>(k));
        _mm_xor_si128(k, temp)
    }

    /// The states and the round key after one more round.
    #[target_feature(enable = "aes,sse2")]
    unsafe fn round<const R: i32, const N: usize>(
        (mut states, k): ([__m128i; N], __m128i),
    ) -> ([__m128i; N], __m128i) {
        let k = next_round_key::<R>(k);
        for s in &mut states {
            *s = _mm_aesenc_si128(*s, k);
        }
        (states, k)
    }

    /// AES-128 of some blocks, with one key schedule.
    #[target_feature(enable = "aes,sse2")]
    pub unsafe fn encrypt<const N: usize>(key: &[u8; 16], blocks: [[u8; 16]; N]) -> [[u8; 16]; N] {
        let k = _mm_loadu_si128(key.as_ptr().cast());
        let mut states = [k; N];
        for (s, block) in states.iter_mut().zip(&blocks) {
            *s = _mm_xor_si128(_mm_loadu_si128(block.as_ptr().cast()), k);
        }
        let early = round::<8, N>(round::<4, N>(round::<2, N>(round::<1, N>((states, k)))));
        let middle = round::<128, N>(round::<64, N>(round::<32, N>(round::<16, N>(early))));
        let (states, k) = round::<27, N>(middle);
        let last = next_round_key::<54>(k);
        let mut out = blocks;
        for (out, s) in out.iter_mut().zip(states) {
            _mm_storeu_si128(out.as_mut_ptr().cast(), _mm_aesenclast_si128(s, last));
        }
        out
    }
}

#[cfg(not(target_arch = "x86_64"))]
impl Hardware {
    /// Nothing: these are instructions of another kind of processor.
    pub fn found() -> Option<Hardware> {
        None
    }
}

#[cfg(not(target_arch = "x86_64"))]
impl Aes for Hardware {
    fn block(self, _: &Seed, _: u64) -> Seed {
        unreachable!("`found` finds nothing here")
    }

    fn two_blocks(self, _: &Seed, _: u64, _: u64) -> [Seed; 2] {
        unreachable!("`found` finds nothing here")
    }
}
