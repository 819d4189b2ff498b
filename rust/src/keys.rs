//! Blocks of a seed, and the keys of installations.

use crate::{accepted, public_share_length, written, Expander, Refusal, Seed};

/// Block `j` of a seed.
///
/// ```
/// use tally::{block, Expander, Refusal};
///
/// // The first word is a + j + 1, and the second is b plus that.
/// let mut expected = [0; 16];
/// (expected[0], expected[8]) = (4, 4);
/// assert_eq!(block(Expander::Classroom, &[0; 16], 3)?, expected);
/// # Ok::<(), Refusal>(())
/// ```
///
/// # Errors
///
/// Its arguments are such that no [`Refusal`] applies.
pub fn block(expander: Expander, seed: &Seed, j: u64) -> Result<[u8; 16], Refusal> {
    let mut bytes = [0; 16];
    block_into(expander, seed, j, &mut bytes)?;
    Ok(bytes)
}

/// Writes block `j` of a seed into the first 16 bytes of `out`, and returns how many that is.
///
/// ```
/// use tally::{block_into, Expander, Refusal};
///
/// let mut out = [0; 20];
/// assert_eq!(block_into(Expander::Aes, &[0; 16], 0, &mut out)?, 16);
/// assert_eq!(out[..4], [0x66, 0xe9, 0x4b, 0xd4]);
/// # Ok::<(), Refusal>(())
/// ```
///
/// # Errors
///
/// * 11, [`Refusal::Space`]: `out` has fewer than 16 bytes.
pub fn block_into(
    expander: Expander,
    seed: &Seed,
    j: u64,
    out: &mut [u8],
) -> Result<usize, Refusal> {
    let reply = tally_sys::block(expander.number(), seed, j, out);
    accepted(reply.number, reply.length, out.len())
}

/// The public share of a packed string of n bits, under the root seeds of server 0 and server 1: the report counts as one.
///
/// ```
/// use tally::{make_key, public_share_length, Expander, Refusal};
///
/// let public_share = make_key(16, Expander::Aes, &[0xbe, 0xef], &[1; 16], &[2; 16])?;
/// assert_eq!(public_share.len(), public_share_length(16));
/// # Ok::<(), Refusal>(())
/// ```
///
/// # Errors
///
/// * 1, [`Refusal::StringLength`];
/// * 4, [`Refusal::InputLength`]: the string has not [`packed_length`](crate::packed_length) bytes;
/// * 7, [`Refusal::SpareBits`]: those of the string.
pub fn make_key(
    n: u64,
    expander: Expander,
    string: &[u8],
    seed0: &Seed,
    seed1: &Seed,
) -> Result<Vec<u8>, Refusal> {
    make_weighted_key(n, expander, 1, string, seed0, seed1)
}

/// Writes the public share of a packed string of n bits into [`public_share_length`] bytes of `out`, and returns how many that is.
///
/// ```
/// use tally::{make_key_into, Expander, Refusal};
///
/// let mut out = [0; 25];
/// assert_eq!(make_key_into(1, Expander::Aes, &[0x80], &[1; 16], &[2; 16], &mut out)?, 25);
/// # Ok::<(), Refusal>(())
/// ```
///
/// # Errors
///
/// * 1, [`Refusal::StringLength`];
/// * 4, [`Refusal::InputLength`]: the string has not [`packed_length`](crate::packed_length) bytes;
/// * 7, [`Refusal::SpareBits`]: those of the string;
/// * 11, [`Refusal::Space`]: `out` has fewer bytes.
pub fn make_key_into(
    n: u64,
    expander: Expander,
    string: &[u8],
    seed0: &Seed,
    seed1: &Seed,
    out: &mut [u8],
) -> Result<usize, Refusal> {
    make_weighted_key_into(n, expander, 1, string, seed0, seed1, out)
}

/// The public share of a packed string of n bits with a weight, under the root seeds of server 0 and server 1: in a weighted search the report
/// adds its weight to the total of each prefix of its string. Every `i16` is a weight.
///
/// ```
/// use tally::{make_weighted_key, share, signed_total, totals, Expander, Refusal, Reports, Server, FIRST_QUERY};
///
/// let public_share = make_weighted_key(1, Expander::Aes, -5, &[0x80], &[1; 16], &[2; 16])?;
/// let zero = Reports { seeds: &[[1; 16]], public_shares: &public_share };
/// let one = Reports { seeds: &[[2; 16]], public_shares: &public_share };
/// let share0 = share(1, Expander::Aes, Server::Zero, zero, &FIRST_QUERY)?;
/// let share1 = share(1, Expander::Aes, Server::One, one, &FIRST_QUERY)?;
/// let signed: Vec<i64> = totals(&share0, &share1).into_iter().map(signed_total).collect();
/// assert_eq!(signed, [0, -5]);
/// # Ok::<(), Refusal>(())
/// ```
///
/// # Errors
///
/// * 1, [`Refusal::StringLength`];
/// * 4, [`Refusal::InputLength`]: the string has not [`packed_length`](crate::packed_length) bytes;
/// * 7, [`Refusal::SpareBits`]: those of the string.
pub fn make_weighted_key(
    n: u64,
    expander: Expander,
    weight: i16,
    string: &[u8],
    seed0: &Seed,
    seed1: &Seed,
) -> Result<Vec<u8>, Refusal> {
    written(public_share_length(n), |out| {
        make_weighted_key_into(n, expander, weight, string, seed0, seed1, out)
    })
}

/// Writes the public share of a packed string of n bits with a weight into [`public_share_length`] bytes of `out`, and returns how many that is.
///
/// ```
/// use tally::{make_weighted_key_into, Expander, Refusal};
///
/// let mut out = [0; 25];
/// assert_eq!(make_weighted_key_into(1, Expander::Aes, -5, &[0x80], &[1; 16], &[2; 16], &mut out)?, 25);
/// # Ok::<(), Refusal>(())
/// ```
///
/// # Errors
///
/// * 1, [`Refusal::StringLength`];
/// * 4, [`Refusal::InputLength`]: the string has not [`packed_length`](crate::packed_length) bytes;
/// * 7, [`Refusal::SpareBits`]: those of the string;
/// * 11, [`Refusal::Space`]: `out` has fewer bytes.
pub fn make_weighted_key_into(
    n: u64,
    expander: Expander,
    weight: i16,
    string: &[u8],
    seed0: &Seed,
    seed1: &Seed,
    out: &mut [u8],
) -> Result<usize, Refusal> {
    let reply = tally_sys::key(n, expander.number(), weight, string, seed0, seed1, out);
    accepted(reply.number, reply.length, out.len())
}
