//! The public share of one report, read level by level.

use crate::read::numbers;
use crate::{public_share_length, Refusal, BITS_MOST, GROUP_ORDER};

/// The bytes of one level behind the control bits: 16 of seed correction and 8 of payload correction.
const LEVEL: usize = 24;

/// The public share of one report, checked: what a server can look at before it takes a report, since [`share`](crate::share) refuses all
/// lent reports where one is not as laid out.
///
/// ```
/// use tally::{make_key, Expander, PublicShare, Refusal};
///
/// let bytes = make_key(16, Expander::Aes, &[0xbe, 0xef], &[1; 16], &[2; 16])?;
/// let public_share = PublicShare::new(16, &bytes)?;
/// assert_eq!(public_share.levels().count(), 16);
/// # Ok::<(), Refusal>(())
/// ```
#[derive(Clone, Copy, Debug, PartialEq, Eq)]
pub struct PublicShare<'a> {
    n: u64,
    bytes: &'a [u8],
}

/// What a public share says of one level: how a server whose control bit is 1 corrects what it expands. It is public.
#[derive(Clone, Copy, Debug, PartialEq, Eq)]
pub struct Correction {
    /// The seed correction.
    pub seed: [u8; 16],
    /// The correction of the left child's control bit.
    pub left: bool,
    /// The correction of the right child's control bit.
    pub right: bool,
    /// The payload correction, below p.
    pub payload: u64,
}

/// The bit at a place of some bytes, lowest bit first; false past their end.
fn low_first(bytes: &[u8], place: usize) -> bool {
    bytes
        .get(place / 8)
        .is_some_and(|byte| byte >> (place % 8) & 1 == 1)
}

/// The first 16 bytes and the number behind them.
fn seed_and_payload(level: &[u8]) -> Option<([u8; 16], u64)> {
    let (seed, payload) = level.split_first_chunk()?;
    Some((*seed, numbers(payload).next()?))
}

impl<'a> PublicShare<'a> {
    /// The public share of a report of n bits.
    ///
    /// ```
    /// use tally::{PublicShare, Refusal};
    ///
    /// assert!(PublicShare::new(1, &[0; 25]).is_ok());
    /// assert_eq!(PublicShare::new(1, &[0; 24]), Err(Refusal::InputLength));
    /// assert_eq!(PublicShare::new(1, &[0xff; 25]), Err(Refusal::GroupNumber));
    /// ```
    ///
    /// # Errors
    ///
    /// The first that applies, as a call would refuse it:
    ///
    /// * 1, [`Refusal::StringLength`];
    /// * 4, [`Refusal::InputLength`]: there are not [`public_share_length`] bytes;
    /// * 6, [`Refusal::GroupNumber`]: a payload correction;
    /// * 7, [`Refusal::SpareBits`].
    pub fn new(n: u64, bytes: &'a [u8]) -> Result<PublicShare<'a>, Refusal> {
        if !(1..=BITS_MOST).contains(&n) {
            return Err(Refusal::StringLength);
        }
        if bytes.len() != public_share_length(n) {
            return Err(Refusal::InputLength);
        }
        let made = PublicShare { n, bytes };
        if made.levels().any(|level| GROUP_ORDER <= level.payload) {
            return Err(Refusal::GroupNumber);
        }
        let (controls, _) = made.split();
        let mut spare = 2 * n as usize..8 * controls.len();
        if spare.any(|place| low_first(controls, place)) {
            return Err(Refusal::SpareBits);
        }
        Ok(made)
    }

    /// The control bits, and the levels behind them.
    fn split(&self) -> (&'a [u8], &'a [u8]) {
        let controls = self.n.div_ceil(4) as usize;
        self.bytes.split_at_checked(controls).unwrap_or_default()
    }

    /// The string length.
    ///
    /// ```
    /// # use tally::PublicShare;
    /// assert_eq!(PublicShare::new(2, &[0; 49]).unwrap().n(), 2);
    /// ```
    pub fn n(&self) -> u64 {
        self.n
    }

    /// The bytes, as calls take them.
    ///
    /// ```
    /// # use tally::PublicShare;
    /// assert_eq!(PublicShare::new(2, &[0; 49]).unwrap().bytes(), [0; 49]);
    /// ```
    pub fn bytes(&self) -> &'a [u8] {
        self.bytes
    }

    /// The corrections, level by level; there are n.
    ///
    /// ```
    /// use tally::{make_key, Expander, PublicShare, Refusal};
    ///
    /// // Example A of the sheet.
    /// let mut seed1 = [0; 16];
    /// seed1[0] = 1;
    /// let bytes = make_key(1, Expander::Classroom, &[0x80], &[0; 16], &seed1)?;
    /// let level = PublicShare::new(1, &bytes)?.levels().next().unwrap();
    /// assert_eq!((level.left, level.right, level.payload), (true, false, 1));
    /// assert_eq!(level.seed, [2, 0, 0, 0, 0, 0, 0, 0, 3, 0, 0, 0, 0, 0, 0, 0]);
    /// # Ok::<(), Refusal>(())
    /// ```
    pub fn levels(&self) -> impl Iterator<Item = Correction> + 'a {
        let (controls, levels) = self.split();
        let parts = levels.chunks_exact(LEVEL);
        let parts = parts.filter_map(seed_and_payload).enumerate();
        parts.map(move |(i, (seed, payload))| Correction {
            seed,
            left: low_first(controls, 2 * i),
            right: low_first(controls, 2 * i + 1),
            payload,
        })
    }
}
