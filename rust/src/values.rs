//! What calls take and answer: expanders, servers, reports, and the two answers that have parts.

use crate::{Refusal, Seed};
use std::fmt;

/// How a seed is turned into blocks.
///
/// ```
/// use tally::{Expander, Refusal};
///
/// assert_eq!(Expander::Aes.number(), 1);
/// assert_eq!(Expander::try_from(2), Ok(Expander::Classroom));
/// assert_eq!(Expander::try_from(3), Err(Refusal::Expander));
/// ```
#[derive(Clone, Copy, Debug, PartialEq, Eq, Hash)]
pub enum Expander {
    /// 1: AES-128 with the seed as its key.
    Aes,
    /// 2: two words that can be worked by hand; it hides nothing.
    Classroom,
}

impl Expander {
    /// The expander's number.
    pub fn number(self) -> u64 {
        match self {
            Expander::Aes => 1,
            Expander::Classroom => 2,
        }
    }
}

impl TryFrom<u64> for Expander {
    type Error = Refusal;

    /// The expander with a number.
    ///
    /// # Errors
    ///
    /// * 3, [`Refusal::Expander`].
    fn try_from(number: u64) -> Result<Expander, Refusal> {
        match number {
            1 => Ok(Expander::Aes),
            2 => Ok(Expander::Classroom),
            _ => Err(Refusal::Expander),
        }
    }
}

/// Which of the two servers.
///
/// ```
/// use tally::{share, Expander, Refusal, Reports, Server, FIRST_QUERY};
///
/// let none = Reports { seeds: &[], public_shares: &[] };
/// assert_eq!(share(8, Expander::Aes, Server::One, none, &FIRST_QUERY)?, [0; 16]);
/// # Ok::<(), Refusal>(())
/// ```
#[derive(Clone, Copy, Debug, PartialEq, Eq, Hash)]
pub enum Server {
    /// Server 0.
    Zero,
    /// Server 1.
    One,
}

/// What one server holds of the reports: its own seeds, and the public shares one after the other, in the same order.
///
/// `Debug` says how many there are and shows no seed.
///
/// ```
/// use tally::{public_share_length, Reports};
///
/// let public_shares = vec![0; 2 * public_share_length(16)];
/// let reports = Reports { seeds: &[[1; 16], [2; 16]], public_shares: &public_shares };
/// assert_eq!(format!("{reports:?}"), "Reports { seeds: 2 not shown, public_shares: 776 bytes }");
/// ```
#[derive(Clone, Copy, PartialEq, Eq)]
pub struct Reports<'a> {
    /// The server's seeds.
    pub seeds: &'a [Seed],
    /// The public shares, [`public_share_length`](crate::public_share_length) bytes for each report.
    pub public_shares: &'a [u8],
}

impl fmt::Debug for Reports<'_> {
    fn fmt(&self, f: &mut fmt::Formatter<'_>) -> fmt::Result {
        f.debug_struct("Reports")
            .field("seeds", &format_args!("{} not shown", self.seeds.len()))
            .field(
                "public_shares",
                &format_args!("{} bytes", self.public_shares.len()),
            )
            .finish()
    }
}

/// What combining answers: `B` is the bytes, or with lent space how many there are.
///
/// ```
/// use tally::{combine, Answer, Refusal, FIRST_QUERY};
///
/// // Both totals are 0, so nothing is kept.
/// let answer = combine(2, 1, &FIRST_QUERY, &[0; 16], &[0; 16])?;
/// assert_eq!(answer, Answer::Ended);
/// # Ok::<(), Refusal>(())
/// ```
#[derive(Clone, Debug, PartialEq, Eq)]
pub enum Answer<B = Vec<u8>> {
    /// The next query: both children of each kept prefix.
    Next(B),
    /// At length n the list of kept strings, empty or not.
    List(B),
    /// Before length n nothing was kept: the search ended, with an empty list.
    Ended,
}

/// What a whole search finds: `B` is the bytes, or with lent space how many there are.
///
/// ```
/// use tally::{search, Expander, Found, Refusal, Reports};
///
/// let none = Reports { seeds: &[], public_shares: &[] };
/// let Found { record, list } = search(1, 1, Expander::Aes, none, none)?;
/// assert_eq!((record.len(), list.len()), (32, 0));
/// # Ok::<(), Refusal>(())
/// ```
#[derive(Clone, Debug, PartialEq, Eq)]
pub struct Found<B = Vec<u8>> {
    /// The record: the number of reports, then each query followed by its totals; [`levels`](crate::levels) and [`Record`](crate::Record) read it.
    pub record: B,
    /// The list: the strings that at least t reports hold, or in a weighted search those that [`Settings::search`](crate::Settings::search) names; [`strings`](crate::strings) and [`List`](crate::List) read it.
    pub list: B,
}
