//! Two servers' shares made into the next query or the list.

use crate::{accepted, answer_space, Answer, Expander, Refusal, Settings};

/// The next query, or at length n the list, from two servers' shares for a query: a prefix is kept when its total is at least t.
///
/// It is [`Settings::combine`] with the usual settings.
///
/// ```
/// use tally::{combine, Answer, Refusal, FIRST_QUERY};
///
/// // The totals are 3 for `0` and 1 for `1`.
/// let share0 = [3u64.to_le_bytes(), 1u64.to_le_bytes()].concat();
/// let next = combine(2, 2, &FIRST_QUERY, &share0, &[0; 16])?;
/// assert_eq!(next, Answer::Next(vec![0, 1, 0, 0, 0, 2, 0b0000_0000, 0b0100_0000]));
/// # Ok::<(), Refusal>(())
/// ```
///
/// # Errors
///
/// * 1, [`Refusal::StringLength`];
/// * 2, [`Refusal::Threshold`];
/// * 4, [`Refusal::InputLength`]: a share has not 8 bytes for each prefix of the query;
/// * 6, [`Refusal::GroupNumber`];
/// * 9, [`Refusal::Query`];
/// * 11, [`Refusal::Space`]: a next query would pass 131,070 prefixes.
pub fn combine(
    n: u64,
    t: u64,
    query: &[u8],
    share0: &[u8],
    share1: &[u8],
) -> Result<Answer, Refusal> {
    usual(n, t).combine(query, share0, share1)
}

/// Writes the next query, or at length n the list, into `out`, and returns how many bytes that is; [`answer_space`] bytes are enough.
///
/// ```
/// use tally::{combine_into, Answer, Refusal, FIRST_QUERY};
///
/// let share0 = [3u64.to_le_bytes(), 1u64.to_le_bytes()].concat();
/// let mut out = [0; 8];
/// assert_eq!(combine_into(1, 1, &FIRST_QUERY, &share0, &[0; 16], &mut out)?, Answer::List(2));
/// assert_eq!(out[..2], [0x00, 0x80]);
/// # Ok::<(), Refusal>(())
/// ```
///
/// # Errors
///
/// * 1, [`Refusal::StringLength`];
/// * 2, [`Refusal::Threshold`];
/// * 4, [`Refusal::InputLength`]: a share has not 8 bytes for each prefix of the query;
/// * 6, [`Refusal::GroupNumber`];
/// * 9, [`Refusal::Query`];
/// * 11, [`Refusal::Space`]: `out` has too few bytes, or a next query would pass 131,070 prefixes.
pub fn combine_into(
    n: u64,
    t: u64,
    query: &[u8],
    share0: &[u8],
    share1: &[u8],
    out: &mut [u8],
) -> Result<Answer<usize>, Refusal> {
    usual(n, t).combine_into(query, share0, share1, out)
}

/// The usual settings; combining does not ask for the expander.
fn usual(n: u64, t: u64) -> Settings {
    Settings::new(n, t, Expander::Aes)
}

impl Settings {
    /// The next query, or at length n the list, from two servers' shares for a query: a prefix is kept when its total is at least t, in a weighted
    /// search when its total read by [`signed_total`](crate::signed_total) is.
    ///
    /// ```
    /// use tally::{Answer, Expander, Refusal, Settings, FIRST_QUERY, GROUP_ORDER};
    ///
    /// // The totals are 3 for `0` and −1 for `1`.
    /// let share0 = [3u64.to_le_bytes(), (GROUP_ORDER - 1).to_le_bytes()].concat();
    /// let weighted = Settings::new(1, 2, Expander::Aes).weighted();
    /// assert_eq!(weighted.combine(&FIRST_QUERY, &share0, &[0; 16])?, Answer::List(vec![0x00]));
    /// # Ok::<(), Refusal>(())
    /// ```
    ///
    /// # Errors
    ///
    /// * 1, [`Refusal::StringLength`];
    /// * 2, [`Refusal::Threshold`], or in a weighted search 12, [`Refusal::WeightedThreshold`];
    /// * 4, [`Refusal::InputLength`]: a share has not 8 bytes for each prefix of the query;
    /// * 6, [`Refusal::GroupNumber`];
    /// * 9, [`Refusal::Query`];
    /// * 11, [`Refusal::Space`]: a next query would pass 131,070 prefixes.
    pub fn combine(&self, query: &[u8], share0: &[u8], share1: &[u8]) -> Result<Answer, Refusal> {
        let mut bytes = vec![0; answer_space(self.n, query)];
        let answer = self.combine_into(query, share0, share1, &mut bytes)?;
        let mut cut = |length| {
            bytes.truncate(length);
            std::mem::take(&mut bytes)
        };
        Ok(match answer {
            Answer::Next(length) => Answer::Next(cut(length)),
            Answer::List(length) => Answer::List(cut(length)),
            Answer::Ended => Answer::Ended,
        })
    }

    /// Writes the next query, or at length n the list, into `out`, and returns how many bytes that is; [`answer_space`] bytes are enough.
    ///
    /// # Errors
    ///
    /// Those of [`Settings::combine`]; 11, [`Refusal::Space`], also where `out` has too few bytes.
    pub fn combine_into(
        &self,
        query: &[u8],
        share0: &[u8],
        share1: &[u8],
        out: &mut [u8],
    ) -> Result<Answer<usize>, Refusal> {
        let (n, weighted, t) = (self.n, self.weighted, self.threshold);
        let reply = tally_sys::combine(n, weighted, t, query, share0, share1, out);
        let length = accepted(reply.number, reply.length, out.len())?;
        match reply.kind {
            1 => Ok(Answer::Next(length)),
            2 => Ok(Answer::List(length)),
            3 => Ok(Answer::Ended),
            _ => Err(Refusal::Unknown(reply.number)),
        }
    }
}
