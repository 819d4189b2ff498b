//! The whole search, where one program holds both servers' reports.

use crate::{accepted, Expander, Found, Refusal, Reports, Settings};

/// The whole search over both servers' reports: its record and its list.
///
/// It is [`Settings::search`] with the usual settings. It allocates what honest reports need, [`record_space`](crate::record_space()) and
/// [`list_space`](crate::list_space()) bytes: with n = 256, t = 1 and 65,535 reports, the most, these are 803,460,134 and 2,097,120. Lend more to
/// [`search_into`] to see what ill-formed reports give.
///
/// ```
/// use tally::{make_key, search, strings, Expander, Refusal, Reports};
///
/// let public_share = make_key(16, Expander::Aes, &[0xbe, 0xef], &[1; 16], &[2; 16])?;
/// let zero = Reports { seeds: &[[1; 16]], public_shares: &public_share };
/// let one = Reports { seeds: &[[2; 16]], public_shares: &public_share };
/// let found = search(16, 1, Expander::Aes, zero, one)?;
/// assert_eq!(strings(16, &found.list).collect::<Vec<_>>(), [[0xbe, 0xef]]);
/// # Ok::<(), Refusal>(())
/// ```
///
/// # Errors
///
/// * 1, [`Refusal::StringLength`];
/// * 2, [`Refusal::Threshold`];
/// * 4, [`Refusal::InputLength`]: a server's seeds and public shares disagree in count, a public share is not whole, or the servers' counts differ;
/// * 5, [`Refusal::TooManyReports`];
/// * 6, [`Refusal::GroupNumber`]: in any public share;
/// * 7, [`Refusal::SpareBits`]: in any public share;
/// * 8, [`Refusal::PublicSharesDiffer`];
/// * 11, [`Refusal::Space`]: ill-formed reports would need more space.
pub fn search(
    n: u64,
    t: u64,
    expander: Expander,
    zero: Reports<'_>,
    one: Reports<'_>,
) -> Result<Found, Refusal> {
    Settings::new(n, t, expander).search(zero, one)
}

/// Writes the record and the list of a whole search into their areas, and returns how many bytes of each;
/// [`record_space`](crate::record_space()) and [`list_space`](crate::list_space()) are enough for honest reports.
///
/// ```
/// use tally::{search_into, Expander, Found, Refusal, Reports};
///
/// let none = Reports { seeds: &[], public_shares: &[] };
/// let mut record = [7; 32];
/// let found = search_into(1, 1, Expander::Aes, none, none, &mut record, &mut [])?;
/// assert_eq!(found, Found { record: 32, list: 0 });
/// assert_eq!(record[..8], [0; 8]); // no reports
/// # Ok::<(), Refusal>(())
/// ```
///
/// # Errors
///
/// * 1, [`Refusal::StringLength`];
/// * 2, [`Refusal::Threshold`];
/// * 4, [`Refusal::InputLength`]: a server's seeds and public shares disagree in count, a public share is not whole, or the servers' counts differ;
/// * 5, [`Refusal::TooManyReports`];
/// * 6, [`Refusal::GroupNumber`]: in any public share;
/// * 7, [`Refusal::SpareBits`]: in any public share;
/// * 8, [`Refusal::PublicSharesDiffer`];
/// * 11, [`Refusal::Space`]: an area has too few bytes; every byte of the record area becomes zero, and the list area is unchanged.
pub fn search_into(
    n: u64,
    t: u64,
    expander: Expander,
    zero: Reports<'_>,
    one: Reports<'_>,
    record: &mut [u8],
    list: &mut [u8],
) -> Result<Found<usize>, Refusal> {
    Settings::new(n, t, expander).search_into(zero, one, record, list)
}

impl Settings {
    /// The whole search over both servers' reports: its record and its list.
    ///
    /// In a weighted search the list holds the strings of n bits all of whose non-empty prefixes have holders' weights adding to t or more, and
    /// [`signed_total`](crate::signed_total) reads the totals of the record. It allocates what honest reports need, [`Settings::record_space`] and
    /// [`Settings::list_space`] bytes.
    ///
    /// # Errors
    ///
    /// * 1, [`Refusal::StringLength`];
    /// * 2, [`Refusal::Threshold`], or in a weighted search 12, [`Refusal::WeightedThreshold`];
    /// * 4, [`Refusal::InputLength`]: a server's seeds and public shares disagree in count, a public share is not whole, or the servers' counts differ;
    /// * 5, [`Refusal::TooManyReports`];
    /// * 6, [`Refusal::GroupNumber`]: in any public share;
    /// * 7, [`Refusal::SpareBits`]: in any public share;
    /// * 8, [`Refusal::PublicSharesDiffer`];
    /// * 11, [`Refusal::Space`]: reports that are not honest would need more space; in a search that is not weighted, those of other weights than
    ///   one too.
    pub fn search(&self, zero: Reports<'_>, one: Reports<'_>) -> Result<Found, Refusal> {
        let reports = zero.seeds.len();
        let mut record = vec![0; self.record_space(reports)];
        let mut list = vec![0; self.list_space(reports)];
        let found = self.search_into(zero, one, &mut record, &mut list)?;
        record.truncate(found.record);
        list.truncate(found.list);
        Ok(Found { record, list })
    }

    /// Writes the record and the list of a whole search into their areas, and returns how many bytes of each; [`Settings::record_space`] and
    /// [`Settings::list_space`] are enough for honest reports.
    ///
    /// # Errors
    ///
    /// Those of [`Settings::search`]; with 11, [`Refusal::Space`], an area has too few bytes, every byte of the record area becomes zero, and the
    /// list area is unchanged.
    pub fn search_into(
        &self,
        zero: Reports<'_>,
        one: Reports<'_>,
        record: &mut [u8],
        list: &mut [u8],
    ) -> Result<Found<usize>, Refusal> {
        let reply = tally_sys::search(
            self.n,
            self.weighted,
            self.threshold,
            self.expander.number(),
            zero.seeds.as_flattened(),
            zero.public_shares,
            one.seeds.as_flattened(),
            one.public_shares,
            record,
            list,
        );
        Ok(Found {
            record: accepted(reply.number, reply.record_length, record.len())?,
            list: accepted(reply.number, reply.list_length, list.len())?,
        })
    }
}
