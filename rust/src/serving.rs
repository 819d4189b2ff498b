//! What a server does: its share for a query, and the adding of shares where several machines are one server.

use crate::{accepted, share_length, written, Expander, Refusal, Reports, Server};

/// A server's share for a query: for each prefix in order the sum over all lent reports, 8 bytes each.
///
/// ```
/// use tally::{make_key, share, totals, Expander, Refusal, Reports, Server, FIRST_QUERY};
///
/// let public_share = make_key(1, Expander::Aes, &[0x80], &[1; 16], &[2; 16])?;
/// let zero = Reports { seeds: &[[1; 16]], public_shares: &public_share };
/// let one = Reports { seeds: &[[2; 16]], public_shares: &public_share };
/// let share0 = share(1, Expander::Aes, Server::Zero, zero, &FIRST_QUERY)?;
/// let share1 = share(1, Expander::Aes, Server::One, one, &FIRST_QUERY)?;
/// assert_eq!(totals(&share0, &share1), [0, 1]);
/// # Ok::<(), Refusal>(())
/// ```
///
/// # Errors
///
/// * 1, [`Refusal::StringLength`];
/// * 4, [`Refusal::InputLength`]: seeds and public shares disagree in count, or a public share is not whole;
/// * 5, [`Refusal::TooManyReports`];
/// * 6, [`Refusal::GroupNumber`]: in any level of any public share;
/// * 7, [`Refusal::SpareBits`]: in any public share;
/// * 9, [`Refusal::Query`].
pub fn share(
    n: u64,
    expander: Expander,
    server: Server,
    reports: Reports<'_>,
    query: &[u8],
) -> Result<Vec<u8>, Refusal> {
    written(share_length(query), |out| {
        share_into(n, expander, server, reports, query, out)
    })
}

/// Writes a server's share for a query into [`share_length`] bytes of `out`, and returns how many that is.
///
/// ```
/// use tally::{share_into, Expander, Refusal, Reports, Server, FIRST_QUERY};
///
/// let none = Reports { seeds: &[], public_shares: &[] };
/// let mut out = [7; 16];
/// assert_eq!(share_into(1, Expander::Aes, Server::Zero, none, &FIRST_QUERY, &mut out)?, 16);
/// assert_eq!(out, [0; 16]);
/// # Ok::<(), Refusal>(())
/// ```
///
/// # Errors
///
/// * 1, [`Refusal::StringLength`];
/// * 4, [`Refusal::InputLength`]: seeds and public shares disagree in count, or a public share is not whole;
/// * 5, [`Refusal::TooManyReports`];
/// * 6, [`Refusal::GroupNumber`]: in any level of any public share;
/// * 7, [`Refusal::SpareBits`]: in any public share;
/// * 9, [`Refusal::Query`];
/// * 11, [`Refusal::Space`]: `out` has fewer bytes.
pub fn share_into(
    n: u64,
    expander: Expander,
    server: Server,
    reports: Reports<'_>,
    query: &[u8],
    out: &mut [u8],
) -> Result<usize, Refusal> {
    let is_one = server == Server::One;
    let reply = tally_sys::share(
        n,
        expander.number(),
        is_one,
        reports.seeds.as_flattened(),
        reports.public_shares,
        query,
        out,
    );
    accepted(reply.number, reply.length, out.len())
}

/// The sum of two shares of one server for one query, number by number modulo p: where they are its shares of two lists of reports, with at
/// most 65,535 reports together, it is the share of both lists laid together.
///
/// ```
/// use tally::{add_shares, make_key, share, Expander, Refusal, Reports, Server, FIRST_QUERY};
///
/// let key = make_key(1, Expander::Aes, &[0x80], &[1; 16], &[2; 16])?;
/// let one = Reports { seeds: &[[1; 16]], public_shares: &key };
/// let both = Reports { seeds: &[[1; 16]; 2], public_shares: &key.repeat(2) };
/// let of = |reports| share(1, Expander::Aes, Server::Zero, reports, &FIRST_QUERY);
/// assert_eq!(add_shares(&of(one)?, &of(one)?)?, of(both)?);
/// # Ok::<(), Refusal>(())
/// ```
///
/// # Errors
///
/// * 4, [`Refusal::InputLength`]: the shares' lengths differ or are no multiple of 8;
/// * 6, [`Refusal::GroupNumber`].
pub fn add_shares(share0: &[u8], share1: &[u8]) -> Result<Vec<u8>, Refusal> {
    written(share0.len(), |out| add_shares_into(share0, share1, out))
}

/// Writes the sum of two shares of one server for one query into as many bytes of `out` as either has, and returns how many that is.
///
/// ```
/// use tally::{add_shares_into, Refusal, GROUP_ORDER};
///
/// let mut out = [7; 9];
/// let (share0, share1) = ((GROUP_ORDER - 1).to_le_bytes(), 3u64.to_le_bytes());
/// assert_eq!(add_shares_into(&share0, &share1, &mut out)?, 8);
/// assert_eq!(out, [2, 0, 0, 0, 0, 0, 0, 0, 7]);
/// # Ok::<(), Refusal>(())
/// ```
///
/// # Errors
///
/// * 4, [`Refusal::InputLength`]: the shares' lengths differ or are no multiple of 8;
/// * 6, [`Refusal::GroupNumber`];
/// * 11, [`Refusal::Space`]: `out` has fewer bytes.
pub fn add_shares_into(share0: &[u8], share1: &[u8], out: &mut [u8]) -> Result<usize, Refusal> {
    let reply = tally_sys::add(share0, share1, out);
    accepted(reply.number, reply.length, out.len())
}
