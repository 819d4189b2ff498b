//! A server's share from nodes that it keeps: the library's two calls on a list of nodes.

use crate::read::laid_out;
use crate::{accepted, share_length, written, Expander, Node, Refusal, Seed, Server};

/// How many nodes a list has for a query: one for each report and prefix; for no bytes, the last query of a list at the roots, one for each report.
///
/// A call needs enough for the last query and for the new one. It is 0 where the query's fields are outside their bounds or its own length is not
/// what they say, which a call refuses before it counts nodes.
///
/// ```
/// use tally::{nodes_count, FIRST_QUERY};
///
/// assert_eq!(nodes_count(1_000, &[]), 1_000);
/// assert_eq!(nodes_count(1_000, &FIRST_QUERY), 2_000);
/// assert_eq!(nodes_count(1_000, &FIRST_QUERY[..7]), 0);
/// ```
pub fn nodes_count(reports: usize, query: &[u8]) -> usize {
    match (query, laid_out(query)) {
        ([], _) => reports,
        (_, Some((_, prefixes))) => reports.saturating_mul(prefixes),
        (_, None) => 0,
    }
}

/// A list of nodes at the roots: for each seed in order a node with that seed and the server's bit. Its last query is no bytes.
///
/// ```
/// use tally::{roots, Node, Refusal, Server};
///
/// let nodes = roots(Server::One, &[[1; 16], [2; 16]])?;
/// assert_eq!(nodes, [[1; 16], [2; 16]].map(|seed| Node { seed, bit: true }));
/// # Ok::<(), Refusal>(())
/// ```
///
/// # Errors
///
/// * 5, [`Refusal::TooManyReports`].
pub fn roots(server: Server, seeds: &[Seed]) -> Result<Vec<Node>, Refusal> {
    let mut nodes = vec![Node::default(); seeds.len()];
    roots_into(server, seeds, &mut nodes)?;
    Ok(nodes)
}

/// Writes a list of nodes at the roots into the beginning of `nodes`; those past as many as there are seeds are unchanged.
///
/// # Errors
///
/// * 5, [`Refusal::TooManyReports`];
/// * 13, [`Refusal::TooFewNodes`]: there are fewer nodes than seeds.
pub fn roots_into(server: Server, seeds: &[Seed], nodes: &mut [Node]) -> Result<(), Refusal> {
    let number = tally_sys::roots(server == Server::One, seeds.as_flattened(), nodes);
    accepted(number, 0, 0).map(|_| ())
}

/// A server's share for a query from kept nodes: goes down one level from the nodes of the last query, and leaves in the list those of the new one.
///
/// It is what [`share`](crate::share) gives for the new query, as long as reports, n, expander and server stay the same; the list began at the
/// [`roots`], with no bytes for the last query; and each later call is lent the list as the accepted call before left it, with that call's query
/// as the last. The call cannot see whether that is so: other nodes give another share, and no refusal. [`KeptServer`](crate::KeptServer) sees to
/// it.
///
/// The nodes stand report by report in the order of the public shares, and of each report in the order of the query's prefixes; those past reports
/// × prefixes of the new query are unchanged.
///
/// ```
/// use tally::{make_key, roots, share, share_kept, Expander, Node, Refusal, Reports, Server, FIRST_QUERY};
///
/// let public_share = make_key(8, Expander::Aes, &[0xbe], &[1; 16], &[2; 16])?;
/// let mut nodes = roots(Server::Zero, &[[1; 16]])?;
/// nodes.resize(2, Node::default());
/// let kept = share_kept(8, Expander::Aes, Server::Zero, &public_share, &[], &FIRST_QUERY, &mut nodes)?;
///
/// let reports = Reports { seeds: &[[1; 16]], public_shares: &public_share };
/// assert_eq!(kept, share(8, Expander::Aes, Server::Zero, reports, &FIRST_QUERY)?);
/// # Ok::<(), Refusal>(())
/// ```
///
/// # Errors
///
/// A refusal changes no node:
///
/// * 1, [`Refusal::StringLength`];
/// * 4, [`Refusal::InputLength`]: the public shares are not whole;
/// * 5, [`Refusal::TooManyReports`];
/// * 6, [`Refusal::GroupNumber`]: in any level of any public share;
/// * 7, [`Refusal::SpareBits`]: in any public share;
/// * 9, [`Refusal::Query`]: the last query is neither no bytes nor a query, or the new one is no query;
/// * 13, [`Refusal::TooFewNodes`];
/// * 14, [`Refusal::NoParent`].
#[allow(clippy::too_many_arguments)]
pub fn share_kept(
    n: u64,
    expander: Expander,
    server: Server,
    public_shares: &[u8],
    last_query: &[u8],
    query: &[u8],
    nodes: &mut [Node],
) -> Result<Vec<u8>, Refusal> {
    written(share_length(query), |out| {
        share_kept_into(
            n,
            expander,
            server,
            public_shares,
            last_query,
            query,
            nodes,
            out,
        )
    })
}

/// Writes a server's share for a query from kept nodes into [`share_length`] bytes of `out`, and returns how many that is; see [`share_kept`].
///
/// # Errors
///
/// Those of [`share_kept`], and after them
///
/// * 11, [`Refusal::Space`]: `out` has fewer bytes.
#[allow(clippy::too_many_arguments)]
pub fn share_kept_into(
    n: u64,
    expander: Expander,
    server: Server,
    public_shares: &[u8],
    last_query: &[u8],
    query: &[u8],
    nodes: &mut [Node],
    out: &mut [u8],
) -> Result<usize, Refusal> {
    let is_one = server == Server::One;
    let reply = tally_sys::share_kept(
        n,
        expander.number(),
        is_one,
        public_shares,
        last_query,
        query,
        nodes,
        out,
    );
    accepted(reply.number, reply.length, out.len())
}
