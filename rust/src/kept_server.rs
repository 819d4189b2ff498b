//! A server that keeps its nodes: it owns the list and the last query, so that each call gets what the call before left. This is plain Rust beside
//! the proved library.

use crate::{nodes_count, roots, share, share_kept, Expander, Node, Refusal, Reports, Server};
use std::fmt;

/// A server that keeps its nodes from one query to the next, and goes down one level for each instead of walking from the root.
///
/// Its shares are those of [`share`] for the same query. Each query has to ask for children of what the one before asked for, as those of a search
/// do; asked for its last query once more, it gives the same share once more. The public shares are borrowed, so that they stay as they are; the
/// seeds are read once.
///
/// It keeps a [`Node`] of 17 bytes for each report and prefix of the last query, and makes room by itself while it goes from one query to the next.
/// `Debug` says how many nodes there are and shows none.
///
/// ```
/// use tally::{make_key, search, Collector, CollectorError, Expander, KeptServer, Reports, Server};
///
/// // One installation holds `01`.
/// let public_share = make_key(2, Expander::Aes, &[0b0100_0000], &[1; 16], &[2; 16])?;
/// let zero = Reports { seeds: &[[1; 16]], public_shares: &public_share };
/// let one = Reports { seeds: &[[2; 16]], public_shares: &public_share };
///
/// let mut server0 = KeptServer::begin(2, Expander::Aes, Server::Zero, zero)?;
/// let mut server1 = KeptServer::begin(2, Expander::Aes, Server::One, one)?;
/// let mut collector = Collector::new(2, 1, 1)?;
/// while let Some(query) = collector.query() {
///     let (share0, share1) = (server0.answer(query)?, server1.answer(query)?);
///     collector.answers(share0, share1)?;
/// }
/// assert_eq!(collector.into_found(), Some(search(2, 1, Expander::Aes, zero, one)?));
/// # Ok::<(), CollectorError>(())
/// ```
#[derive(Clone, PartialEq, Eq)]
pub struct KeptServer<'a> {
    n: u64,
    expander: Expander,
    server: Server,
    reports: usize,
    public_shares: &'a [u8],
    nodes: Vec<Node>,
    most_nodes: usize,
    last_query: Vec<u8>,
    last_share: Vec<u8>,
}

impl<'a> KeptServer<'a> {
    /// A server at the roots, for strings of n bits, an expander, and the reports that it holds. All reports are judged here.
    ///
    /// ```
    /// use tally::{Expander, KeptServer, Refusal, Reports, Server};
    ///
    /// // There is a seed, but no public share.
    /// let reports = Reports { seeds: &[[1; 16]], public_shares: &[] };
    /// let refused = KeptServer::begin(8, Expander::Aes, Server::Zero, reports);
    /// assert_eq!(refused, Err(Refusal::InputLength));
    /// ```
    ///
    /// # Errors
    ///
    /// * 1, [`Refusal::StringLength`];
    /// * 4, [`Refusal::InputLength`]: seeds and public shares disagree in count, or a public share is not whole;
    /// * 5, [`Refusal::TooManyReports`];
    /// * 6, [`Refusal::GroupNumber`]: in any level of any public share;
    /// * 7, [`Refusal::SpareBits`]: in any public share.
    pub fn begin(
        n: u64,
        expander: Expander,
        server: Server,
        reports: Reports<'a>,
    ) -> Result<KeptServer<'a>, Refusal> {
        // A query of no bytes is refused with 9, after all that can be wrong with the reports.
        match share(n, expander, server, reports, &[]) {
            Err(Refusal::Query) => {}
            Err(refusal) => return Err(refusal),
            Ok(_) => return Err(Refusal::Unknown(0)),
        }
        Ok(KeptServer {
            n,
            expander,
            server,
            reports: reports.seeds.len(),
            public_shares: reports.public_shares,
            nodes: roots(server, reports.seeds)?,
            most_nodes: usize::MAX,
            last_query: Vec::new(),
            last_share: Vec::new(),
        })
    }

    /// The server told to keep no more than this many nodes: a query that needs more is refused with [`Refusal::TooFewNodes`]. Without this, only the
    /// memory is a bound, and a collector that does not keep to the search can ask for 131,070 prefixes at once.
    ///
    /// ```
    /// use tally::{make_key, Expander, KeptServer, Refusal, Reports, Server, FIRST_QUERY};
    ///
    /// let public_share = make_key(8, Expander::Aes, &[0xbe], &[1; 16], &[2; 16])?;
    /// let reports = Reports { seeds: &[[1; 16]], public_shares: &public_share };
    /// let server = KeptServer::begin(8, Expander::Aes, Server::Zero, reports)?;
    /// assert_eq!(server.with_most_nodes(1).answer(&FIRST_QUERY), Err(Refusal::TooFewNodes));
    /// # Ok::<(), Refusal>(())
    /// ```
    pub fn with_most_nodes(mut self, nodes: usize) -> KeptServer<'a> {
        self.most_nodes = nodes;
        self
    }

    /// The share for a query, 8 bytes a prefix.
    ///
    /// # Errors
    ///
    /// The server stays as it was, so that another query can be asked:
    ///
    /// * 9, [`Refusal::Query`];
    /// * 13, [`Refusal::TooFewNodes`]: it was told to keep fewer nodes, or there is no memory for so many;
    /// * 14, [`Refusal::NoParent`]: a prefix whose parent was not in the last query, or one of more than one bit at the roots.
    pub fn answer(&mut self, query: &[u8]) -> Result<&[u8], Refusal> {
        if query.is_empty() || query != self.last_query {
            let before = self.nodes.len();
            self.make_room(nodes_count(self.reports, query));
            let share = self.go_down(query);
            // Nodes past those of the query that was accepted last are of no use.
            let kept = share
                .as_ref()
                .map_or(before, |_| nodes_count(self.reports, query));
            self.nodes.truncate(kept);
            self.last_share = share?;
            self.last_query = query.to_vec();
        }
        Ok(&self.last_share)
    }

    /// Makes the list as long as that, where it may be and can be.
    fn make_room(&mut self, nodes: usize) {
        let more = nodes.saturating_sub(self.nodes.len());
        if nodes <= self.most_nodes && self.nodes.try_reserve_exact(more).is_ok() {
            self.nodes.resize(self.nodes.len() + more, Node::default());
        }
    }

    /// The library's call, from the nodes of the last query to those of the new one.
    fn go_down(&mut self, query: &[u8]) -> Result<Vec<u8>, Refusal> {
        let lent = self.nodes.len().min(self.most_nodes);
        let (nodes, _) = self.nodes.split_at_mut(lent);
        share_kept(
            self.n,
            self.expander,
            self.server,
            self.public_shares,
            &self.last_query,
            query,
            nodes,
        )
    }

    /// The query that was answered last; no bytes at the roots.
    pub fn last_query(&self) -> &[u8] {
        &self.last_query
    }

    /// The nodes of the last query, report by report, as [`share_kept`] takes and leaves them; they are as secret as the seeds.
    pub fn nodes(&self) -> &[Node] {
        &self.nodes
    }
}

impl fmt::Debug for KeptServer<'_> {
    fn fmt(&self, f: &mut fmt::Formatter<'_>) -> fmt::Result {
        f.debug_struct("KeptServer")
            .field("n", &self.n)
            .field("expander", &self.expander)
            .field("server", &self.server)
            .field("nodes", &format_args!("{} not shown", self.nodes.len()))
            .field(
                "last_query",
                &format_args!("{} bytes", self.last_query.len()),
            )
            .finish_non_exhaustive()
    }
}
