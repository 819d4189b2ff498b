//! The measure of a search that is played: both servers answer in turn and a collector combines, with kept nodes and from the root.

use crate::aes::{over_each, Aes, Work};
use crate::searching::{Collection, Found};
use crate::timing::{Column, Measure, Subject, Timed};
use crate::{plain_kept, plain_search, Plan};
use tally::{share, Expander, KeptServer, Refusal, Reports, Server, Settings};

/// Plays a search over the proved library's combining, with shares that `answer` gives for server 0 and for server 1.
fn played(
    collection: &Collection,
    mut answer: impl FnMut(usize, &[u8]) -> Result<Vec<u8>, Refusal>,
) -> Found {
    let reports = collection.lent()[0].seeds.len();
    let mut collector = collection.settings.collector(reports).expect("accepted");
    while let Some(query) = collector.query() {
        let [share0, share1] = [0, 1].map(|server| answer(server, query).expect("accepted"));
        collector.answers(&share0, &share1).expect("accepted");
    }
    let found = collector.into_found().expect("it is over");
    (found.record, found.list)
}

/// The proved library's shares from kept nodes.
fn proved_kept(collection: &Collection) -> Found {
    let [zero, one] = collection.lent();
    let Settings { n, expander, .. } = collection.settings;
    let begin = |server, lent| KeptServer::begin(n, expander, server, lent).expect("accepted");
    let mut servers = [begin(Server::Zero, zero), begin(Server::One, one)];
    played(collection, |server, query| {
        servers[server].answer(query).map(<[u8]>::to_vec)
    })
}

/// The proved library's shares from the root.
fn proved_from_root(collection: &Collection) -> Found {
    let Settings { n, expander, .. } = collection.settings;
    let servers = [Server::Zero, Server::One];
    played(collection, |server, query| {
        let lent = collection.lent()[server];
        share(n, expander, servers[server], lent, query)
    })
}

/// A search in plain Rust with kept nodes.
#[derive(Clone, Copy)]
struct KeptSearch<'a>(&'a Collection);

impl Work for KeptSearch<'_> {
    type Output = Found;

    fn run<A: Aes>(self, aes: A, _: usize) -> Found {
        let (settings, lent) = (self.0.settings, self.0.lent());
        let root = |server: bool, Reports { seeds, .. }| plain_kept::roots(server, seeds);
        self.0.found(|record, list| {
            let mut nodes = [root(false, lent[0]), root(true, lent[1])];
            let mut last = [Vec::new(), Vec::new()];
            let write_share = |server: bool, query: &[u8], out: &mut [u8]| {
                let (n, i) = (settings.n as usize, usize::from(server));
                let (shares, last) = (lent[i].public_shares, &mut last[i]);
                let written =
                    plain_kept::share_kept(aes, n, server, shares, last, query, &mut nodes[i], out);
                assert_eq!(written, Some(out.len()));
                *last = query.to_vec();
            };
            plain_search::search(settings, lent, write_share, record, list)
        })
    }
}

/// A search played by both servers with kept nodes, beside the same from the root.
pub fn measure_played(plan: &Plan, n: u64) -> Timed {
    let (count, t) = (100, 2);
    let measure = Measure {
        title: format!("a search played by both servers, C = {count}, n = {n}, t = {t}"),
        cleared: "yes, made anew as zero bytes",
        calls: 1,
        parts: 1,
        rounds: if n <= 128 { plan.few() } else { 1 },
    };
    let collection = Collection::new(Settings::new(n, t, Expander::Aes), count);
    let mut subjects = vec![Subject::proved(|_| proved_kept(&collection))];
    let from_root = |_| proved_from_root(&collection);
    subjects.push(Subject::new("", Column::FromRoot, from_root));
    subjects.extend(over_each("", KeptSearch(&collection)));
    measure.compare(subjects)
}
