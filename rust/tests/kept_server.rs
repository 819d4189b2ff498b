//! A server that keeps its nodes: its shares, what it gives once more, and what it refuses.

mod keeping;

use keeping::{asked, Held};
use tally::{
    nodes_count, Expander, KeptServer, Node, Refusal, Reports, Server, Settings, FIRST_QUERY,
};

const BOTH: [Server; 2] = [Server::Zero, Server::One];
const EXPANDERS: [Expander; 2] = [Expander::Aes, Expander::Classroom];

/// A server at the roots.
fn begin(held: &Held, server: Server) -> KeptServer<'_> {
    KeptServer::begin(held.n, held.expander, server, held.lent(server)).unwrap()
}

#[test]
fn a_kept_server_plays_the_search() {
    for expander in EXPANDERS {
        let held = Held::new(40, expander, 12);
        let [zero, one] = BOTH.map(|server| held.lent(server));
        for settings in [
            Settings::new(40, 2, expander),
            Settings::new(40, 3, expander).weighted(),
        ] {
            let [mut server0, mut server1] = BOTH.map(|server| begin(&held, server));
            let mut collector = settings.collector(12).unwrap();
            while let Some(query) = collector.query() {
                let (share0, share1) = (
                    server0.answer(query).unwrap(),
                    server1.answer(query).unwrap(),
                );
                collector.answers(share0, share1).unwrap();
            }
            assert_eq!(collector.into_found(), settings.search(zero, one).ok());
            assert_eq!(server0.last_query(), server1.last_query());
            let count = nodes_count(12, server0.last_query());
            assert_eq!(
                (server0.nodes().len(), server1.nodes().len()),
                (count, count)
            );
        }
    }
}

#[test]
fn a_kept_server_gives_its_last_share_once_more() {
    let held = Held::new(8, Expander::Aes, 3);
    let mut server = begin(&held, Server::Zero);
    assert_eq!((server.last_query(), server.nodes().len()), (&[][..], 3));
    for query in [FIRST_QUERY.to_vec(), asked(&["01", "10"])] {
        let once = server.answer(&query).unwrap().to_vec();
        let before = server.clone();
        assert_eq!(server.answer(&query), Ok(&once[..]));
        assert_eq!(server, before);
        assert_eq!(server.last_query(), query);
    }
    // What lies before is gone, until the server begins anew.
    assert_eq!(server.answer(&FIRST_QUERY), Err(Refusal::NoParent));
}

#[test]
fn neither_nodes_nor_seeds_are_shown() {
    let held = Held::new(8, Expander::Aes, 3);
    let server = begin(&held, Server::One);
    assert_eq!(
        format!("{server:?}"),
        "KeptServer { n: 8, expander: Aes, server: One, nodes: 3 not shown, last_query: 0 bytes, .. }"
    );
    assert_eq!(format!("{:?}", Node::default()), "Node { .. }");
}

#[test]
fn a_kept_server_judges_its_reports_first() {
    let held = Held::new(9, Expander::Aes, 2);
    let lent = held.lent(Server::Zero);
    let begin = |n, seeds, public_shares: &[u8]| {
        let reports = Reports {
            seeds,
            public_shares,
        };
        KeptServer::begin(n, Expander::Aes, Server::Zero, reports).err()
    };
    let (seeds, shares) = (lent.seeds, lent.public_shares);
    assert_eq!(begin(9, seeds, shares), None);
    assert_eq!(begin(0, seeds, shares), Some(Refusal::StringLength));
    assert_eq!(begin(9, seeds, &shares[1..]), Some(Refusal::InputLength));
    assert_eq!(begin(9, &seeds[1..], shares), Some(Refusal::InputLength));
    let mut large = shares.to_vec();
    large.last_chunk_mut::<8>().unwrap().fill(0xff);
    assert_eq!(begin(9, seeds, &large), Some(Refusal::GroupNumber));
    let mut spare = shares.to_vec();
    spare[2] |= 0x80;
    assert_eq!(begin(9, seeds, &spare), Some(Refusal::SpareBits));
}

#[test]
fn a_kept_server_that_refuses_stays_as_it_was() {
    let held = Held::new(9, Expander::Classroom, 2);
    let mut server = begin(&held, Server::One).with_most_nodes(6);
    let refuses = |server: &mut KeptServer<'_>, query: &[u8], due: Refusal| {
        let before = server.clone();
        assert_eq!(server.answer(query), Err(due));
        assert_eq!(*server, before);
    };
    refuses(&mut server, &[], Refusal::Query);
    refuses(&mut server, &FIRST_QUERY[..7], Refusal::Query);
    refuses(&mut server, &asked(&["00", "01", "11"]), Refusal::NoParent);
    server.answer(&FIRST_QUERY).unwrap();
    refuses(&mut server, &[], Refusal::Query);
    let four = asked(&["00", "01", "10", "11"]);
    refuses(&mut server, &four, Refusal::TooFewNodes);
    refuses(&mut server, &asked(&["000"]), Refusal::NoParent);
    server.answer(&asked(&["00", "01", "11"])).unwrap();
    refuses(&mut server, &asked(&["100"]), Refusal::NoParent);
    server.answer(&asked(&["110"])).unwrap();
}
