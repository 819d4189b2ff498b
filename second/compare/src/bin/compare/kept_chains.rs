//! Lists of nodes that begin at the roots and go down: each share must be the library's own by the
//! walk from the root, and whole searches by kept nodes must be its whole search.

use crate::kept_call::{compare, compare_roots, Call};
use crate::kepts::any_reports;
use compare::calls;
use compare::kept::{all_below, any_nodes, some_below};
use compare::make::{good_expander, Reports};
use compare::tally::{Plan, Tally};
use compare::weights::{honest, near_t, weighed};
use second::field::{add, read};
use second::query::{first, Query};
use second::rng::Rng;
use second::Node;

/// The sides of a chain: its reports, the expander and the server.
struct Side<'a> {
    of: &'a Reports,
    expander: u64,
    server: bool,
}

/// A list of nodes and the query that it stands at.
struct List {
    last: Vec<u8>,
    nodes: Vec<Node>,
}

pub fn run(rng: &mut Rng, tally: &mut Tally) {
    for i in 0..150 {
        let n = rng.pick(&[1, 2, 3, 4, 7, 8, 9, 12, 16, 17, 24]);
        let expander = good_expander(rng);
        let count = rng.below(6);
        let of = any_reports(rng, n, expander, count);
        let server = i % 2 == 0;
        chain(
            rng,
            tally,
            "a chain of queries",
            &Side {
                of: &of,
                expander,
                server,
            },
            8,
        );
    }
    for expander in [1, 2] {
        let of = any_reports(rng, 256, expander, 2);
        for server in [false, true] {
            chain(
                rng,
                tally,
                "a chain down to 256 bits",
                &Side {
                    of: &of,
                    expander,
                    server,
                },
                2,
            );
        }
    }
    let of = any_reports(rng, 10, 2, 100);
    chain(
        rng,
        tally,
        "a chain of 100 reports",
        &Side {
            of: &of,
            expander: 2,
            server: true,
        },
        60,
    );
    let mut listed = 0;
    for i in 0..160 {
        let n = rng.pick(&[1, 2, 3, 5, 8, 9, 16, 17]);
        let count = rng.below(9);
        let weighted = i % 2 == 1;
        let mut reports = weighed(rng, n, count);
        let mut t = near_t(rng, &reports);
        if !weighted {
            reports.iter_mut().for_each(|(_, weight)| *weight = 1);
            t = rng.pick(&[1, 2, 3]);
        }
        let expander = good_expander(rng);
        let of = honest(rng, n, expander, &reports);
        listed += usize::from(search(rng, tally, &of, expander, weighted, t));
    }
    if listed == 0 {
        tally.fault("share kept: no search by kept nodes had a list");
    }
}

/// The library's list at the roots, of so many nodes.
fn at_the_roots(rng: &mut Rng, tally: &mut Tally, side: &Side, lent: usize) -> List {
    let seeds = &side.of.seeds[side.server as usize];
    let plan = Plan::fixed("the start of a chain", &[0]);
    let nodes = any_nodes(rng, lent);
    List {
        last: Vec::new(),
        nodes: compare_roots(&plan, side.server, seeds, &nodes, tally),
    }
}

/// Goes down one level, with refused calls before it; gives the library's share where it is one.
fn down(
    rng: &mut Rng,
    tally: &mut Tally,
    name: &'static str,
    side: &Side,
    list: &mut List,
    query: &[u8],
) -> Option<Vec<u8>> {
    let asked = Query::of(query).count;
    let call = Call {
        n: side.of.n as u64,
        expander: side.expander,
        server: side.server,
        public: side.of.public.clone(),
        last: list.last.clone(),
        query: query.to_vec(),
        nodes: list.nodes.clone(),
        room: 8 * asked,
    };
    let refused = match rng.below(8) {
        0 => Some((11, call.with(|call| call.room -= 1))),
        1 => Some((14, call.with(|call| call.last = query.to_vec()))),
        2 => Some((9, call.with(|call| call.last.push(0)))),
        3 => Some((4, call.with(|call| call.public.push(0)))),
        4 if !side.of.strings.is_empty() => {
            let needed = side.of.strings.len() * asked;
            Some((13, call.with(|call| call.nodes.truncate(needed - 1))))
        }
        _ => None,
    };
    if let Some((number, call)) = refused {
        let made = compare(
            rng,
            &Plan::fixed("a refusal in a chain", &[number, 0]),
            &call,
            tally,
        );
        if made.nodes != call.nodes {
            tally.fault("share kept: a refusal changed a node");
        }
    }
    let plan = Plan::fixed(name, &[0, 8 * asked as u64]);
    let made = compare(rng, &plan, &call, tally);
    let used = side.of.strings.len() * asked;
    if made.nodes.get(used..) != list.nodes.get(used..) {
        tally.fault("share kept: a spare node changed");
    }
    (list.nodes, list.last) = (made.nodes, query.to_vec());
    Some(made.share).filter(|share| share.len() == 8 * asked)
}

/// Random queries from the roots down to the last level.
fn chain(rng: &mut Rng, tally: &mut Tally, name: &'static str, side: &Side, most: usize) {
    let lent = side.of.strings.len() * 2 * most + rng.below(3);
    let mut list = at_the_roots(rng, tally, side, lent);
    for level in 0..side.of.n {
        let full = Query::last(&list.last).count <= most && rng.coin();
        let query = if full && most > 2 {
            all_below(&list.last)
        } else {
            let few = 1 + rng.below(most);
            some_below(rng, &list.last, few)
        };
        let Some(share) = down(rng, tally, name, side, &mut list, &query) else {
            return;
        };
        if side.of.n < 200 || level % 40 == 0 || level > 252 {
            walked(tally, side, &query, &share);
        }
    }
}

/// The library's share by the walk from the root must be this one.
fn walked(tally: &mut Tally, side: &Side, query: &[u8], share: &[u8]) {
    let mut out = vec![0; share.len()];
    let (n, server) = (side.of.n as u64, side.server);
    let (seeds, public) = (&side.of.seeds[server as usize], &side.of.public);
    let made = calls::share(n, side.expander, server, seeds, public, query, &mut out);
    if made.number != 0 || made.length != out.len() as u64 || out != share {
        tally.fault("share kept: not the share of the walk from the root");
    }
}

/// A whole search by kept nodes against the library's whole search; whether it had a list.
fn search(
    rng: &mut Rng,
    tally: &mut Tally,
    of: &Reports,
    expander: u64,
    weighted: bool,
    t: u64,
) -> bool {
    let n = of.n as u64;
    let (mut record, mut list) = (vec![0; 1 << 14], vec![0; 1 << 10]);
    let [seeds0, seeds1] = &of.seeds;
    let public = &of.public;
    let found = calls::search(
        n,
        weighted,
        t,
        expander,
        seeds0,
        public,
        seeds1,
        public,
        &mut record,
        &mut list,
    );
    record.truncate(found.record_length as usize);
    list.truncate(found.list_length as usize);
    let sides = [false, true].map(|server| Side {
        of,
        expander,
        server,
    });
    let lent = 2 * of.strings.len() * of.strings.len().max(2);
    let mut lists = sides
        .each_ref()
        .map(|side| at_the_roots(rng, tally, side, lent));
    let head = (of.strings.len() as u64).to_be_bytes();
    let (mut query, mut kept_record) = (first(), head.to_vec());
    let kept_list = loop {
        let shares = [0, 1].map(|b| {
            let name = if weighted {
                "a weighted search"
            } else {
                "a search"
            };
            down(rng, tally, name, &sides[b], &mut lists[b], &query)
        });
        let [Some(share0), Some(share1)] = shares else {
            return false;
        };
        kept_record.extend_from_slice(&query);
        for (one, other) in share0.chunks(8).zip(share1.chunks(8)) {
            kept_record.extend(add(read(one), read(other)).to_le_bytes());
        }
        let mut out = vec![0; 1 << 10];
        let made = calls::combine(n, weighted, t, &query, &share0, &share1, &mut out);
        out.truncate(made.length as usize);
        match made.kind {
            1 => query = out,
            2 => break out,
            _ => break Vec::new(),
        }
    };
    if (found.number, &kept_record, &kept_list) != (0, &record, &list) {
        tally.fault("share kept: a search by kept nodes is not the whole search");
    }
    !list.is_empty()
}
