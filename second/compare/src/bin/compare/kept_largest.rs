//! Calls of the share from kept nodes with the most reports and prefixes, and with many of both.

use crate::kept_call::Call;
use crate::kept_cases::{any_public, Take};
use compare::kept::{all_below, any_nodes, some_below};
use compare::queries::long;
use second::keys::public_share_size;
use second::query::{first, write, Query};
use second::rng::Rng;
use second::Node;

const MOST_REPORTS: usize = 65_535;
const MOST_PREFIXES: usize = 131_070;

/// Hands over every call.
pub fn each(take: Take) {
    many_reports(take);
    many_prefixes(take);
    many_of_both(take);
    large_products(take);
}

/// As many nodes, the same few again and again.
fn repeated(rng: &mut Rng, count: usize) -> Vec<Node> {
    let few = any_nodes(rng, 97);
    few.into_iter().cycle().take(count).collect()
}

/// 65,535 reports and one more, at the roots, with just enough nodes and one fewer.
fn many_reports(take: Take) {
    let mut rng = Rng::new(6);
    let right = Call {
        n: 1,
        expander: 2,
        server: true,
        public: any_public(&mut rng, 1, MOST_REPORTS),
        last: Vec::new(),
        query: first(),
        nodes: repeated(&mut rng, 2 * MOST_REPORTS + 2),
        room: 16,
    };
    let name = "65535 reports";
    take(name, &[0, 16], right.clone());
    take(
        name,
        &[0, 16],
        right.with(|call| call.nodes.truncate(2 * MOST_REPORTS)),
    );
    take(
        name,
        &[13, 0],
        right.with(|call| call.nodes.truncate(2 * MOST_REPORTS - 1)),
    );
    take(name, &[11, 0], right.with(|call| call.room = 15));
    let one = right.with(|call| (call.query, call.room) = (write(1, &[vec![0x80]]), 8));
    take(
        name,
        &[0, 8],
        one.with(|call| call.nodes.truncate(MOST_REPORTS)),
    );
    take(
        name,
        &[13, 0],
        one.with(|call| call.nodes.truncate(MOST_REPORTS - 1)),
    );
    let more = right.with(|call| call.public.extend([0; 25]));
    take("65536 reports", &[5, 0], more.clone());
    take(
        "65536 reports",
        &[5, 0],
        more.with(|call| call.nodes.clear()),
    );
    take(
        "65536 reports",
        &[5, 0],
        more.with(|call| call.query.clear()),
    );
    take(
        "65536 reports and a byte",
        &[4, 0],
        more.with(|call| call.public.push(0)),
    );
}

/// 131,070 prefixes and one more, in the new query and in the last.
fn many_prefixes(take: Take) {
    let mut rng = Rng::new(7);
    let last = long(17, MOST_PREFIXES / 2);
    let query = all_below(&last);
    let fit = 8 * MOST_PREFIXES;
    for count in [0, 1] {
        let right = Call {
            n: 19,
            expander: 2,
            server: false,
            public: any_public(&mut rng, 19, count),
            last: last.clone(),
            query: query.clone(),
            nodes: repeated(&mut rng, count * MOST_PREFIXES),
            room: fit,
        };
        let name = "131070 prefixes";
        take(name, &[0, fit as u64], right.clone());
        take(name, &[11, 0], right.with(|call| call.room = fit - 1));
        if count > 0 {
            let call = right.with(|call| call.nodes.truncate(MOST_PREFIXES - 1));
            take(name, &[13, 0], call);
        }
        // The parent of the last two prefixes is missing.
        let call = right.with(|call| call.last = long(17, MOST_PREFIXES / 2 - 1));
        take(name, &[14, 0], call);
        let under = right.with(|call| {
            call.query = some_below(&mut Rng::new(8), &query, 5);
            call.last.clone_from(&query);
        });
        let asked = 8 * Query::of(&under.query).count as u64;
        take(
            "131070 prefixes in the last query",
            &[0, asked],
            under.clone(),
        );
        if count > 0 {
            let call = under.with(|call| call.nodes.truncate(MOST_PREFIXES - 1));
            take("131070 prefixes in the last query", &[13, 0], call);
        }
        let more = |bytes: &mut Vec<u8>| *bytes = long(18, MOST_PREFIXES + 1);
        take(
            "131071 prefixes",
            &[9, 0],
            right.with(|call| more(&mut call.query)),
        );
        take(
            "131071 prefixes in the last query",
            &[9, 0],
            under.with(|call| more(&mut call.last)),
        );
    }
}

/// Hundreds of reports and of prefixes, with more, as many and fewer prefixes than the last.
fn many_of_both(take: Take) {
    let mut rng = Rng::new(9);
    for (expander, reports, prefixes) in [(2, 300, 200), (2, 7, 3000), (2, 3000, 7), (1, 40, 60)] {
        for server in [false, true] {
            let last = long(17, prefixes);
            let mut ask = |name, query: Vec<u8>| {
                let asked = Query::of(&query).count;
                let needed = reports * asked.max(prefixes);
                let call = Call {
                    n: 18,
                    expander,
                    server,
                    public: any_public(&mut rng, 18, reports),
                    last: last.clone(),
                    query,
                    nodes: any_nodes(&mut rng, needed),
                    room: 8 * asked,
                };
                take(
                    name,
                    &[13, 0],
                    call.with(|call| call.nodes.truncate(needed - 1)),
                );
                take(name, &[0, 8 * asked as u64], call);
            };
            ask("many of both, more than before", all_below(&last));
            let mut rng = Rng::new(10);
            let half = some_below(&mut rng, &last, prefixes);
            ask("many of both, not all", half);
            ask("many of both, few", some_below(&mut rng, &last, 3));
            // The first child of each prefix: as many as before.
            let mut firsts = Vec::new();
            for i in 0..prefixes {
                firsts.push(Query::of(&last).prefix(i).to_vec());
            }
            ask("many of both, as many", write(18, &firsts));
        }
    }
}

/// 65,535 reports and 65,538 prefixes need more than 2^32 nodes, whichever query has them.
fn large_products(take: Take) {
    let count = 65_538;
    let right = Call {
        n: 18,
        expander: 2,
        server: true,
        public: vec![0; MOST_REPORTS * public_share_size(18)],
        last: long(17, count),
        query: write(18, &[vec![0; 3]]),
        nodes: repeated(&mut Rng::new(11), MOST_REPORTS),
        room: 8 * count,
    };
    let name = "reports times prefixes above 2^32";
    take(name, &[13, 0], right.clone());
    take(
        name,
        &[13, 0],
        right.with(|call| call.nodes.truncate(65_534)),
    );
    let turned = right.with(|call| {
        call.query.clone_from(&call.last);
        call.last = long(16, 32_769);
    });
    take(name, &[13, 0], turned.clone());
    take(
        name,
        &[13, 0],
        turned.with(|call| call.last = write(16, &[vec![0; 2]])),
    );
}
