//! The calls under comparison: the library's, or without the feature `library` the second program's own.

#[cfg(not(feature = "library"))]
pub const NAME: &str = "the second program itself";
#[cfg(feature = "library")]
pub const NAME: &str = "the library libcapi.a";

#[cfg(not(feature = "library"))]
pub use second::{
    add_shares as add, block, combine, exam_into as exam, key, list_space, record_space,
    respond_into as respond, roots, search, share, share_kept,
};
#[cfg(all(feature = "library", feature = "search"))]
pub use tally_sys::{list_space, record_space};

/// The library's calls, each for a feature, with the second program's replies.
#[cfg(feature = "library")]
macro_rules! calls {
    ($($feature:literal $call:ident($($name:ident: $of:ty),*) -> $reply:ident { $($field:ident),* })*) => {
        $(
            #[cfg(feature = $feature)]
            #[allow(clippy::too_many_arguments)]
            pub fn $call($($name: $of),*) -> second::$reply {
                let made = tally_sys::$call($($name),*);
                second::$reply { $($field: made.$field),* }
            }
        )*
    };
}

#[cfg(feature = "library")]
calls! {
    "block" block(expander: u64, seed: &[u8], j: u64, block: &mut [u8]) -> Reply { number, length }
    "keys" key(n: u64, expander: u64, weight: i16, string: &[u8], seed0: &[u8], seed1: &[u8], out: &mut [u8]) -> Reply { number, length }
    "keys" share(n: u64, expander: u64, server: bool, seeds: &[u8], public: &[u8], query: &[u8], out: &mut [u8]) -> Reply { number, length }
    "keys" add(share0: &[u8], share1: &[u8], out: &mut [u8]) -> Reply { number, length }
    "combine" combine(n: u64, weighted: bool, t: u64, query: &[u8], share0: &[u8], share1: &[u8], out: &mut [u8]) -> Combined { number, kind, length }
    "search" search(n: u64, weighted: bool, t: u64, expander: u64, seeds0: &[u8], public0: &[u8], seeds1: &[u8], public1: &[u8],
        record: &mut [u8], list: &mut [u8]) -> Found { number, record_length, list_length }
    "exam" exam(text: &[u8], out: &mut [u8]) -> Reply { number, length }
    "exam" respond(text: &[u8], out: &mut [u8]) -> Reply { number, length }
}

/// The nodes after the lent ones, which no call may touch.
#[cfg(all(feature = "library", feature = "kept"))]
const GUARDS: [tally_sys::Node; 4] = [tally_sys::Node {
    seed: [0xa5; 16],
    bit: true,
}; 4];

/// Lends the library a list of nodes, and takes over what it leaves in them.
#[cfg(all(feature = "library", feature = "kept"))]
fn lend<R>(nodes: &mut [second::Node], call: impl FnOnce(&mut [tally_sys::Node]) -> R) -> R {
    let count = nodes.len();
    let theirs = |node: &second::Node| tally_sys::Node {
        seed: node.seed,
        bit: node.control,
    };
    let mut lent: Vec<tally_sys::Node> = nodes.iter().map(theirs).chain(GUARDS).collect();
    let made = call(&mut lent[..count]);
    let lent = std::hint::black_box(lent);
    assert_eq!(lent[count..], GUARDS, "a node past the lent ones changed");
    for (node, left) in nodes.iter_mut().zip(lent) {
        (node.seed, node.control) = (left.seed, left.bit);
    }
    made
}

/// The library's share from kept nodes.
#[cfg(all(feature = "library", feature = "kept"))]
#[allow(clippy::too_many_arguments)]
pub fn share_kept(
    n: u64,
    expander: u64,
    server: bool,
    public: &[u8],
    last: &[u8],
    query: &[u8],
    nodes: &mut [second::Node],
    out: &mut [u8],
) -> second::Reply {
    let made = lend(nodes, |nodes| {
        tally_sys::share_kept(n, expander, server, public, last, query, nodes, out)
    });
    second::Reply {
        number: made.number,
        length: made.length,
    }
}

/// The library's list at the roots.
#[cfg(all(feature = "library", feature = "kept"))]
pub fn roots(server: bool, seeds: &[u8], nodes: &mut [second::Node]) -> u64 {
    lend(nodes, |nodes| tally_sys::roots(server, seeds, nodes))
}
