//! Safe functions over Vembuzsa's proved library: a prefix tally with two servers.
//!
//! Each installation makes the public share of its string with [`make_key`] and gives each server one of its two seeds and the public share. For
//! a query each server makes its [`share`]; where many machines share a server's work, each makes that of its own reports, and [`add_shares`]
//! adds them. A [`KeptServer`] makes the same shares from nodes that it keeps from one query to the next, and does not walk from the root each
//! time. A collector [`combine`]s two shares into the next query, or at last into the list of strings that at least t installations hold;
//! [`Collector`] plays that loop, and names the prefix where totals do not add up. [`search`] does all of it where one program holds both
//! servers' reports. [`exam`](exam()) does it for an exam text, and [`respond`] gives that text's whole output, refusals too.
//!
//! Where a report counts for more than one, or for less than nothing, [`make_weighted_key`] gives it a weight, and [`Settings`] have the same calls
//! for a weighted search; [`signed_total`] reads its totals.
//!
//! Each call has two forms. One returns its bytes; the other, whose name ends in `_into`, writes into lent space and returns how many bytes it
//! wrote; bytes past them are unchanged. [`public_share_length`], [`share_length`], [`answer_space`], [`record_space`],
//! [`list_space`] and [`EXAM_SPACE`] say how much space to lend, and [`nodes_count`] how many nodes.
//!
//! What the calls compute, and when they refuse, is proved of the library. The crate `tally-sys` declares it and turns slices into pointers and
//! lengths; this one turns numbers into enums and reads what was written; both are plain Rust. n and t are 64-bit numbers, as in the library, so
//! that each wrong value is judged and none is cut; how many reports or prefixes there are is a `usize`, as a slice's length is, and in a record a
//! `u64`, as it stands there.
//!
//! [`PublicShare`], [`Query`], [`Record`] and [`List`] are checked views of bytes, and iterate over what stands in them; a string or a prefix is
//! then a [`BitString`]. The calls themselves take and return plain bytes.
//!
//! # Where the library is looked for
//!
//! `tools/library`, at the top of the repository, proves the library and writes it to `target/staticlib/libcapi.a`. The crate links that
//! file, which has to be there before `cargo build`. Where it lies in another folder, the environment variable `CAPI_FOLDER` names the folder,
//! by an absolute path or by one from the folder `rust`; empty, it counts as unset:
//!
//! ```text
//! CAPI_FOLDER=/opt/vembuzsa cargo build --release
//! ```
//!
//! `cargo` builds again when the variable or the library changes, and where there is no library the build stops and says so.
//!
//! # How bytes are laid out
//!
//! * A string or a prefix is packed in the fewest bytes, first bit highest, spare bits zero.
//! * A public share is the control bits, left then right, level by level, packed in the fewest bytes, lowest bit first, spare bits zero; then for
//!   each level 16 bytes of seed correction and 8 of payload correction, a number below p = 2^64 − 2^32 + 1, least significant byte first.
//! * A query is the prefix length minus one in 2 bytes, how many prefixes there are in 4, both big-endian, and the prefixes, strictly
//!   ascending.
//! * A share is a number below p for each prefix, 8 bytes each, least significant first.
//! * A record is the number of reports, 8 bytes, big-endian; then each query followed by its totals, 8 bytes each, least significant first.
//! * A list is packed strings of n bits, ascending.
//!
//! # Example
//!
//! Three installations hold `01`, `01` and `11`, and what at least two of them hold is `01`.
//!
//! ```
//! use tally::{make_key, search, Expander, Refusal, Reports, Seed};
//!
//! let strings = [[0b0100_0000], [0b0100_0000], [0b1100_0000]];
//! // Seeds have to be drawn at random, each of them once.
//! let seeds0: [Seed; 3] = [[1; 16], [2; 16], [3; 16]];
//! let seeds1: [Seed; 3] = [[4; 16], [5; 16], [6; 16]];
//! let mut public_shares = Vec::new();
//! for i in 0..3 {
//!     public_shares.extend(make_key(2, Expander::Aes, &strings[i], &seeds0[i], &seeds1[i])?);
//! }
//! let zero = Reports { seeds: &seeds0, public_shares: &public_shares };
//! let one = Reports { seeds: &seeds1, public_shares: &public_shares };
//! let found = search(2, 2, Expander::Aes, zero, one)?;
//! assert_eq!(found.list, [0b0100_0000]);
//! # Ok::<(), Refusal>(())
//! ```

#![deny(missing_docs)]
#![deny(rustdoc::broken_intra_doc_links)]
#![forbid(unsafe_code)]

mod bit_string;
mod collector;
mod collector_error;
mod combining;
mod exam;
mod kept;
mod kept_server;
mod keys;
mod public_share;
mod read;
mod refusal;
mod searching;
mod serving;
mod settings;
mod space;
mod values;
mod views;

pub use bit_string::BitString;
pub use collector::Collector;
pub use collector_error::CollectorError;
pub use combining::{combine, combine_into};
pub use exam::{exam, exam_into, respond, respond_into, EXAM_SPACE};
pub use kept::{nodes_count, roots, roots_into, share_kept, share_kept_into};
pub use kept_server::KeptServer;
pub use keys::{
    block, block_into, make_key, make_key_into, make_weighted_key, make_weighted_key_into,
};
pub use public_share::{Correction, PublicShare};
pub use read::{digits, levels, prefix_bits, prefixes, signed_total, strings, totals, Level};
pub use refusal::Refusal;
pub use searching::{search, search_into};
pub use serving::{add_shares, add_shares_into, share, share_into};
pub use settings::Settings;
pub use space::{
    answer_space, list_space, packed_length, public_share_length, query_length, record_space,
    share_length,
};
pub use tally_sys::Node;
pub use values::{Answer, Expander, Found, Reports, Server};
pub use views::{List, Query, Record, Round};

/// The most bits in a string; the fewest is 1.
pub const BITS_MOST: u64 = 256;

/// The largest threshold of a search that is not weighted; the least is 1.
pub const THRESHOLD_MOST: u64 = 65_535;

/// The largest threshold of a weighted search; the least is 1.
pub const WEIGHTED_THRESHOLD_MOST: u64 = 2_147_483_647;

/// The most reports; there may be none.
pub const REPORTS_MOST: usize = 65_535;

/// The most prefixes in one query; the fewest is 1.
pub const PREFIXES_MOST: usize = 131_070;

/// The order p of the group in which shares are added: 2^64 − 2^32 + 1.
pub const GROUP_ORDER: u64 = 18_446_744_069_414_584_321;

/// The first query of every search: the prefixes `0` and `1`.
///
/// ```
/// assert_eq!(tally::prefixes(&tally::FIRST_QUERY).count(), 2);
/// ```
pub const FIRST_QUERY: [u8; 8] = [0, 0, 0, 0, 0, 2, 0x00, 0x80];

/// How many bytes stand before the first query of a record: the number of reports, big-endian.
///
/// ```
/// # use tally::{search, Expander, Refusal, Reports, FIRST_QUERY, HEADING_LENGTH};
/// let none = Reports { seeds: &[], public_shares: &[] };
/// let record = search(8, 1, Expander::Aes, none, none)?.record;
/// assert_eq!(record[..HEADING_LENGTH], 0u64.to_be_bytes());
/// assert!(record[HEADING_LENGTH..].starts_with(&FIRST_QUERY));
/// # Ok::<(), Refusal>(())
/// ```
pub const HEADING_LENGTH: usize = 8;

/// A seed: 16 bytes.
pub type Seed = [u8; 16];

/// How many bytes of `space` were written, unless the call was refused; never more than there are.
fn accepted(number: u64, length: u64, space: usize) -> Result<usize, Refusal> {
    match (number, usize::try_from(length)) {
        (0, Ok(length)) if length <= space => Ok(length),
        (number, _) => Err(Refusal::numbered(number)),
    }
}

/// Some space, and what a call wrote into the beginning of it.
fn written(
    space: usize,
    call: impl FnOnce(&mut [u8]) -> Result<usize, Refusal>,
) -> Result<Vec<u8>, Refusal> {
    let mut bytes = vec![0; space];
    let length = call(&mut bytes)?;
    bytes.truncate(length);
    Ok(bytes)
}
