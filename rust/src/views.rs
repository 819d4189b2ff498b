//! Queries, records and lists as checked views of bytes.

use crate::read::{headed, laid_out, levels, numbers};
use crate::{
    packed_length, signed_total, BitString, Refusal, BITS_MOST, GROUP_ORDER, HEADING_LENGTH,
    REPORTS_MOST,
};

/// Whether packed strings of that many bits, one after the other, have no spare bits set and are strictly ascending.
fn ascending(bits: u64, packed: &[u8]) -> bool {
    let size = packed_length(bits);
    let sound = |string| BitString::new(bits, string).is_some();
    let before = packed.chunks_exact(size);
    let after = packed.get(size..).unwrap_or_default().chunks_exact(size);
    packed.chunks_exact(size).all(sound) && before.zip(after).all(|(a, b)| a < b)
}

/// The packed strings of that many bits.
fn unpacked(bits: u64, packed: &[u8]) -> impl Iterator<Item = BitString> + '_ {
    let strings = packed.chunks_exact(packed_length(bits));
    strings.filter_map(move |string| BitString::new(bits, string))
}

/// A query, checked.
///
/// ```
/// use tally::{BitString, Query, FIRST_QUERY};
///
/// let query = Query::new(&FIRST_QUERY).unwrap();
/// assert_eq!((query.length(), query.count()), (1, 2));
/// let prefixes: Vec<String> = query.prefixes().map(|prefix| prefix.to_string()).collect();
/// assert_eq!(prefixes, ["0", "1"]);
/// ```
#[derive(Clone, Copy, Debug, PartialEq, Eq)]
pub struct Query<'a> {
    length: u64,
    count: usize,
    bytes: &'a [u8],
}

impl<'a> Query<'a> {
    /// The query in some bytes.
    ///
    /// ```
    /// use tally::{Query, Refusal};
    ///
    /// // The prefixes `1` and `0` do not ascend.
    /// assert_eq!(Query::new(&[0, 0, 0, 0, 0, 2, 0x80, 0x00]), Err(Refusal::Query));
    /// ```
    ///
    /// # Errors
    ///
    /// * 9, [`Refusal::Query`].
    pub fn new(bytes: &'a [u8]) -> Result<Query<'a>, Refusal> {
        let (length, count) = laid_out(bytes).ok_or(Refusal::Query)?;
        let query = Query {
            length,
            count,
            bytes,
        };
        let sound = ascending(length, query.packed());
        sound.then_some(query).ok_or(Refusal::Query)
    }

    /// The packed prefixes behind the two fields.
    fn packed(&self) -> &'a [u8] {
        self.bytes.get(6..).unwrap_or_default()
    }

    /// How many bits each prefix has.
    pub fn length(&self) -> u64 {
        self.length
    }

    /// How many prefixes there are.
    pub fn count(&self) -> usize {
        self.count
    }

    /// The bytes, as calls take them.
    pub fn bytes(&self) -> &'a [u8] {
        self.bytes
    }

    /// The prefixes, ascending.
    pub fn prefixes(&self) -> impl Iterator<Item = BitString> + 'a {
        unpacked(self.length, self.packed())
    }
}

/// One round of a record: a query, and the total of each of its prefixes.
#[derive(Clone, Copy, Debug, PartialEq, Eq)]
pub struct Round<'a> {
    query: Query<'a>,
    totals: &'a [u8],
}

impl<'a> Round<'a> {
    /// The query.
    pub fn query(&self) -> Query<'a> {
        self.query
    }

    /// The totals, in the order of the prefixes.
    pub fn totals(&self) -> impl Iterator<Item = u64> + 'a {
        numbers(self.totals)
    }

    /// Each prefix with its total.
    pub fn counted(&self) -> impl Iterator<Item = (BitString, u64)> + 'a {
        self.query.prefixes().zip(self.totals())
    }

    /// Each prefix with its total as a weighted search reads it.
    pub fn weighed(&self) -> impl Iterator<Item = (BitString, i64)> + 'a {
        self.query.prefixes().zip(self.totals().map(signed_total))
    }
}

/// The record of a search, checked: the number of reports, and the rounds, whose prefixes have 1, 2, 3 bits and so on.
///
/// ```
/// use tally::{search, Expander, Record, Refusal, Reports};
///
/// let none = Reports { seeds: &[], public_shares: &[] };
/// let found = search(8, 1, Expander::Aes, none, none)?;
/// let record = Record::new(&found.record).unwrap();
/// println!("{} reports", record.reports());
/// for round in record.rounds() {
///     for (prefix, total) in round.counted() {
///         println!("{prefix} {total}");
///     }
/// }
/// # Ok::<(), Refusal>(())
/// ```
#[derive(Clone, Copy, Debug, PartialEq, Eq)]
pub struct Record<'a> {
    reports: u64,
    bytes: &'a [u8],
}

impl<'a> Record<'a> {
    /// The record in some bytes, which may have no round yet: then they are the number of reports alone, 8 bytes.
    ///
    /// `None` where there are fewer than 8, the number of reports is above 65,535, which no search takes, what follows is not whole rounds, a query
    /// is not as laid out, a round's prefixes are not one bit longer than those of the round before, or a total is p or more. The number of reports
    /// is not compared with the totals: with weights other than one they do not tell it.
    ///
    /// ```
    /// use tally::{Record, FIRST_QUERY};
    ///
    /// let record = [&2u64.to_be_bytes()[..], &FIRST_QUERY, &[0; 16]].concat();
    /// assert_eq!(Record::new(&record).unwrap().rounds().count(), 1);
    /// assert_eq!(Record::new(&record[..8]).unwrap().rounds().count(), 0);
    /// assert!(Record::new(&record[1..]).is_none());
    /// assert!(Record::new(&65_536u64.to_be_bytes()).is_none());
    /// ```
    pub fn new(bytes: &'a [u8]) -> Option<Record<'a>> {
        let (reports, _) = headed(bytes)?;
        if reports > REPORTS_MOST as u64 {
            return None;
        }
        let record = Record { reports, bytes };
        let (mut length, mut bits) = (HEADING_LENGTH, 0);
        for round in record.rounds() {
            bits += 1;
            length += round.query.bytes.len() + round.totals.len();
            let below = round.totals().all(|total| total < GROUP_ORDER);
            if round.query.length != bits || !below {
                return None;
            }
        }
        (length == bytes.len()).then_some(record)
    }

    /// How many reports the search was lent, honest or not.
    ///
    /// Where all are honest and of weight one, the first two totals add to it.
    ///
    /// ```
    /// use tally::{make_key, search, Expander, Record, Refusal, Reports};
    ///
    /// let public_share = make_key(8, Expander::Aes, &[0xbe], &[1; 16], &[2; 16])?;
    /// let zero = Reports { seeds: &[[1; 16]], public_shares: &public_share };
    /// let one = Reports { seeds: &[[2; 16]], public_shares: &public_share };
    /// let found = search(8, 1, Expander::Aes, zero, one)?;
    /// assert_eq!(Record::new(&found.record).unwrap().reports(), 1);
    /// # Ok::<(), Refusal>(())
    /// ```
    pub fn reports(&self) -> u64 {
        self.reports
    }

    /// The bytes, as the whole search writes them.
    pub fn bytes(&self) -> &'a [u8] {
        self.bytes
    }

    /// The rounds, in order.
    pub fn rounds(&self) -> impl Iterator<Item = Round<'a>> + 'a {
        levels(self.bytes).map_while(|level| {
            Some(Round {
                query: Query::new(level.query).ok()?,
                totals: level.totals,
            })
        })
    }
}

/// The list of a search, checked: strings of n bits.
///
/// ```
/// use tally::List;
///
/// let list = List::new(9, &[0x01, 0x80, 0xff, 0x00]).unwrap();
/// let strings: Vec<String> = list.strings().map(|string| string.to_string()).collect();
/// assert_eq!(strings, ["000000011", "111111110"]);
/// ```
#[derive(Clone, Copy, Debug, PartialEq, Eq)]
pub struct List<'a> {
    n: u64,
    bytes: &'a [u8],
}

impl<'a> List<'a> {
    /// The list of strings of n bits in some bytes; it may be empty.
    ///
    /// `None` where n is not from 1 to 256, the bytes are not whole strings, a spare bit is set, or the strings are not strictly ascending.
    ///
    /// ```
    /// use tally::List;
    ///
    /// assert!(List::new(8, &[]).is_some());
    /// assert!(List::new(8, &[2, 1]).is_none());
    /// ```
    pub fn new(n: u64, bytes: &'a [u8]) -> Option<List<'a>> {
        let within = (1..=BITS_MOST).contains(&n);
        let whole = within && bytes.len() % packed_length(n) == 0;
        (whole && ascending(n, bytes)).then_some(List { n, bytes })
    }

    /// The string length.
    pub fn n(&self) -> u64 {
        self.n
    }

    /// How many strings there are.
    pub fn count(&self) -> usize {
        self.bytes.len() / packed_length(self.n)
    }

    /// The bytes, as calls write them.
    pub fn bytes(&self) -> &'a [u8] {
        self.bytes
    }

    /// The strings, ascending.
    pub fn strings(&self) -> impl Iterator<Item = BitString> + 'a {
        unpacked(self.n, self.bytes)
    }
}
