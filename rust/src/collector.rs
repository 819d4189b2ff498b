//! The collector of a search: it says what to ask both servers, and checks that the totals add up. This is plain Rust beside the proved library.

use crate::read::numbers;
use crate::{
    add_shares, share_length, Answer, BitString, CollectorError, Expander, Found, Query, Refusal,
    Settings, BITS_MOST, FIRST_QUERY, REPORTS_MOST, THRESHOLD_MOST, WEIGHTED_THRESHOLD_MOST,
};

/// Plays the loop of a search between two servers: it gives the query that both are to answer, takes their shares, and so on until the list.
///
/// With honest servers and reports the totals of `0` and `1` add to the number of reports, and the totals of two children to that of their
/// parent. Where they do not, a server left out or repeated a report or sent other numbers, or a report is ill-formed; [`Collector::answers`]
/// then names the prefix. Totals that add up are no proof of honesty: a count moved from a prefix to its sibling is not seen.
///
/// In a weighted search, which [`Settings::collector`] begins, the first two totals may add to anything that the reports' weights can. The
/// totals of two children add to that of their parent as signed numbers, and no total is beyond what the weights of all reports can add to.
///
/// ```
/// use tally::{make_key, share, Collector, CollectorError, Expander, Reports, Server};
///
/// // One installation holds `01`.
/// let public_share = make_key(2, Expander::Aes, &[0b0100_0000], &[1; 16], &[2; 16])?;
/// let zero = Reports { seeds: &[[1; 16]], public_shares: &public_share };
/// let one = Reports { seeds: &[[2; 16]], public_shares: &public_share };
///
/// let mut collector = Collector::new(2, 1, 1)?;
/// while let Some(query) = collector.query() {
///     let share0 = share(2, Expander::Aes, Server::Zero, zero, query)?;
///     let share1 = share(2, Expander::Aes, Server::One, one, query)?;
///     collector.answers(&share0, &share1)?;
/// }
/// assert_eq!(collector.list(), Some(&[0b0100_0000][..]));
/// # Ok::<(), CollectorError>(())
/// ```
#[derive(Clone, Debug, PartialEq, Eq)]
pub struct Collector {
    settings: Settings,
    reports: i64,
    every_weight_one: bool,
    record: Vec<u8>,
    state: State,
}

/// What a collector has come to.
#[derive(Clone, Debug, PartialEq, Eq)]
enum State {
    /// It waits for answers to a query, which has two children of each parent: a kept prefix, with its total. In the first round the parent is
    /// the empty prefix, with the number of reports, and there is none where weights may differ from one.
    Asking {
        query: Vec<u8>,
        parents: Vec<(BitString, i128)>,
    },
    /// The search is over, with this list.
    Over { list: Vec<u8> },
}

impl Collector {
    /// A collector for strings of n bits, the threshold t, and the number of reports that both servers hold.
    ///
    /// It is [`Settings::collector`] with the usual settings.
    ///
    /// ```
    /// use tally::{Collector, FIRST_QUERY};
    ///
    /// let collector = Collector::new(16, 5, 48).unwrap();
    /// assert_eq!(collector.query(), Some(&FIRST_QUERY[..]));
    /// ```
    ///
    /// # Errors
    ///
    /// * 1, [`Refusal::StringLength`];
    /// * 2, [`Refusal::Threshold`];
    /// * 5, [`Refusal::TooManyReports`].
    pub fn new(n: u64, t: u64, reports: usize) -> Result<Collector, Refusal> {
        Settings::new(n, t, Expander::Aes).collector(reports)
    }

    /// The collector told that every weight of a weighted search is one, as those of another search are without saying: before the first answers
    /// are taken, it then expects the first two totals to add to the number of reports; and no total below 0 or above that number.
    pub fn with_every_weight_one(mut self) -> Collector {
        self.every_weight_one = true;
        match &mut self.state {
            State::Asking { query, parents } if *query == FIRST_QUERY => {
                *parents = vec![(BitString::default(), i128::from(self.reports))];
            }
            _ => {}
        }
        self
    }

    /// The query that both servers are to answer; `None` when the search is over.
    pub fn query(&self) -> Option<&[u8]> {
        match &self.state {
            State::Asking { query, .. } => Some(query),
            State::Over { .. } => None,
        }
    }

    /// Whether the search is over.
    pub fn is_over(&self) -> bool {
        matches!(self.state, State::Over { .. })
    }

    /// Takes the shares of server 0 and server 1 for the [`query`](Collector::query): checks that their totals add up, and goes on to the next
    /// query, or to the list, as [`Settings::combine`] answers.
    ///
    /// ```
    /// use tally::{Collector, CollectorError};
    ///
    /// // Two reports are agreed on, but the totals are 1 for `0` and 2 for `1`.
    /// let mut collector = Collector::new(8, 1, 2)?;
    /// let share0 = [1u64.to_le_bytes(), 2u64.to_le_bytes()].concat();
    /// let taken = collector.answers(&share0, &[0; 16]);
    /// assert_eq!(taken, Err(CollectorError::FirstTotals { expected: 2, found: 3 }));
    /// # Ok::<(), CollectorError>(())
    /// ```
    ///
    /// # Errors
    ///
    /// The first that applies; the collector stays as it was, so that other answers can be taken:
    ///
    /// * [`CollectorError::Over`];
    /// * [`CollectorError::Refused`] with 4, [`Refusal::InputLength`]: a share has not 8 bytes for each prefix of the query;
    /// * [`CollectorError::Refused`] with 6, [`Refusal::GroupNumber`];
    /// * [`CollectorError::Beyond`], in a weighted search, of the first prefix to which it applies;
    /// * [`CollectorError::FirstTotals`], in the first round, where every weight is one;
    /// * [`CollectorError::Children`], in later rounds, of the first prefix to which it applies;
    /// * [`CollectorError::Refused`] with 11, [`Refusal::Space`], in a weighted search: the next query would pass 131,070 prefixes, which honest
    ///   reports never do.
    ///
    /// In a search that is not weighted no query becomes too long, since totals that add up keep no more prefixes than there are reports.
    pub fn answers(&mut self, share0: &[u8], share1: &[u8]) -> Result<(), CollectorError> {
        let State::Asking { query, parents } = &self.state else {
            return Err(CollectorError::Over);
        };
        let length = share_length(query);
        if share0.len() != length || share1.len() != length {
            return Err(CollectorError::Refused(Refusal::InputLength));
        }
        let totals = add_shares(share0, share1)?;
        let read = |bytes| numbers(bytes).map(|total| self.settings.read(total));
        let weighed = || Query::new(query).map(|query| query.prefixes().zip(read(&totals)));
        self.within(weighed()?)?;
        add_up(
            parents,
            totals.chunks_exact(16).map(|pair| read(pair).sum()),
        )?;
        let next = match self.settings.combine(query, share0, share1)? {
            Answer::Next(next) => {
                let least = i128::from(self.settings.threshold);
                State::Asking {
                    query: next,
                    parents: weighed()?.filter(|&(_, total)| least <= total).collect(),
                }
            }
            Answer::List(list) => State::Over { list },
            Answer::Ended => State::Over { list: Vec::new() },
        };
        self.record.extend(query);
        self.record.extend(&totals);
        self.state = next;
        Ok(())
    }

    /// Refuses totals of a weighted search that are beyond what the weights of all reports can add to.
    fn within(
        &self,
        mut weighed: impl Iterator<Item = (BitString, i128)>,
    ) -> Result<(), CollectorError> {
        let (least, most) = match self.every_weight_one {
            true => (0, 1),
            false => (i16::MIN, i16::MAX),
        };
        let [least, most] =
            [least, most].map(|weight| i128::from(weight) * i128::from(self.reports));
        let beyond = |&(_, total): &(BitString, i128)| total < least || most < total;
        match weighed.find(beyond) {
            Some((prefix, found)) if self.settings.weighted => {
                Err(CollectorError::Beyond { prefix, found })
            }
            _ => Ok(()),
        }
    }

    /// The record so far, as the whole search writes it: the number of reports, from the start, and then each answered query followed by its
    /// totals; [`Record`](crate::Record) reads it.
    pub fn record(&self) -> &[u8] {
        &self.record
    }

    /// The list, when the search is over; [`List`](crate::List) reads it.
    pub fn list(&self) -> Option<&[u8]> {
        match &self.state {
            State::Asking { .. } => None,
            State::Over { list } => Some(list),
        }
    }

    /// The record and the list, when the search is over.
    ///
    /// ```
    /// use tally::{search, Collector, CollectorError, Expander, Reports};
    ///
    /// let mut collector = Collector::new(8, 1, 0)?;
    /// collector.answers(&[0; 16], &[0; 16])?;
    /// let none = Reports { seeds: &[], public_shares: &[] };
    /// assert_eq!(collector.into_found(), Some(search(8, 1, Expander::Aes, none, none)?));
    /// # Ok::<(), CollectorError>(())
    /// ```
    pub fn into_found(self) -> Option<Found> {
        let record = self.record;
        match self.state {
            State::Asking { .. } => None,
            State::Over { list } => Some(Found { record, list }),
        }
    }
}

impl Settings {
    /// A collector for these settings, and the number of reports that both servers hold; it does not ask for the expander.
    ///
    /// The record begins with this number. In a search that is not weighted the first two totals must add to it; in a weighted one only where the
    /// collector is told [`with_every_weight_one`](Collector::with_every_weight_one). Otherwise a wrong number is seen only where a total is beyond
    /// what so many weights can add to, and else stays in the record.
    ///
    /// ```
    /// use tally::{CollectorError, Expander, Settings, GROUP_ORDER};
    ///
    /// // Two reports weigh 700 and −200 bytes: the totals are −200 for `0` and 700 for `1`.
    /// let mut collector = Settings::new(1, 500, Expander::Aes).weighted().collector(2)?;
    /// let share0 = [(GROUP_ORDER - 200).to_le_bytes(), 700u64.to_le_bytes()].concat();
    /// collector.answers(&share0, &[0; 16])?;
    /// assert_eq!(collector.list(), Some(&[0x80][..]));
    /// # Ok::<(), CollectorError>(())
    /// ```
    ///
    /// # Errors
    ///
    /// * 1, [`Refusal::StringLength`];
    /// * 2, [`Refusal::Threshold`], or in a weighted search 12, [`Refusal::WeightedThreshold`];
    /// * 5, [`Refusal::TooManyReports`].
    pub fn collector(&self, reports: usize) -> Result<Collector, Refusal> {
        let (most, outside) = match self.weighted {
            true => (WEIGHTED_THRESHOLD_MOST, Refusal::WeightedThreshold),
            false => (THRESHOLD_MOST, Refusal::Threshold),
        };
        if !(1..=BITS_MOST).contains(&self.n) {
            return Err(Refusal::StringLength);
        }
        if !(1..=most).contains(&self.threshold) {
            return Err(outside);
        }
        if reports > REPORTS_MOST {
            return Err(Refusal::TooManyReports);
        }
        let collector = Collector {
            settings: *self,
            reports: reports as i64,
            every_weight_one: false,
            record: (reports as u64).to_be_bytes().to_vec(),
            state: State::Asking {
                query: FIRST_QUERY.to_vec(),
                parents: Vec::new(),
            },
        };
        Ok(match self.weighted {
            true => collector,
            false => collector.with_every_weight_one(),
        })
    }
}

/// Refuses sums of two children's totals that are not their parent's total.
fn add_up(
    parents: &[(BitString, i128)],
    sums: impl Iterator<Item = i128>,
) -> Result<(), CollectorError> {
    match parents
        .iter()
        .zip(sums)
        .find(|((_, total), sum)| total != sum)
    {
        None => Ok(()),
        Some((&(prefix, expected), found)) if prefix.length() == 0 => {
            Err(CollectorError::FirstTotals { expected, found })
        }
        Some((&(prefix, expected), found)) => Err(CollectorError::Children {
            prefix,
            expected,
            found,
        }),
    }
}
