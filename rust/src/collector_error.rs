//! Why a collector did not take two answers.

use crate::{BitString, Refusal};
use std::error::Error;
use std::fmt;

/// Why a collector did not take two answers. It is then as it was before.
///
/// ```
/// use tally::{BitString, CollectorError};
///
/// let error = CollectorError::Children {
///     prefix: BitString::from_digits("01").unwrap(),
///     expected: 5,
///     found: 4,
/// };
/// assert_eq!(error.to_string(), "the totals of 010 and 011 add to 4, not to 5, the total of 01");
/// ```
#[non_exhaustive]
#[derive(Clone, Copy, Debug, PartialEq, Eq)]
pub enum CollectorError {
    /// A share has not 8 bytes for each prefix of the query, or has a number that is p or more.
    Refused(Refusal),
    /// The first totals, those of `0` and `1`, do not add to the agreed number of reports.
    FirstTotals {
        /// What they should add to: the number of reports.
        expected: i128,
        /// The sum, as a whole number.
        found: i128,
    },
    /// The totals of the two children of a kept prefix do not add to its own.
    Children {
        /// The kept prefix.
        prefix: BitString,
        /// Its total, in a weighted search as a signed number.
        expected: i128,
        /// The sum of its children's totals, as whole numbers, in a weighted search signed ones.
        found: i128,
    },
    /// A total of a weighted search is beyond what the weights of all reports can add to.
    Beyond {
        /// The prefix.
        prefix: BitString,
        /// Its total, as a signed number.
        found: i128,
    },
    /// The search is over, so no answers are due.
    Over,
}

impl From<Refusal> for CollectorError {
    fn from(refusal: Refusal) -> CollectorError {
        CollectorError::Refused(refusal)
    }
}

impl fmt::Display for CollectorError {
    fn fmt(&self, f: &mut fmt::Formatter<'_>) -> fmt::Result {
        match self {
            CollectorError::Refused(refusal) => write!(f, "{refusal}"),
            CollectorError::FirstTotals { expected, found } => write!(
                f,
                "the totals of 0 and 1 add to {found}, not to {expected}, the number of reports"
            ),
            CollectorError::Children {
                prefix,
                expected,
                found,
            } => write!(
                f,
                "the totals of {prefix}0 and {prefix}1 add to {found}, not to {expected}, the total of {prefix}"
            ),
            CollectorError::Beyond { prefix, found } => write!(
                f,
                "the total of {prefix} is {found}, to which the weights of all reports cannot add"
            ),
            CollectorError::Over => f.write_str("the search is over, so no answers are due"),
        }
    }
}

impl Error for CollectorError {}
