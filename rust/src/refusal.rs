//! Why a call was refused.

use std::error::Error;
use std::fmt;

/// Why a call was refused: the first of the causes that applies, in the order of their numbers, but 10 before any other, 12 in the place of 2, and
/// 11 after 13 and 14.
///
/// A refused call leaves every lent byte and node as it was, except that [`search_into`](crate::search_into) makes the record area zero when it
/// refuses with [`Refusal::Space`].
///
/// ```
/// use tally::{make_key, Expander, Refusal};
///
/// let refusal = make_key(257, Expander::Aes, &[0; 33], &[1; 16], &[2; 16]).unwrap_err();
/// assert_eq!(refusal, Refusal::StringLength);
/// assert_eq!(refusal.number(), 1);
/// assert_eq!(refusal.to_string(), "the string length n is not from 1 to 256");
/// ```
#[non_exhaustive]
#[derive(Clone, Copy, Debug, PartialEq, Eq, Hash)]
pub enum Refusal {
    /// 1: the string length n is not from 1 to 256.
    StringLength,
    /// 2: the threshold t is not from 1 to 65,535, in a search that is not weighted.
    Threshold,
    /// 3: the expander is not 1 or 2; only [`Expander::try_from`](crate::Expander) and [`exam`](crate::exam()) meet it, since the other calls
    /// take an `Expander`.
    Expander,
    /// 4: a lent input has the wrong length, seeds and public shares disagree in count, or the two servers' counts differ.
    InputLength,
    /// 5: there are more than 65,535 reports.
    TooManyReports,
    /// 6: a group number is p or more.
    GroupNumber,
    /// 7: spare bits are set in a string or in a public share.
    SpareBits,
    /// 8: the two servers' public shares differ.
    PublicSharesDiffer,
    /// 9: the query, or the last query, is not as laid out, is outside its limits, or its prefixes are longer than n.
    Query,
    /// 10: the exam text is not as laid out; only [`exam`](crate::exam()) and [`exam_into`](crate::exam_into) meet it, and [`respond`](crate::respond)
    /// writes it as text.
    ExamText,
    /// 11: what is to be written would not fit the lent space, or a next query would pass 131,070 prefixes.
    Space,
    /// 12: the threshold t of a weighted search is not from 1 to 2,147,483,647.
    WeightedThreshold,
    /// 13: there are fewer nodes than reports × prefixes of the last query or of the new one, or at the roots than seeds.
    TooFewNodes,
    /// 14: the parent of a prefix, the prefix without its last bit, was not in the last query.
    NoParent,
    /// The library answered what its contract rules out, with this number: it never comes from the proved library, only from another one
    /// linked under its name. What was written is then unknown, and the call returns this instead of any answer.
    Unknown(u64),
}

impl Refusal {
    /// The number of the cause.
    ///
    /// ```
    /// assert_eq!(tally::Refusal::Space.number(), 11);
    /// ```
    pub fn number(self) -> u64 {
        match self {
            Refusal::StringLength => 1,
            Refusal::Threshold => 2,
            Refusal::Expander => 3,
            Refusal::InputLength => 4,
            Refusal::TooManyReports => 5,
            Refusal::GroupNumber => 6,
            Refusal::SpareBits => 7,
            Refusal::PublicSharesDiffer => 8,
            Refusal::Query => 9,
            Refusal::ExamText => 10,
            Refusal::Space => 11,
            Refusal::WeightedThreshold => 12,
            Refusal::TooFewNodes => 13,
            Refusal::NoParent => 14,
            Refusal::Unknown(number) => number,
        }
    }

    /// The cause with a number other than 0.
    pub(crate) fn numbered(number: u64) -> Refusal {
        match number {
            1 => Refusal::StringLength,
            2 => Refusal::Threshold,
            3 => Refusal::Expander,
            4 => Refusal::InputLength,
            5 => Refusal::TooManyReports,
            6 => Refusal::GroupNumber,
            7 => Refusal::SpareBits,
            8 => Refusal::PublicSharesDiffer,
            9 => Refusal::Query,
            10 => Refusal::ExamText,
            11 => Refusal::Space,
            12 => Refusal::WeightedThreshold,
            13 => Refusal::TooFewNodes,
            14 => Refusal::NoParent,
            other => Refusal::Unknown(other),
        }
    }
}

impl fmt::Display for Refusal {
    fn fmt(&self, f: &mut fmt::Formatter<'_>) -> fmt::Result {
        f.write_str(match self {
            Refusal::StringLength => "the string length n is not from 1 to 256",
            Refusal::Threshold => "the threshold t is not from 1 to 65,535",
            Refusal::Expander => "the expander is not 1 or 2",
            Refusal::InputLength => {
                "a lent input has the wrong length, seeds and public shares disagree in count, or the two servers' counts differ"
            }
            Refusal::TooManyReports => "there are more than 65,535 reports",
            Refusal::GroupNumber => "a group number is p or more",
            Refusal::SpareBits => "spare bits are set in a string or in a public share",
            Refusal::PublicSharesDiffer => "the two servers' public shares differ",
            Refusal::Query => {
                "the query, or the last query, is not as laid out, is outside its limits, or its prefixes are longer than n"
            }
            Refusal::ExamText => "the exam text is not as laid out",
            Refusal::Space => {
                "what is to be written would not fit the lent space, or a next query would pass 131,070 prefixes"
            }
            Refusal::WeightedThreshold => {
                "the threshold t of a weighted search is not from 1 to 2,147,483,647"
            }
            Refusal::TooFewNodes => {
                "there are fewer nodes than reports × prefixes of the last query or of the new one, or at the roots than seeds"
            }
            Refusal::NoParent => "the parent of a prefix was not in the last query",
            Refusal::Unknown(number) => {
                return write!(f, "the linked library answered what its contract rules out, with number {number}")
            }
        })
    }
}

impl Error for Refusal {}

#[cfg(test)]
mod tests {
    use super::Refusal;

    #[test]
    fn numbers_and_causes_agree() {
        for number in 1..=20 {
            let refusal = Refusal::numbered(number);
            assert_eq!(refusal.number(), number);
            let known = number <= 14;
            assert_eq!(matches!(refusal, Refusal::Unknown(_)), !known);
        }
    }
}
