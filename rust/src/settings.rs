//! The settings of a search, with what most searches take where nothing is said.

use crate::{signed_total, Expander};

/// The settings of a search: what the firms agree on before it, and what its calls are told.
///
/// [`Settings::new`] takes what every search needs, and the other settings then have their usual values: the search is not weighted. [`search`],
/// [`combine`], [`record_space`], [`list_space`] and [`Collector::new`] are the same calls under these usual values. The values are judged by the
/// calls, not here.
///
/// ```
/// use tally::{make_weighted_key, Expander, Refusal, Reports, Settings};
///
/// // One feature, `01`, saved 700 bytes at one installation and lost 200 at another.
/// let seeds = [[[1; 16], [2; 16]], [[3; 16], [4; 16]]];
/// let mut public_shares = Vec::new();
/// for (weight, [seed0, seed1]) in [700, -200].iter().zip(&seeds) {
///     public_shares.extend(make_weighted_key(2, Expander::Aes, *weight, &[0b0100_0000], seed0, seed1)?);
/// }
/// let zero = Reports { seeds: &[[1; 16], [3; 16]], public_shares: &public_shares };
/// let one = Reports { seeds: &[[2; 16], [4; 16]], public_shares: &public_shares };
///
/// let found = Settings::new(2, 500, Expander::Aes).weighted().search(zero, one)?;
/// assert_eq!(found.list, [0b0100_0000]);
/// # Ok::<(), Refusal>(())
/// ```
///
/// [`search`]: crate::search()
/// [`combine`]: crate::combine()
/// [`record_space`]: crate::record_space()
/// [`list_space`]: crate::list_space()
/// [`Collector::new`]: crate::Collector::new
#[non_exhaustive]
#[derive(Clone, Copy, Debug, PartialEq, Eq, Hash)]
pub struct Settings {
    /// The string length n.
    pub n: u64,
    /// The threshold t.
    pub threshold: u64,
    /// The expander; combining and a collector do not ask for it.
    pub expander: Expander,
    /// Whether totals are sums of weights, read as signed numbers.
    pub weighted: bool,
}

impl Settings {
    /// The settings of a search that is not weighted, for strings of n bits, the threshold t and an expander.
    pub fn new(n: u64, threshold: u64, expander: Expander) -> Settings {
        Settings {
            n,
            threshold,
            expander,
            weighted: false,
        }
    }

    /// The same settings for a weighted search.
    pub fn weighted(self) -> Settings {
        Settings {
            weighted: true,
            ..self
        }
    }

    /// Whether a prefix with this total is kept, where the threshold is within its bounds: the total, in a weighted search read by
    /// [`signed_total`], is at least t.
    ///
    /// ```
    /// use tally::{Expander, Settings, GROUP_ORDER};
    ///
    /// let settings = Settings::new(2, 5, Expander::Aes);
    /// assert!(settings.keeps(5) && !settings.keeps(4));
    /// assert!(settings.keeps(GROUP_ORDER - 5) && !settings.weighted().keeps(GROUP_ORDER - 5));
    /// ```
    pub fn keeps(&self, total: u64) -> bool {
        i128::from(self.threshold) <= self.read(total)
    }

    /// A total as this search reads it.
    pub(crate) fn read(&self, total: u64) -> i128 {
        if self.weighted {
            i128::from(signed_total(total))
        } else {
            i128::from(total)
        }
    }
}
