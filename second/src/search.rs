//! The whole search.

use crate::combine::{answer, totals, Answer};
use crate::expander::Expander;
use crate::query::{self, Query};
use crate::share::Reports;
use crate::{field, judge, Found};

/// Writes the record and the list of a whole search.
#[allow(clippy::too_many_arguments)]
pub fn search(
    n: u64,
    weighted: bool,
    t: u64,
    expander: u64,
    seeds0: &[u8],
    public_shares0: &[u8],
    seeds1: &[u8],
    public_shares1: &[u8],
    record: &mut [u8],
    list: &mut [u8],
) -> Found {
    let refused = |number| Found {
        number,
        record_length: 0,
        list_length: 0,
    };
    let number = judge::search(
        n,
        weighted,
        t,
        expander,
        seeds0,
        public_shares0,
        seeds1,
        public_shares1,
        record.len(),
        list.len(),
    );
    if number != 0 {
        return refused(number);
    }
    let n = n as usize;
    let lent = |seeds, public_shares| Reports {
        n,
        seeds,
        public_shares,
    };
    let reports0 = lent(seeds0, public_shares0);
    let reports1 = lent(seeds1, public_shares1);
    let totals_of = |query: &Query| {
        let expander = Expander::of(expander);
        let share0 = reports0.sums(expander, false, query);
        let share1 = reports1.sums(expander, true, query);
        totals(&share0, &share1)
    };
    let answer_to = |query: &Query, totals: &[u64]| answer(n, weighted, t, query, totals);
    let Some((levels, made_list)) = run(n, answer_to, totals_of, record.len(), list.len()) else {
        record.fill(0);
        return refused(11);
    };
    let made_record = [&head(reports0.count())[..], &levels].concat();
    record[..made_record.len()].copy_from_slice(&made_record);
    list[..made_list.len()].copy_from_slice(&made_list);
    Found {
        number,
        record_length: made_record.len() as u64,
        list_length: made_list.len() as u64,
    }
}

/// The head of a record: the number of reports, most significant byte first.
fn head(reports: usize) -> [u8; 8] {
    std::array::from_fn(|i| (reports as u64 >> (8 * (7 - i))) as u8)
}

/// The record after its head, and the list.
type Outcome = (Vec<u8>, Vec<u8>);

/// The search with the totals of each query and the answer to them, where the judge finds that
/// everything fits.
fn run(
    n: usize,
    answer_to: impl Fn(&Query, &[u64]) -> Answer,
    totals_of: impl Fn(&Query) -> Vec<u64>,
    record_space: usize,
    list_space: usize,
) -> Option<Outcome> {
    let mut levels = Vec::new();
    let mut asked = query::first();
    loop {
        let query = Query::of(&asked);
        if !judge::next_passes(query.count)
            || !judge::level_fits(record_space, levels.len(), query.length, query.count)
        {
            return None;
        }
        let totals = totals_of(&query);
        levels.extend_from_slice(&asked);
        levels.extend(totals.iter().flat_map(|&total| field::write(total)));
        let list = match answer_to(&query, &totals) {
            Answer::Next(next) => {
                asked = next;
                continue;
            }
            Answer::List(list) => list,
            Answer::Ended => Vec::new(),
        };
        let count = list.len() / query::packed_size(n);
        return judge::list_fits(list_space, n, count).then_some((levels, list));
    }
}

#[cfg(test)]
mod tests {
    use super::*;

    #[test]
    fn heads() {
        assert_eq!(head(0), [0; 8]);
        assert_eq!(head(1), [0, 0, 0, 0, 0, 0, 0, 1]);
        assert_eq!(head(255), [0, 0, 0, 0, 0, 0, 0, 255]);
        assert_eq!(head(256), [0, 0, 0, 0, 0, 0, 1, 0]);
        assert_eq!(head(65_535), [0, 0, 0, 0, 0, 0, 255, 255]);
        assert_eq!(head(0x0102_0304), [0, 0, 0, 0, 1, 2, 3, 4]);
        assert!((0..65_536).all(|reports| head(reports) == (reports as u64).to_be_bytes()));
    }
}
