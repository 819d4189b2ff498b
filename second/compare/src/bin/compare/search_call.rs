//! A call of the whole search, as it is compared.

use compare::make::Reports;

/// A call of the search, with the sizes of its two areas.
#[derive(Clone)]
pub struct Call {
    pub n: u64,
    pub weighted: bool,
    pub t: u64,
    pub expander: u64,
    pub seeds: [Vec<u8>; 2],
    pub public: [Vec<u8>; 2],
    pub record_room: usize,
    pub list_room: usize,
}

impl Call {
    /// The unweighted search of these reports, each server with its own copy, and no room yet.
    pub fn of(reports: Reports, t: u64, expander: u64) -> Call {
        Call {
            n: reports.n as u64,
            weighted: false,
            t,
            expander,
            seeds: reports.seeds,
            public: [reports.public.clone(), reports.public],
            record_room: 0,
            list_room: 0,
        }
    }

    /// The weighted search of these reports.
    pub fn weighted(reports: Reports, t: u64, expander: u64) -> Call {
        Call {
            weighted: true,
            ..Call::of(reports, t, expander)
        }
    }

    /// The second program's answer with areas of these sizes.
    pub fn ours(&self, record_room: usize, list_room: usize) -> second::Found {
        second::search(
            self.n,
            self.weighted,
            self.t,
            self.expander,
            &self.seeds[0],
            &self.public[0],
            &self.seeds[1],
            &self.public[1],
            &mut vec![0; record_room],
            &mut vec![0; list_room],
        )
    }
}
