//! The measure of a whole search.

use crate::aes::{over_each, Aes, Seed, Work};
use crate::plain_share::{write_sums, Walk};
use crate::same_aes::SameCode;
use crate::timing::{Measure, Subject, Timed};
use crate::Plan;
use crate::{plain_idpf, plain_search};
use tally::{Expander, Reports, Settings};

/// Record and list of a search.
pub type Found = (Vec<u8>, Vec<u8>);

/// An honest collection: the reports lent to each server for strings of n bits, ten of which are held by one installation in fifty each. In a
/// weighted search the same strings weigh from −2 to 4, and one on average.
pub struct Collection {
    pub settings: Settings,
    seeds: [Vec<Seed>; 2],
    public_shares: Vec<u8>,
}

/// Numbers that look random and are the same in each run.
fn numbers() -> impl FnMut() -> u64 {
    let mut state = 0x9e37_79b9_7f4a_7c15u64;
    move || {
        state ^= state << 13;
        state ^= state >> 7;
        state ^= state << 17;
        state
    }
}

/// The packed string of n bits of installation i.
fn held(n: usize, i: usize, next: &mut impl FnMut() -> u64) -> Vec<u8> {
    let mut packed: Vec<u8> = (0..n.div_ceil(8)).map(|_| next() as u8).collect();
    if i % 50 < 10 {
        packed.fill(23 * (i % 50) as u8);
    }
    for byte in &mut packed[n / 8..] {
        *byte &= !(255 >> (n % 8));
    }
    packed
}

impl Collection {
    pub fn new(settings: Settings, count: usize) -> Collection {
        let (n, mut next) = (settings.n as usize, numbers());
        let mut made = Collection {
            settings,
            seeds: [Vec::new(), Vec::new()],
            public_shares: Vec::new(),
        };
        let mut key = vec![0u8; plain_idpf::public_share_length(n)];
        for i in 0..count {
            let seeds = [0u8, 1].map(|server| {
                let mut seed = [server; 16];
                seed[..8].copy_from_slice(&(i as u64).to_le_bytes());
                seed
            });
            let weight = match settings.weighted {
                true => (i % 7) as i16 - 2,
                false => 1,
            };
            let string = held(n, i, &mut next);
            plain_idpf::make_key(SameCode, n, weight, &string, seeds, &mut key);
            for (all, seed) in made.seeds.iter_mut().zip(seeds) {
                all.push(seed);
            }
            made.public_shares.extend_from_slice(&key);
        }
        made
    }

    /// What each server is lent.
    pub fn lent(&self) -> [Reports<'_>; 2] {
        [0, 1].map(|server| Reports {
            seeds: &self.seeds[server],
            public_shares: &self.public_shares,
        })
    }

    /// Areas made anew, and of them what a search wrote.
    pub fn found(&self, search: impl Fn(&mut [u8], &mut [u8]) -> Option<(usize, usize)>) -> Found {
        let (mut record, mut list) = (vec![0u8; 1 << 20], vec![0u8; 1 << 16]);
        let (record_length, list_length) = search(&mut record, &mut list).expect("accepted");
        record.truncate(record_length);
        list.truncate(list_length);
        (record, list)
    }

    /// The proved search.
    pub fn proved(&self) -> Found {
        let [zero, one] = self.lent();
        self.found(|record, list| {
            let made = self.settings.search_into(zero, one, record, list);
            made.ok().map(|found| (found.record, found.list))
        })
    }
}

/// The whole search in plain Rust, by one way to walk.
#[derive(Clone, Copy)]
pub struct Searches<'a> {
    pub collection: &'a Collection,
    pub walk: Walk,
}

impl Work for Searches<'_> {
    type Output = Found;

    fn run<A: Aes>(self, aes: A, _: usize) -> Found {
        let (settings, lent) = (self.collection.settings, self.collection.lent());
        let write_share = |server: bool, query: &[u8], out: &mut [u8]| {
            let (n, lent) = (settings.n as usize, lent[usize::from(server)]);
            let length = usize::from(u16::from_be_bytes([query[0], query[1]])) + 1;
            write_sums(aes, self.walk, n, server, lent, (length, &query[6..]), out);
        };
        self.collection
            .found(|record, list| plain_search::search(settings, lent, write_share, record, list))
    }
}

/// A whole search of 1,000 reports, or a small one for a check; a weighted one only by the shared walk.
pub fn measure_search(plan: &Plan, weighted: bool) -> Timed {
    let (n, count, t) = match plan.check {
        true => (16, 50, 2),
        false => (32, 1_000, 10),
    };
    let settings = Settings::new(n, t, Expander::Aes);
    let (settings, kind, walks) = match weighted {
        true => (settings.weighted(), "weighted", &[Walk::Shared][..]),
        false => (settings, "whole", &[Walk::FromRoot, Walk::Shared][..]),
    };
    let measure = Measure {
        title: format!("a {kind} search, C = {count}, n = {n}, t = {t}"),
        cleared: "yes, made anew as zero bytes",
        calls: 1,
        parts: 1,
        rounds: plan.few(),
    };
    let collection = Collection::new(settings, count);
    let mut subjects = vec![Subject::proved(|_| collection.proved())];
    for &walk in walks {
        let collection = &collection;
        subjects.extend(over_each(walk.name(), Searches { collection, walk }));
    }
    measure.compare(subjects)
}
