//! Fixed calls of the whole unweighted search, each with what it must give where documents 01 and 02
//! say it.
//!
//! Honest reports of few and many bits; the sheet's A and D to J; areas around the fit; totals of
//! any size, light parents of heavy children; every byte of a report changed; hostile reports;
//! every cause alone, in twos and with all higher ones; the largest counts and next queries.

use crate::searches::{Call, LIST, RECORD};
use compare::make::*;
use compare::tally::Outcome;
use second::field::{add, negate, read, P};
use second::keys::{head_size, public_share_size};
use second::query::{first, pack, packed_size, write};
use second::rng::Rng;

/// What a call must give.
pub enum Wanted {
    /// This number.
    Refused(u64),
    /// 0 with any record and list.
    Passed,
    /// 0 with this record and this list.
    Found(Vec<u8>, Vec<u8>),
}

impl Wanted {
    /// The first numbers that it must return.
    pub fn numbers(&self) -> Vec<u64> {
        match self {
            Wanted::Refused(number) => vec![*number, 0, 0],
            Wanted::Passed => vec![0],
            Wanted::Found(record, list) => vec![0, record.len() as u64, list.len() as u64],
        }
    }

    /// Whether the record and the list were written as they must be.
    pub fn written(&self, theirs: &Outcome) -> bool {
        match self {
            Wanted::Found(record, list) => {
                theirs.spaces[RECORD].first(record.len() as u64) == record
                    && theirs.spaces[LIST].first(list.len() as u64) == list
            }
            _ => true,
        }
    }
}

/// What takes each call: its name, what it must give, the call.
pub type Take<'a> = &'a mut dyn FnMut(&'static str, Wanted, Call);

/// Hands over every fixed call.
pub fn each(mut take: impl FnMut(&'static str, Wanted, Call)) {
    let mut rng = Rng::new(1);
    for expander in [1, 2] {
        sheet(&mut rng, expander, &mut take);
        honest(&mut rng, expander, &mut take);
        areas(&mut rng, expander, &mut take);
        given_totals(&mut rng, expander, &mut take);
        changed_bytes(&mut rng, expander, &mut take);
        hostile(&mut rng, expander, &mut take);
        causes(&mut rng, expander, &mut take);
    }
    largest_counts(&mut rng, &mut take);
    largest_queries(&mut rng, &mut take);
}

/// A string with the totals its report is to give at its prefixes; honest where each is 1.
pub struct Report {
    pub string: Vec<bool>,
    pub totals: Vec<u64>,
}

impl Report {
    pub fn honest(string: &[bool]) -> Report {
        Report {
            string: string.to_vec(),
            totals: vec![1; string.len()],
        }
    }
}

pub fn bits(text: &str) -> Vec<bool> {
    text.chars().map(|c| c == '1').collect()
}

/// A search and what it must write, from strings and totals without keys.
pub struct Search {
    pub call: Call,
    pub record: Vec<u8>,
    /// Where each level ends in the record.
    pub ends: Vec<usize>,
    pub list: Vec<u8>,
    /// The nodes that both servers reach one by one.
    nodes: usize,
}

impl Search {
    /// The search of a call of such reports.
    pub fn of(call: Call, reports: &[Report]) -> Search {
        let (n, t) = (call.n as usize, call.t);
        let mut record = (reports.len() as u64).to_be_bytes().to_vec();
        let (mut ends, mut list) = (Vec::new(), Vec::new());
        let mut nodes = 0;
        let mut asked = vec![vec![false], vec![true]];
        for length in 1..=n {
            let packed: Vec<Vec<u8>> = asked.iter().map(|prefix| pack(prefix)).collect();
            record.extend(write(length, &packed));
            let mut kept: Vec<Vec<bool>> = Vec::new();
            for prefix in asked {
                let holders = reports.iter().filter(|r| r.string.starts_with(&prefix));
                let total = holders.fold(0, |sum, r| add(sum, r.totals[length - 1]));
                record.extend(total.to_le_bytes());
                nodes += 2 * length * reports.len();
                // A total of the upper half is negative in a weighted search.
                if total >= t && !(call.weighted && total > P / 2) {
                    kept.push(prefix);
                }
            }
            ends.push(record.len());
            if length == n {
                list = kept.iter().flat_map(|string| pack(string)).collect();
            }
            if kept.is_empty() {
                break;
            }
            let children =
                |prefix: Vec<bool>| [false, true].map(|last| [prefix.clone(), vec![last]].concat());
            asked = kept.into_iter().flat_map(children).collect();
        }
        Search {
            call,
            record,
            ends,
            list,
            nodes,
        }
    }

    /// The search of such reports, with seeds of a kind.
    pub fn made(
        rng: &mut Rng,
        n: usize,
        t: u64,
        expander: u64,
        reports: &[Report],
        kind: usize,
    ) -> Search {
        let mut all = Reports::none(n);
        for (i, report) in reports.iter().enumerate() {
            let mut one = Reports::none(n);
            one.add_with(expander, 1, report.string.clone(), seeds(rng, kind, i));
            give_totals(&mut one, expander, &report.totals);
            for server in 0..2 {
                all.seeds[server].extend(&one.seeds[server]);
            }
            all.public.extend(one.public);
        }
        Search::of(Call::of(all, t, expander), reports)
    }

    /// The call with areas of these sizes and what it must give.
    pub fn with_areas(&self, record_room: usize, list_room: usize) -> (Wanted, Call) {
        let mut call = self.call.clone();
        (call.record_room, call.list_room) = (record_room, list_room);
        if record_room < self.record.len() || list_room < self.list.len() {
            return (Wanted::Refused(11), call);
        }
        let wanted = Wanted::Found(self.record.clone(), self.list.clone());
        (wanted, call)
    }

    /// Hands over the call with these many bytes more than it needs.
    pub fn take_with(&self, name: &'static str, more: usize, take: Take) {
        let (wanted, call) = self.with_areas(self.record.len() + more, self.list.len() + more);
        take(name, wanted, call);
    }
}

/// The kinds of root seeds; the last gives each report another one.
pub const KINDS: usize = 7;

/// The root seeds of report i.
pub fn seeds(rng: &mut Rng, kind: usize, i: usize) -> [Vec<u8>; 2] {
    let one = [vec![1], vec![0; 15]].concat();
    match kind % KINDS {
        0 => [rng.bytes(16), rng.bytes(16)],
        1 => [vec![0; 16], vec![0; 16]],
        2 => [vec![0; 16], one],
        3 => {
            let both = rng.bytes(16);
            [both.clone(), both]
        }
        4 => [vec![0xff; 16], rng.bytes(16)],
        5 => [seed(rng), seed(rng)],
        _ => seeds(rng, i % 6, i),
    }
}

/// The total of one report at a prefix.
pub fn total_at(one: &Reports, expander: u64, prefix: &[bool]) -> u64 {
    let query = write(prefix.len(), &[pack(prefix)]);
    let share = |server: bool| {
        let mut share = [0; 8];
        let seeds = &one.seeds[server as usize];
        let n = one.n as u64;
        let reply = second::share(n, expander, server, seeds, &one.public, &query, &mut share);
        assert_eq!(reply.number, 0);
        u64::from_le_bytes(share)
    };
    add(share(false), share(true))
}

/// Changes the payload corrections of one honest report until it gives these totals.
pub fn give_totals(one: &mut Reports, expander: u64, totals: &[u64]) {
    for (level, &wanted) in totals.iter().enumerate().filter(|(_, &total)| total != 1) {
        let prefix = one.strings[0][..level + 1].to_vec();
        let at = head_size(one.n) + 24 * level + 16;
        let before = read(&one.public[at..at + 8]);
        let more = add(wanted, negate(1));
        let mut changed = add(before, more);
        one.public[at..at + 8].copy_from_slice(&changed.to_le_bytes());
        if total_at(one, expander, &prefix) != wanted {
            changed = add(before, negate(more));
            one.public[at..at + 8].copy_from_slice(&changed.to_le_bytes());
        }
        assert_eq!(total_at(one, expander, &prefix), wanted);
    }
}

/// Bytes of the record and the list when every prefix is kept.
pub fn whole_tree(n: usize) -> (usize, usize) {
    let level = |length: usize| 6 + ((packed_size(length) + 8) << length);
    let levels: usize = (1..=n).map(level).sum();
    (8 + levels, packed_size(n) << n)
}

/// The record of three reports with the queries `0`, `1` and `00`, `01`.
fn record_of(totals: [u64; 4]) -> Vec<u8> {
    let numbers = |two: &[u64]| -> Vec<u8> { two.iter().flat_map(|x| x.to_le_bytes()).collect() };
    let second = write(2, &[vec![0x00], vec![0x40]]);
    [
        vec![0, 0, 0, 0, 0, 0, 0, 3],
        first(),
        numbers(&totals[..2]),
        second,
        numbers(&totals[2..]),
    ]
    .concat()
}

/// D to G and J of the sheet with seeds of every kind; A, H and I with theirs.
fn sheet(rng: &mut Rng, expander: u64, take: Take) {
    for (name, strings, totals, list) in [
        ("D and J", ["01", "01", "11"], [2, 1, 0, 2], vec![0x40]),
        ("E", ["01", "01", "10"], [2, 1, 0, 2], vec![0x40]),
        ("F", ["01", "00", "11"], [2, 1, 1, 1], vec![]),
    ] {
        let reports = strings.map(|string| Report::honest(&bits(string)));
        for kind in 0..2 * KINDS {
            let search = Search::made(rng, 2, 2, expander, &reports, kind);
            assert_eq!((&search.record, &search.list), (&record_of(totals), &list));
            assert_eq!(search.record.len(), 56);
            let mut rooms = vec![(56, 1), (56, 0), (68, 9), (55, 1), (55, 0), (0, 9), (0, 0)];
            rooms.extend([7, 8, 9, 31, 32, 33, 47, 48].map(|room| (room, 1)));
            for (record_room, list_room) in rooms {
                let (wanted, call) = search.with_areas(record_room, list_room);
                take(name, wanted, call);
            }
        }
    }
    let none = Call::of(Reports::none(1), 1, expander);
    for (record_room, list_room) in (0..40).map(|room| (room, 0)).chain([(31, 7), (38, 7)]) {
        let mut call = none.clone();
        (call.record_room, call.list_room) = (record_room, list_room);
        let wanted = if record_room < 32 {
            Wanted::Refused(11)
        } else {
            Wanted::Found([vec![0; 8], first(), vec![0; 16]].concat(), vec![])
        };
        take("G", wanted, call);
    }
    for (name, kind) in [("A", 2), ("H", 1)] {
        let report = [Report::honest(&[true])];
        let search = Search::made(rng, 1, 1, expander, &report, kind);
        search.take_with(name, 0, take);
        for number in [P - 1, P, P + 1, u64::MAX] {
            let mut call = search.with_areas(32, 2).1;
            for public in &mut call.public {
                public[17..].copy_from_slice(&number.to_le_bytes());
            }
            let wanted = if number < P {
                Wanted::Passed
            } else {
                Wanted::Refused(6)
            };
            take("I", wanted, call);
        }
    }
}

/// Strings of which some share half, all but the last bit or nothing.
pub fn spread(rng: &mut Rng, n: usize, count: usize) -> Vec<Vec<bool>> {
    let base = rng.bits(n);
    let half = [&base[..n / 2], &rng.bits(n - n / 2)].concat();
    let mut last = base.clone();
    last[n - 1] ^= true;
    let other: Vec<bool> = base.iter().map(|bit| !bit).collect();
    let pool = [base, half, last, other, vec![true; n]];
    let different = if n > 200 && count > 3 { 2 } else { 5 };
    (0..count).map(|i| pool[i % different].clone()).collect()
}

/// The most nodes of an honest search of several reports, so that the whole stays short.
fn most_nodes(expander: u64, count: usize, t: u64) -> usize {
    match (expander, t) {
        (1, _) if t == count as u64 => 48_000,
        (1, _) => 20_000,
        (_, 2) => 6_000_000,
        _ => 1_000_000,
    }
}

/// Honest reports: spread, equal and long strings with one start, thresholds up to and past C.
fn honest(rng: &mut Rng, expander: u64, take: Take) {
    let mut kind = 0;
    for n in [1, 2, 7, 8, 9, 31, 32, 255, 256] {
        let slow = expander == 1 || n > 200;
        let counts = [0, 1, 2, 3, 24, 36];
        for count in counts.into_iter().filter(|&count| !slow || count < 36) {
            let mut collections = vec![spread(rng, n, count), vec![rng.bits(n); count]];
            if count < 2 || count > 3 && n == 256 {
                collections.truncate(1);
            }
            if count > 1 && n > 200 {
                let start = rng.bits(9);
                let string = |_| [&start[..], &rng.bits(n - 9)].concat();
                collections.push((0..count).map(string).collect());
            }
            let mut thresholds = vec![1, 2, count as u64, count as u64 + 1, 65_535];
            thresholds.retain(|&t| t > 0);
            thresholds.sort();
            thresholds.dedup();
            for strings in collections {
                let reports: Vec<Report> = strings.iter().map(|s| Report::honest(s)).collect();
                let made = Search::made(rng, n, 1, expander, &reports, kind).call;
                for &t in &thresholds {
                    let search = Search::of(Call { t, ..made.clone() }, &reports);
                    if count < 2 || search.nodes <= most_nodes(expander, count, t) {
                        search.take_with("honest", kind % 2 * 9, take);
                    }
                }
                kind += 1;
            }
        }
    }
}

/// Areas that just fit, are a byte short, end around each level's end or have few bytes or none.
fn areas(rng: &mut Rng, expander: u64, take: Take) {
    for (n, t, count) in [
        (1, 1, 0),
        (9, 1, 0),
        (1, 1, 1),
        (1, 1, 2),
        (2, 1, 3),
        (8, 1, 3),
        (8, 2, 24),
        (9, 1, 5),
        (9, 65_535, 5),
        (17, 1, 3),
        (33, 2, 3),
    ] {
        if expander == 1 && (n > 9 || count > 5) {
            continue;
        }
        let reports: Vec<Report> = spread(rng, n, count)
            .iter()
            .map(|string| Report::honest(string))
            .collect();
        let search = Search::made(rng, n, t, expander, &reports, n);
        let (record, list) = (search.record.len(), search.list.len());
        let mut rooms = vec![(record, list), (record + 1, list), (record, list + 1)];
        rooms.extend([(record + 40, list + 40), (record - 1, list), (0, list)]);
        rooms.extend([
            (record - 1, list + 40),
            (record + 40, 0),
            (0, 0),
            (record, 0),
        ]);
        if list > 0 {
            rooms.extend([
                (record, list - 1),
                (record + 1, list - 1),
                (record - 1, list - 1),
            ]);
        }
        for end in &search.ends {
            rooms.extend([(end - 1, list), (*end, list), (end + 1, list)]);
        }
        rooms.extend((1..=40).map(|room| (room, list)));
        for (record_room, list_room) in rooms {
            let (wanted, call) = search.with_areas(record_room, list_room);
            take("areas around the fit", wanted, call);
        }
    }
}

/// Reports whose totals are no counts: around t and p at one level, and sums past p.
fn given_totals(rng: &mut Rng, expander: u64, take: Take) {
    for t in [1, 2, 65_535] {
        let edge = 1 << 32;
        let around_t = [0, t - 1, t, t + 1];
        let around_p = [
            edge - 2,
            edge - 1,
            edge,
            P / 2,
            P / 2 + 1,
            P - t,
            P - 2,
            P - 1,
        ];
        for total in around_t.into_iter().chain(around_p) {
            for n in [1, 2, 3, 9] {
                for level in [0, 1, 2, 7, 8] {
                    if level >= n {
                        continue;
                    }
                    let string = rng.bits(n);
                    let mut totals = vec![t; n];
                    totals[level] = total;
                    let one = Report { string, totals };
                    let search = Search::made(rng, n, t, expander, &[one], level);
                    search.take_with("totals that are no counts", 0, take);
                }
            }
        }
    }
    for round in 0..60 {
        let n = 1 + round % 6;
        let t = rng.pick(&[1, 2, 65_535]);
        let mut reports = Vec::new();
        for string in spread(rng, n, 2 + round % 4) {
            let any = rng.number() % P;
            let values = [0, 1, t - 1, t, P - t, P - 1, P - 1, any];
            let totals = (0..n).map(|_| rng.pick(&values)).collect();
            reports.push(Report { string, totals });
        }
        let search = Search::made(rng, n, t, expander, &reports, round);
        search.take_with("totals past p", round % 2 * 9, take);
    }
}

/// Each byte of a report changed for both servers, and of a seed for one.
fn changed_bytes(rng: &mut Rng, expander: u64, take: Take) {
    let n = 5;
    let (record_room, list_room) = whole_tree(n);
    let strings = ["01101", "01101", "11100"];
    let reports = strings.map(|string| Report::honest(&bits(string)));
    let search = Search::made(rng, n, 2, expander, &reports, 0);
    let size = public_share_size(n);
    for at in size..2 * size {
        for change in [0x01, 0x80] {
            let (_, mut call) = search.with_areas(record_room, list_room);
            for public in &mut call.public {
                public[at] ^= change;
            }
            let levels = call.public[0][size + head_size(n)..2 * size].chunks(24);
            let large = levels.filter(|level| read(&level[16..]) >= P).count();
            let wanted = if large > 0 {
                Wanted::Refused(6)
            } else if at == size + 1 && change == 0x80 {
                Wanted::Refused(7)
            } else {
                Wanted::Passed
            };
            take("a byte changed for both", wanted, call);
        }
    }
    for server in 0..2 {
        for at in 0..48 {
            let (_, mut call) = search.with_areas(record_room, list_room);
            call.seeds[server][at] ^= 0x41;
            take("a seed changed for one", Wanted::Passed, call);
        }
    }
    for level in 0..n {
        for payload in [0, 1, P - 1, P, P + 1, u64::MAX] {
            let (_, mut call) = search.with_areas(record_room, list_room);
            let at = size + head_size(n) + 24 * level + 16;
            for public in &mut call.public {
                public[at..at + 8].copy_from_slice(&payload.to_le_bytes());
            }
            let wanted = if payload < P {
                Wanted::Passed
            } else {
                Wanted::Refused(6)
            };
            take("payload corrections around p", wanted, call);
        }
    }
}

/// Random reports that pass 4 to 8, with the room of a whole tree, just enough and a byte less.
fn hostile(rng: &mut Rng, expander: u64, take: Take) {
    for n in [1, 2, 3, 4, 5, 7, 8, 9] {
        for count in [1, 2, 3] {
            for t in [1, 65_535] {
                let slow = expander == 1 && n > 5;
                if count > 1 && t > 1 || slow && (count > 1 || n != 8) {
                    continue;
                }
                let mut public = rng.bytes(count * public_share_size(n));
                pass_six_and_seven(&mut public, n);
                let mut reports = Reports::none(n);
                reports.public = public;
                reports.seeds = [rng.bytes(16 * count), rng.bytes(16 * count)];
                let mut call = Call::of(reports, t, expander);
                (call.record_room, call.list_room) = whole_tree(n);
                let found = call.ours(call.record_room, call.list_room);
                take("random reports", Wanted::Passed, call.clone());
                call.record_room = found.record_length as usize;
                call.list_room = found.list_length as usize;
                take("random reports, just fits", Wanted::Passed, call.clone());
                call.record_room -= 1;
                take(
                    "random reports, a byte short",
                    Wanted::Refused(11),
                    call.clone(),
                );
                if call.list_room > 0 {
                    call.record_room += 1;
                    call.list_room -= 1;
                    take("random reports, a byte short", Wanted::Refused(11), call);
                }
            }
        }
    }
}

/// A cause's number and a change of a right call that brings it about.
pub type Cause = (u64, fn(&mut Call));

/// Where the payload correction of the third level stands in the second of two public shares.
const PAYLOAD: usize = 2 * 73 - 8;

fn set_number(public: &mut [u8], number: u64) {
    public[PAYLOAD..PAYLOAD + 8].copy_from_slice(&number.to_le_bytes());
}

/// Changes that bring about a cause in a call of two reports with n = 3 and no room to spare.
pub const CAUSES: [Cause; 62] = [
    (1, |call| call.n = 0),
    (1, |call| call.n = 257),
    (1, |call| call.n += 1 << 32),
    (1, |call| call.n = u64::MAX),
    (2, |call| call.t = 0),
    (2, |call| call.t = 65_536),
    (2, |call| call.t += 1 << 16),
    (2, |call| call.t = u64::MAX),
    (3, |call| call.expander = 0),
    (3, |call| call.expander = 3),
    (3, |call| call.expander += 1 << 32),
    (3, |call| call.expander = u64::MAX),
    (4, |call| call.seeds[0].truncate(31)),
    (4, |call| call.seeds[1].truncate(31)),
    (4, |call| call.seeds[0].truncate(16)),
    (4, |call| call.seeds[1].truncate(16)),
    (4, |call| call.seeds[0].clear()),
    (4, |call| call.seeds[1].clear()),
    (4, |call| call.seeds[0].push(0)),
    (4, |call| call.seeds[1].push(0)),
    (4, |call| call.seeds[0].extend([0; 16])),
    (4, |call| call.seeds[1].extend([0; 16])),
    (4, |call| call.public[0].truncate(145)),
    (4, |call| call.public[1].truncate(145)),
    (4, |call| call.public[0].truncate(73)),
    (4, |call| call.public[1].truncate(73)),
    (4, |call| call.public[0].clear()),
    (4, |call| call.public[1].clear()),
    (4, |call| call.public[0].push(0)),
    (4, |call| call.public[1].push(0)),
    (4, |call| call.public[0].extend([0; 73])),
    (4, |call| call.public[1].extend([0; 73])),
    (4, |call| call.seeds.iter_mut().for_each(|s| s.truncate(16))),
    (4, |call| call.public.iter_mut().for_each(|p| p.push(0))),
    (4, |call| one_report_less(call, 0)),
    (4, |call| one_report_less(call, 1)),
    (6, |call| set_number(&mut call.public[0], P)),
    (6, |call| set_number(&mut call.public[1], P)),
    (6, |call| set_number(&mut call.public[0], u64::MAX)),
    (6, |call| set_number(&mut call.public[1], u64::MAX)),
    (6, |call| {
        for public in &mut call.public {
            set_number(public, P + 1);
        }
    }),
    (7, |call| call.public[0][0] |= 0x40),
    (7, |call| call.public[1][0] |= 0x40),
    (7, |call| call.public[0][73] |= 0x80),
    (7, |call| call.public[1][73] |= 0x80),
    (7, |call| {
        for public in &mut call.public {
            public[73] |= 0xc0;
        }
    }),
    (8, |call| call.public[0][0] ^= 0x01),
    (8, |call| call.public[1][0] ^= 0x20),
    (8, |call| call.public[0][1] ^= 0x80),
    (8, |call| call.public[1][PAYLOAD - 1] ^= 0x01),
    (8, |call| call.public[0][PAYLOAD + 7] ^= 0x80),
    (8, |call| call.public[1].rotate_left(73)),
    (11, |call| call.record_room -= 1),
    (11, |call| call.record_room = 0),
    (11, |call| call.record_room = 7),
    (11, |call| call.record_room = 8),
    (11, |call| call.record_room = 31),
    (11, |call| call.record_room = 32),
    (11, |call| call.list_room -= 1),
    (11, |call| {
        call.record_room -= 1;
        call.list_room = 0;
    }),
    (11, |call| (call.record_room, call.list_room) = (0, 0)),
    (11, |call| {
        call.record_room += 40;
        call.list_room -= 1;
    }),
];

fn one_report_less(call: &mut Call, server: usize) {
    call.seeds[server].truncate(16);
    call.public[server].truncate(73);
}

/// Every cause alone, in twos and with all higher ones; the lowest number must come.
fn causes(rng: &mut Rng, expander: u64, take: Take) {
    let reports = ["011", "001"].map(|string| Report::honest(&bits(string)));
    let search = Search::made(rng, 3, 1, expander, &reports, 0);
    let right = search.with_areas(search.record.len(), search.list.len()).1;
    search.take_with("no cause", 0, take);
    for (number, change) in CAUSES {
        let mut call = right.clone();
        change(&mut call);
        take("one cause", Wanted::Refused(number), call);
        for (other, change_too) in CAUSES {
            if other > number {
                let mut call = right.clone();
                change_too(&mut call);
                change(&mut call);
                take("two causes", Wanted::Refused(number), call);
            }
        }
    }
    for lowest in [1, 2, 3, 4, 6, 7, 8, 11] {
        for last in [false, true] {
            let mut call = right.clone();
            for number in [11, 8, 7, 6, 4, 3, 2, 1] {
                let mut of_it = CAUSES.iter().filter(|(of, _)| *of == number);
                let (_, change) = if last {
                    of_it.next_back()
                } else {
                    of_it.next()
                }
                .unwrap();
                if number >= lowest {
                    change(&mut call);
                }
            }
            take("all higher causes", Wanted::Refused(lowest), call);
        }
    }
}

/// 65,535 reports of one bit pass, 65,536 do not, alone and with other causes.
fn largest_counts(rng: &mut Rng, take: Take) {
    let few = reports(rng, 1, 2, 5);
    let many = |count: usize, kinds: usize, t: u64| {
        let strings = few.strings[..kinds].iter().cycle().take(count);
        let reports: Vec<Report> = strings.map(|string| Report::honest(string)).collect();
        let mut made = Reports::none(1);
        let times = count / kinds + 1;
        made.public = few.public[..25 * kinds].repeat(times)[..25 * count].to_vec();
        made.seeds = [0, 1].map(|b| {
            let seeds = few.seeds[b][..16 * kinds].repeat(times);
            seeds[..16 * count].to_vec()
        });
        Search::of(Call::of(made, t, 2), &reports)
    };
    for (kinds, t) in [
        (1, 1),
        (1, 65_534),
        (1, 65_535),
        (5, 1),
        (5, 26_214),
        (5, 65_535),
    ] {
        many(65_535, kinds, t).take_with("65535 reports", 0, take);
    }
    many(65_534, 1, 65_535).take_with("65534 reports", 0, take);
    let over = many(65_536, 5, 1).with_areas(32, 2).1;
    let cases: [Cause; 15] = [
        (5, |_| {}),
        (1, |call| call.n = 0),
        (2, |call| call.t = 0),
        (3, |call| call.expander = 0),
        (4, |call| call.seeds[1].truncate(16)),
        (4, |call| call.seeds[0].truncate(16 * 65_535)),
        (4, |call| call.public[0].truncate(25 * 65_535)),
        (4, |call| call.public[1].push(0)),
        (4, |call| {
            call.seeds[1].truncate(16 * 65_535);
            call.public[1].truncate(25 * 65_535);
        }),
        (5, |call| call.public[0][17..25].fill(0xff)),
        (5, |call| call.public[1][17..25].fill(0xff)),
        (5, |call| call.public[0][0] |= 0x80),
        (5, |call| call.public[1][0] |= 0x80),
        (5, |call| call.public[1][25 * 65_535 + 1] ^= 1),
        (5, |call| (call.record_room, call.list_room) = (0, 0)),
    ];
    for (number, change) in cases {
        let mut call = over.clone();
        change(&mut call);
        take("65536 reports", Wanted::Refused(number), call);
    }
}

/// Next queries of 131,070 prefixes and of more, from random reports whose totals are all kept.
fn largest_queries(rng: &mut Rng, take: Take) {
    let random = |rng: &mut Rng, n: usize| {
        let mut reports = Reports::none(n);
        reports.public = rng.bytes(public_share_size(n));
        pass_six_and_seven(&mut reports.public, n);
        reports.seeds = [rng.bytes(16), rng.bytes(16)];
        reports
    };
    for (n, t) in [(17, 1), (24, 65_535)] {
        let mut call = Call::of(random(rng, n), t, 2);
        (call.record_room, call.list_room) = (4_000_000, 500_000);
        take("131072 prefixes next", Wanted::Refused(11), call);
    }
    for n in [17, 18] {
        let mut reports = random(rng, n);
        let string = rng.bits(n);
        let mut totals = vec![1; n];
        totals[15] = negate(total_at(&reports, 2, &string[..16]));
        let mut light = Reports::none(n);
        light.add_with(2, 1, string, [rng.bytes(16), rng.bytes(16)]);
        give_totals(&mut light, 2, &totals);
        reports.public.extend(light.public);
        for server in 0..2 {
            reports.seeds[server].extend(&light.seeds[server]);
        }
        let mut call = Call::of(reports, 1, 2);
        let most = whole_tree(16).0 + 6 + 131_070 * 11;
        (call.record_room, call.list_room) = (most, 3 * 131_070);
        if n == 18 {
            call.record_room = 8_000_000;
            take("262140 prefixes next", Wanted::Refused(11), call);
            continue;
        }
        take("131070 prefixes next", Wanted::Passed, call.clone());
        call.record_room -= 1;
        take(
            "131070 prefixes next, a byte short",
            Wanted::Refused(11),
            call,
        );
    }
}
