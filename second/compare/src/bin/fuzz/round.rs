//! One round: every call, first with honest inputs where it has some, then with inputs near them.

use crate::inputs::{bytes, length, number, perhaps, seeds};
use crate::judged::Judged;
use crate::making::Fuzz;
use compare::make::{any_number, pass_six_and_seven, set_number};
use compare::queries;
#[cfg(feature = "exam")]
use compare::sheets::{change_byte, wild_text, Sheet};
use compare::weights::{good_t, weight, MOST};
use second::keys::public_share_size;
use second::query::{pack, packed_size, Query};
use second::rng::Rng;

/// The nodes that a search may reach, as far as the record's size can hold it back.
const NODES: usize = 20_000;

/// The reports of one round.
pub struct Reports {
    pub n: usize,
    pub expander: u64,
    pub strings: Vec<Vec<bool>>,
    pub seeds: [Vec<u8>; 2],
    pub public: Vec<u8>,
}

/// Makes every call of a round, which depends on the seed and the round's number alone.
pub fn run(seed: u64, judged: &mut Judged) {
    let start = Rng::new(seed).number().wrapping_add(judged.round);
    let rng = Rng::new(start);
    let mut fuzz = Fuzz { rng, judged };
    fuzz.any_block();
    let reports = fuzz.reports();
    let (query, shares) = fuzz.shares(&reports);
    fuzz.adds(&shares);
    fuzz.combines(reports.n as u64, &query, &shares);
    fuzz.searches(&reports);
    #[cfg(feature = "kept")]
    fuzz.keeps(&reports);
    fuzz.wild();
    if fuzz.rng.below(50) == 0 {
        fuzz.hundreds(&reports);
    }
    if fuzz.rng.below(1000) == 0 {
        fuzz.many();
    }
    #[cfg(feature = "exam")]
    fuzz.exams();
}

impl Fuzz<'_> {
    fn any_block(&mut self) {
        let rng = &mut self.rng;
        let right = rng.pick(&[1, 2]);
        let (expander, j) = (number(rng, right), any_number(rng));
        let (seed, room) = (bytes(rng, 16), length(rng, 16));
        self.block(expander, j, &seed, room);
    }

    /// Reports with the keys that the call made; at times, or where it refused, random ones.
    fn reports(&mut self) -> Reports {
        let rng = &mut self.rng;
        let small = 1 + rng.below(40);
        let mut n = rng.pick(&[1, 2, 3, 4, 7, 8, 9, 12, 15, 16, 17, small]);
        let mut expander = rng.pick(&[1, 2]);
        let mut count = rng.below(5);
        if rng.below(100) == 0 {
            (n, expander, count) = (rng.pick(&[255, 256]), 2, 1);
        }
        let size = public_share_size(n);
        let both = [seeds(rng, count), seeds(rng, count)];
        let (mut strings, mut public) = (Vec::new(), Vec::new());
        let weighed = rng.coin();
        for i in 0..count {
            let any = self.rng.bits(n);
            let held = strings.first().filter(|_| self.rng.coin()).cloned();
            let string: Vec<bool> = held.unwrap_or(any);
            let packed = pack(&string);
            let [seed0, seed1] = both.each_ref().map(|seeds| &seeds[16 * i..16 * i + 16]);
            let honest = [&packed[..], seed0, seed1];
            let any = weight(&mut self.rng);
            let weight = if weighed { any } else { 1 };
            let fields = (n as u64, expander, weight);
            public.extend(self.key(fields, honest, size));
            let rng = &mut self.rng;
            let near = honest.map(|bytes| perhaps(rng, bytes));
            let (n, expander, room) = (
                number(rng, n as u64),
                number(rng, expander),
                length(rng, size),
            );
            self.key((n, expander, any), near.each_ref().map(|b| &b[..]), room);
            strings.push(string);
        }
        if public.len() != count * size || self.rng.below(8) == 0 {
            public = self.rng.bytes(count * size);
            pass_six_and_seven(&mut public, n);
        }
        Reports {
            n,
            expander,
            strings,
            seeds: both,
            public,
        }
    }

    /// A query with both servers' shares, and a share of inputs near those.
    fn shares(&mut self, reports: &Reports) -> (Vec<u8>, [Vec<u8>; 2]) {
        let query = queries::good(&mut self.rng, reports.n, &reports.strings);
        let size = 8 * Query::of(&query).count;
        let n = reports.n as u64;
        let shares = [false, true].map(|server| {
            let inputs = [&reports.seeds[server as usize][..], &reports.public, &query];
            self.share((n, reports.expander, server), inputs, size)
        });
        let rng = &mut self.rng;
        let server = rng.coin();
        let near = [
            perhaps(rng, &reports.seeds[server as usize]),
            perhaps(rng, &reports.public),
            perhaps(rng, &query),
        ];
        let (n, expander) = (number(rng, n), number(rng, reports.expander));
        let room = length(rng, size);
        let inputs = near.each_ref().map(|b| &b[..]);
        self.share((n, expander, server), inputs, room);
        (query, shares)
    }

    /// The shares added as if they were one server's, and then inputs near those.
    fn adds(&mut self, shares: &[Vec<u8>; 2]) {
        let honest = shares.each_ref().map(|share| &share[..]);
        let size = honest[0].len();
        self.add(honest, size);
        let rng = &mut self.rng;
        let mut near = honest.map(|share| perhaps(rng, share));
        match rng.below(8) {
            0 => {
                // Equal lengths, mostly no multiple of 8.
                let equal = length(rng, size + 1);
                near.iter_mut().for_each(|share| share.resize(equal, 0));
            }
            1 => {
                let either = rng.below(2);
                set_number(rng, &mut near[either], None);
            }
            _ => {}
        }
        let room = length(rng, size);
        self.add(near.each_ref().map(|b| &b[..]), room);
    }

    /// A query combined with its shares, and then with inputs near those.
    fn combines(&mut self, n: u64, query: &[u8], shares: &[Vec<u8>; 2]) {
        let size = 6 + 2 * query.len();
        let weighted = self.rng.coin();
        let t = good_t(&mut self.rng, weighted);
        let honest = [query, &shares[0], &shares[1]];
        self.combine((n, weighted, t), honest, size);
        let rng = &mut self.rng;
        let near = honest.map(|bytes| perhaps(rng, bytes));
        let (n, t, room) = (number(rng, n), number(rng, t), length(rng, size));
        let fields = (n, weighted ^ (rng.below(8) == 0), t);
        self.combine(fields, near.each_ref().map(|b| &b[..]), room);
    }

    /// A search of the reports, and one of inputs near them; its record's size holds it back.
    fn searches(&mut self, reports: &Reports) {
        let (n, count) = (reports.n, reports.strings.len());
        let weighted = self.rng.coin();
        let t = good_t(&mut self.rng, weighted);
        let most = 64 + 9 * NODES / (n * count.max(1));
        let (short, right) = (self.rng.below(40), 8 + 40 * n * count);
        let right = self.rng.pick(&[right, right, right, short]);
        let room = length(&mut self.rng, right).min(most);
        let list_room = length(&mut self.rng, count * packed_size(n));
        let [seeds0, seeds1] = &reports.seeds;
        let honest = [&seeds0[..], &reports.public, seeds1, &reports.public];
        let fields = (n as u64, weighted, t, reports.expander);
        self.search(fields, honest, [room, list_room]);
        let rng = &mut self.rng;
        let mut near = honest.map(|bytes| perhaps(rng, bytes));
        if rng.below(4) != 0 {
            near[3] = near[1].clone();
        }
        let fields = (
            number(rng, fields.0),
            weighted ^ (rng.below(8) == 0),
            number(rng, t),
            number(rng, reports.expander),
        );
        let room = length(rng, room).min(most);
        let inputs = near.each_ref().map(|b| &b[..]);
        self.search(fields, inputs, [room, list_room]);
    }

    /// Every call but block and those of the exam with bytes and lengths that have nothing to do with each other.
    fn wild(&mut self) {
        let rng = &mut self.rng;
        let (n, t) = (any_number(rng), any_number(rng));
        let (weighted, weight) = (rng.coin(), weight(rng));
        let (expander, server) = (number(rng, 1), rng.coin());
        let any: [Vec<u8>; 4] = std::array::from_fn(|_| bytes(rng, 16));
        let rooms: [usize; 6] = std::array::from_fn(|_| length(rng, 16));
        let [a, b, c, d] = any.each_ref().map(|bytes| &bytes[..]);
        self.key((n, expander, weight), [a, b, c], rooms[0]);
        self.share((n, expander, server), [a, b, c], rooms[1]);
        self.combine((n, weighted, t), [a, b, c], rooms[2]);
        let fields = (n, weighted, t, expander);
        self.search(fields, [a, b, c, d], [rooms[3], rooms[4]]);
        self.add([a, b], rooms[5]);
        #[cfg(feature = "kept")]
        self.wild_kept((n, expander, server), [a, b, c]);
    }

    /// A search of each report many times over, so that there are around 256 of them or more.
    fn hundreds(&mut self, reports: &Reports) {
        let times = 256 / reports.strings.len().max(1) + self.rng.below(3);
        let (n, count) = (reports.n, times * reports.strings.len());
        let [seeds0, seeds1] = reports.seeds.each_ref().map(|seeds| seeds.repeat(times));
        let public = reports.public.repeat(times);
        let weighted = self.rng.coin();
        let t = good_t(&mut self.rng, weighted);
        let room = 32 + 9 * NODES / (n * count.max(1));
        let inputs = [&seeds0[..], &public, &seeds1, &public];
        let fields = (n as u64, weighted, t, reports.expander);
        self.search(fields, inputs, [room, 4 * packed_size(n)]);
        self.search(
            (
                n as u64,
                weighted,
                MOST[weighted as usize],
                reports.expander,
            ),
            inputs,
            [32, 0],
        );
    }

    /// As many reports as there may be, or one more, all of them zero bytes.
    fn many(&mut self) {
        let count = self.rng.pick(&[65_535, 65_536]);
        let (seeds, public) = (vec![0; 16 * count], vec![0; 25 * count]);
        let query = second::query::first();
        let server = self.rng.coin();
        self.share((1, 2, server), [&seeds, &public, &query], 16);
        let weighted = self.rng.coin();
        let inputs = [&seeds[..], &public, &seeds, &public];
        let room = self.rng.pick(&[31, 32]);
        self.search((1, weighted, 1, 2), inputs, [room, 2]);
        self.add([&seeds, &seeds], seeds.len());
        #[cfg(feature = "kept")]
        self.many_kept(&seeds, &public);
    }

    /// A small sheet, the same changed a little, and a text of any bytes.
    #[cfg(feature = "exam")]
    fn exams(&mut self) {
        let rng = &mut self.rng;
        let mut sheet = Sheet::random(rng, 10, |aes| if aes { 2_000 } else { 20_000 });
        let size = sheet.answer().len();
        let (text, room) = (sheet.text(), length(rng, size));
        self.exam(&text, room);
        self.respond(&text, room);
        let rng = &mut self.rng;
        match rng.below(12) {
            0 => sheet.t = rng.pick(&[0, 65_536, 99_999]),
            1 => sheet.expander = Some(rng.pick(&[0, 3, 99_999])),
            2 => {
                sheet.n = 0;
                sheet.strings.iter_mut().for_each(Vec::clear);
            }
            _ => {}
        }
        let mut text = sheet.text();
        for _ in 0..rng.below(4) {
            change_byte(rng, &mut text);
        }
        let room = length(rng, size);
        self.exam(&text, room);
        self.respond(&text, room);
        let rng = &mut self.rng;
        let text = if rng.coin() {
            wild_text(rng)
        } else {
            bytes(rng, 0)
        };
        let room = length(rng, 8);
        self.exam(&text, room);
        let room = length(&mut self.rng, "refused 10\n".len());
        self.respond(&text, room);
    }
}
