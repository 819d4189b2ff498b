//! Comparison of the whole search: random calls, the fixed ones of `search_cases`,
//! `weighted_search_cases` and `search_heads`, and those of `search_demands`, `weighted_demands` and
//! `equal_totals`; number, lengths, both areas and the lent inputs.

pub use crate::search_call::Call;
use crate::{equal_totals, search_cases, search_demands, search_heads};
use crate::{weighted_demands, weighted_search_cases};
use compare::calls;
use compare::make::*;
use compare::tally::{shown, Outcome, Plan, Space, Tally};
use compare::weights::{bad_t, good_t, weight};
use second::field::P;
use second::keys::public_share_size;
use second::rng::Rng;
use std::hint::black_box;

const DAMAGES: [&str; 19] = [
    "n",
    "t",
    "expander",
    "seeds 0 length",
    "public shares 0 length",
    "seeds 1 length",
    "public shares 1 length",
    "one report more for server 1",
    "payload for server 0",
    "payload for server 1",
    "payload for both",
    "payload p - 1 for both",
    "spare bits for server 0",
    "spare bits for server 1",
    "spare bits for both",
    "public shares differ",
    "bits flipped for both",
    "record room",
    "list room",
];

type Search =
    fn(u64, bool, u64, u64, &[u8], &[u8], &[u8], &[u8], &mut [u8], &mut [u8]) -> second::Found;

/// The spaces of an outcome after those of the four lent inputs.
pub const RECORD: usize = 4;
pub const LIST: usize = 5;

pub fn run(start: u64, count: usize, tally: &mut Tally) {
    let mut rng = Rng::new(start ^ 5);
    for i in 0..count {
        let plan = Plan::of(i, &DAMAGES);
        let call = plan.call(&mut rng, hostile, damaged);
        compare(&mut rng, &plan, &call, tally);
    }
    let mut take = |name: &'static str, wanted: search_cases::Wanted, call: Call| {
        let plan = Plan::fixed(name, &wanted.numbers());
        let theirs = compare(&mut rng, &plan, &call, tally);
        if !wanted.written(&theirs) {
            tally.fault(&format!("fixed search, {name}: another record or list"));
        }
    };
    search_cases::each(&mut take);
    weighted_search_cases::each(&mut take);
    search_heads::each(&mut take);
    search_demands::run(&mut rng, tally);
    weighted_demands::run(&mut rng, tally);
    equal_totals::run(&mut rng, tally);
}

fn damaged(rng: &mut Rng, plan: &Plan) -> Call {
    let spare = plan.damages.iter().any(|d| d.starts_with("spare"));
    let small = [1, 2, 7, 8, 9, 5, 6, 3, 4, 10];
    let mut n = rng.pick(if spare { &[1, 2, 7, 9, 3, 31] } else { &small });
    let mut expander = good_expander(rng);
    let mut count = rng.below(6) + !plan.damages.is_empty() as usize;
    let explosive = plan.has("bits flipped for both") || plan.has("payload p - 1 for both");
    if !explosive && rng.below(25) == 0 {
        n = rng.pick(&[31, 32, 255, 256]);
        count = count.min(1);
        expander = if n > 200 { 2 } else { expander };
    } else if !explosive && n < 8 && rng.below(40) == 0 {
        count = 24 + rng.below(13);
    }
    let all = count.max(1) as u64;
    let weighted = rng.coin();
    let near = rng.pick(&[5, 32_766, 32_767, 32_768, 65_534, 2_147_483_647]);
    let mut t = rng.pick(&[
        1,
        1,
        2,
        2,
        3,
        all,
        all + 1,
        if weighted { near } else { 65_535 },
    ]);
    if plan.has("list room") {
        t = 1;
    }
    let bits = n as usize;
    // A quarter of the unweighted searches have weights too, and are then not honest.
    let made = if weighted || rng.below(4) == 0 && !explosive {
        weighted_reports(rng, bits, expander, count, weight)
    } else {
        reports(rng, bits, expander, count)
    };
    let mut call = Call::of(made, t, expander);
    call.weighted = weighted;
    for damage in plan.damages.iter().rev() {
        spoil(rng, &mut call, damage, bits);
    }
    let found = call.ours(1 << 17, 1 << 12);
    let (mut record_size, mut list_size) =
        (found.record_length as usize, found.list_length as usize);
    if found.number != 0 {
        record_size = rng.pick(&[0, 7, 8, 9, 31, 32, 500, 5000]);
        list_size = rng.pick(&[0, 1, 40]);
    }
    call.record_room = room(rng, record_size);
    call.list_room = room(rng, list_size);
    if plan.has("record room") {
        let first = rng.pick(&[7, 8, 9, 31]);
        let short = short_room(rng, record_size);
        call.record_room = rng.pick(&[short, short, short, first]);
    }
    if plan.has("list room") {
        call.list_room = short_room(rng, list_size);
    }
    call
}

fn spoil(rng: &mut Rng, call: &mut Call, damage: &str, n: usize) {
    let size = public_share_size(n);
    match damage {
        "n" => call.n = bad_n(rng),
        "t" => call.t = bad_t(rng, call.weighted),
        "expander" => call.expander = bad_expander(rng),
        "seeds 0 length" => wrong_length(rng, &mut call.seeds[0], 16),
        "public shares 0 length" => wrong_length(rng, &mut call.public[0], size),
        "seeds 1 length" => wrong_length(rng, &mut call.seeds[1], 16),
        "public shares 1 length" => wrong_length(rng, &mut call.public[1], size),
        "one report more for server 1" => {
            call.seeds[1].extend([0; 16]);
            call.public[1].extend(vec![0; size]);
        }
        "payload for server 0" | "payload for server 1" => {
            let payload = too_large(rng);
            let server = damage.ends_with('1') as usize;
            set_payload(rng, &mut call.public[server], n, payload);
        }
        "payload for both" => {
            let payload = too_large(rng);
            set_payload(rng, &mut call.public[0], n, payload);
            call.public[1] = call.public[0].clone();
        }
        "payload p - 1 for both" => {
            set_payload(rng, &mut call.public[0], n, P - 1);
            call.public[1] = call.public[0].clone();
        }
        "spare bits for server 0" => set_spare(rng, &mut call.public[0], n),
        "spare bits for server 1" => set_spare(rng, &mut call.public[1], n),
        "spare bits for both" => {
            set_spare(rng, &mut call.public[0], n);
            call.public[1] = call.public[0].clone();
        }
        "public shares differ" => flip(rng, &mut call.public[1]),
        "bits flipped for both" => {
            let server = rng.below(2);
            flip(rng, &mut call.seeds[server]);
            flip(rng, &mut call.public[0]);
            call.public[1] = call.public[0].clone();
        }
        _ => {}
    }
}

fn hostile(rng: &mut Rng) -> Call {
    let n = rng.pick(&[1, 2, 3, 4, 8, 9, 12]);
    let count = rng.below(4);
    let size = public_share_size(n as usize);
    let mut public = rng.bytes(size * count);
    if rng.below(8) != 0 {
        pass_six_and_seven(&mut public, n as usize);
    }
    let weighted = rng.coin();
    let mut call = Call {
        n,
        weighted,
        t: good_t(rng, weighted),
        expander: good_expander(rng),
        seeds: [rng.bytes(16 * count), rng.bytes(16 * count)],
        public: [public.clone(), public],
        record_room: rng.pick(&[7, 8, 31, 32, 100, 3000, 3000, 100_000, 100_000]),
        list_room: rng.pick(&[0, 1, 100, 10_000]),
    };
    if rng.below(4) == 0 {
        call.n = any_number(rng);
        call.t = any_number(rng);
        call.expander = rng.pick(&[0, 1, 2, 3]);
        call.seeds = [wild(rng, 16), wild(rng, 16)];
        call.public = [wild(rng, 25), wild(rng, 25)];
    }
    call
}

/// Compares one call and gives the library's outcome.
pub fn compare(rng: &mut Rng, plan: &Plan, call: &Call, tally: &mut Tally) -> Outcome {
    let inputs = format!("n={} weighted={} t={} ", call.n, call.weighted, call.t)
        + &format!("expander={} ", call.expander)
        + &shown("seeds0", &call.seeds[0])
        + &shown("public_shares0", &call.public[0])
        + &shown("seeds1", &call.seeds[1])
        + &shown("public_shares1", &call.public[1]);
    tally.before("search", plan, &inputs);
    let salt = rng.number();
    let record = || Space::new(call.record_room, salt);
    let list = || Space::new(call.list_room, salt >> 8);
    let [ours, theirs] = [second::search as Search, calls::search as Search].map(|with| {
        let lent = [
            &call.seeds[0],
            &call.public[0],
            &call.seeds[1],
            &call.public[1],
        ];
        let lent = black_box(lent.map(|bytes| Space::holding(bytes)));
        let [seeds0, public0, seeds1, public1] = lent.each_ref().map(|s| s.first(u64::MAX));
        let (mut record, mut list) = (record(), list());
        let found = with(
            call.n,
            call.weighted,
            call.t,
            call.expander,
            seeds0,
            public0,
            seeds1,
            public1,
            record.lent(),
            list.lent(),
        );
        let spaces = lent.into_iter().chain([record, list]).collect();
        Outcome {
            numbers: vec![found.number, found.record_length, found.list_length],
            spaces: black_box(spaces),
        }
    });
    let theirs = tally.judge("search", plan, ours, theirs, &inputs);
    if !left(&theirs, record(), list()) {
        tally.fault("search: the areas are not left as its number says");
    }
    if theirs.numbers[0] == 0 && !headed(&theirs, call.seeds[0].len() / 16) {
        tally.fault("search: the record does not begin with the number of reports");
    }
    theirs
}

/// Whether the record begins with this number of reports and has its first level whole.
fn headed(theirs: &Outcome, reports: usize) -> bool {
    let record = theirs.spaces[RECORD].first(theirs.numbers[1]);
    record.len() >= 32 && record[..8] == (reports as u64).to_be_bytes()
}

/// Whether the areas, given as before the call, are left as the number and lengths say.
fn left(theirs: &Outcome, mut record: Space, mut list: Space) -> bool {
    let [number, lengths @ ..] = &theirs.numbers[..] else {
        return false;
    };
    if *number == 11 {
        record.lent().fill(0);
    }
    [&mut record, &mut list]
        .into_iter()
        .zip(lengths)
        .zip(&theirs.spaces[RECORD..])
        .all(|((before, length), after)| {
            let written = after.first(*length);
            before.lent()[..written.len()].copy_from_slice(written);
            (*number == 0 || *length == 0) && written.len() as u64 == *length && before.same(after)
        })
}
