//! How the proved library's time grows as n and the number of reports double.

use crate::aes::quickest;
use crate::blocks_and_keys::{proved_keys, Keys};
use crate::plain_share::Walk;
use crate::searching::{Collection, Searches};
use crate::shares::{Lent, Shares};
use crate::timing::human;
use crate::Plan;
use std::time::Instant;
use tally::{Expander, Settings};

/// One size of a measure: the run, and the output that is due.
struct Size<'a> {
    proved: Box<dyn Fn() -> Vec<u8> + 'a>,
    due: Vec<u8>,
}

/// What was measured at sizes that double, with the nanoseconds of each.
pub struct Grown {
    title: String,
    times: Vec<f64>,
}

/// Runs all sizes in turn, compares each output with the one that is due, and keeps the quickest round of each.
fn grow(title: String, calls: usize, rounds: usize, sizes: Vec<Size>) -> Grown {
    let mut times = vec![f64::INFINITY; sizes.len()];
    for _ in 0..rounds {
        for (size, best) in sizes.iter().zip(&mut times) {
            let start = Instant::now();
            let output = (size.proved)();
            *best = best.min(start.elapsed().as_nanos() as f64 / calls as f64);
            assert!(output == size.due, "{title}");
        }
    }
    println!("{title}: outputs agree");
    Grown { title, times }
}

/// Numbers with commas between them.
fn listed<T: ToString>(numbers: &[T]) -> String {
    let written: Vec<String> = numbers.iter().map(T::to_string).collect();
    written.join(", ")
}

/// Keys as n doubles.
fn keys(plan: &Plan, ns: &[usize]) -> Grown {
    let calls = plan.calls(40);
    let size = |&n: &usize| {
        let work = Keys { n, weight: 1 };
        Size {
            proved: Box::new(move || proved_keys(work, calls)),
            due: quickest(work, calls),
        }
    };
    let title = format!("one key, n = {}", listed(ns));
    grow(title, calls, plan.rounds, ns.iter().map(size).collect())
}

/// Shares as n doubles.
fn shares(plan: &Plan, ns: &[usize]) -> Grown {
    let calls = plan.calls(80);
    let walk = Walk::Shared;
    let all: Vec<Lent> = ns.iter().map(|&n| Lent::new(n, 2)).collect();
    let size = |lent| Size {
        proved: Box::new(move || Lent::proved(lent, calls)),
        due: quickest(Shares { lent, walk }, calls),
    };
    let title = format!(
        "one server's share of one report, both children of a prefix, n = {}",
        listed(ns)
    );
    grow(title, calls, plan.rounds, all.iter().map(size).collect())
}

/// Whole searches of each n with each number of reports, one round.
fn searches(ns: &[u64], counts: &[usize]) -> Grown {
    let t = 10;
    let walk = Walk::Shared;
    let with = |n| {
        let settings = Settings::new(n, t, Expander::Aes);
        let made = move |&count: &usize| Collection::new(settings, count);
        counts.iter().map(made)
    };
    let all: Vec<Collection> = ns.iter().flat_map(|&n| with(n)).collect();
    let both = |(record, list): (Vec<u8>, Vec<u8>)| [record, list].concat();
    let size = |collection| Size {
        proved: Box::new(move || both(Collection::proved(collection))),
        due: both(quickest(Searches { collection, walk }, 1)),
    };
    let (n, count) = (listed(ns), listed(counts));
    let title = format!("a whole search, t = {t}, n = {n}, C = {count}");
    grow(title, 1, 1, all.iter().map(size).collect())
}

/// Measures all growth.
pub fn measure_growth(plan: &Plan) -> Vec<Grown> {
    let levels = [32, 64, 128, 256];
    let mut all = vec![keys(plan, &levels), shares(plan, &levels)];
    if plan.check {
        all.push(searches(&[8, 16], &[50]));
        all.push(searches(&[8], &[50, 100]));
    } else {
        all.push(searches(&[16, 32, 64], &[500]));
        all.push(searches(&[32], &[500, 1_000, 2_000]));
    }
    all
}

/// Prints the growth in Markdown, each time and its ratio to the one before it.
pub fn print_growth(all: &[Grown]) {
    println!("\n| | proved | times the size before |\n|---|---|---|");
    for Grown { title, times } in all {
        let proved: Vec<String> = times.iter().map(|&ns| human(ns)).collect();
        let ratio = |pair: &[f64]| format!("{:.2}", pair[1] / pair[0]);
        let ratios: Vec<String> = times.windows(2).map(ratio).collect();
        println!(
            "| {title} | {} | {} |",
            proved.join(", "),
            ratios.join(", ")
        );
    }
}
