//! Interleaved timing: each round runs every subject once, and each subject keeps its quickest round.

use std::fmt::Debug;
use std::time::Instant;

/// Which column of the table a subject belongs to.
#[derive(Clone, Copy, PartialEq, Eq)]
pub enum Column {
    Proved,
    FromRoot,
    SameCode,
    DoubledAtOnce,
    ByteTable,
    Hardware,
    NoAes,
}

impl Column {
    /// What the column is called.
    fn name(self) -> &'static str {
        match self {
            Column::Proved => "proved",
            Column::FromRoot => "proved, from the root",
            Column::SameCode => "Rust, the same AES",
            Column::DoubledAtOnce => "Rust, words doubled at once",
            Column::ByteTable => "Rust, byte-table AES",
            Column::Hardware => "Rust, AES-NI",
            Column::NoAes => "Rust, no AES in it",
        }
    }
}

/// Something to be timed: the way in which it does the work, its column, and a run of a number of calls that gives a result to compare.
pub struct Subject<'a, T> {
    way: &'static str,
    column: Column,
    run: Box<dyn FnMut(usize) -> T + 'a>,
}

impl<'a, T> Subject<'a, T> {
    pub fn new(way: &'static str, column: Column, run: impl FnMut(usize) -> T + 'a) -> Self {
        Subject {
            way,
            column,
            run: Box::new(run),
        }
    }

    /// The proved library's subject, which stands beside every way.
    pub fn proved(run: impl FnMut(usize) -> T + 'a) -> Self {
        Subject::new("", Column::Proved, run)
    }
}

/// What is measured, and how often.
pub struct Measure {
    pub title: String,
    pub cleared: &'static str,
    pub calls: usize,
    pub parts: usize,
    pub rounds: usize,
}

/// A subject's nanoseconds.
pub struct Time {
    pub way: &'static str,
    pub column: Column,
    pub ns: f64,
}

/// What was measured: the proved library's time is the first.
pub struct Timed {
    pub title: String,
    pub cleared: &'static str,
    pub times: Vec<Time>,
}

impl Measure {
    /// Runs the subjects in turn, checks that all give the same result, and gives nanoseconds for each of the `parts` of a call.
    pub fn compare<T: PartialEq + Debug>(self, mut subjects: Vec<Subject<T>>) -> Timed {
        let Measure { title, cleared, .. } = self;
        let mut best = vec![f64::INFINITY; subjects.len()];
        for _ in 0..self.rounds {
            let mut first = None;
            for (subject, best) in subjects.iter_mut().zip(&mut best) {
                let start = Instant::now();
                let result = (subject.run)(self.calls);
                let ns = start.elapsed().as_nanos() as f64 / (self.calls * self.parts) as f64;
                *best = best.min(ns);
                match &first {
                    None => first = Some(result),
                    Some(expected) => {
                        let name = subject.column.name();
                        assert!(&result == expected, "{title}: {name} {}", subject.way)
                    }
                }
            }
        }
        println!("{title}: {} outputs agree", subjects.len());
        let time = |(subject, ns): (&Subject<T>, f64)| Time {
            way: subject.way,
            column: subject.column,
            ns,
        };
        let times = subjects.iter().zip(best).map(time).collect();
        Timed {
            title,
            cleared,
            times,
        }
    }
}

impl Timed {
    /// Prints each subject's time and the ratio of the proved library's time to it.
    pub fn print(&self) {
        println!("  buffers cleared first: {}", self.cleared);
        for Time { way, column, ns } in &self.times {
            let ratio = self.times[0].ns / ns;
            println!(
                "  {:<29}{way:<32}{:>10}{ratio:>8.2}",
                column.name(),
                human(*ns)
            );
        }
    }
}

/// A time as people read it.
pub fn human(ns: f64) -> String {
    match ns {
        ns if ns < 1e3 => format!("{ns:.1} ns"),
        ns if ns < 1e4 => format!("{ns:.0} ns"),
        ns if ns < 1e6 => format!("{:.1} µs", ns / 1e3),
        ns if ns < 1e9 => format!("{:.1} ms", ns / 1e6),
        ns => format!("{:.2} s", ns / 1e9),
    }
}
