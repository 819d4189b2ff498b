//! One call made and judged: its number, its lengths, and every byte lent to it.

use compare::tally::{shown, Space};
use second::rng::Rng;
use std::collections::BTreeMap;
use std::hint::black_box;

/// A call by name, the numbers that it may return, and those of its arguments that are numbers.
pub struct Call<'a> {
    pub name: &'static str,
    pub may: &'a [u64],
    pub fields: &'a [u64],
}

/// What was judged so far.
#[derive(Default)]
pub struct Judged {
    pub round: u64,
    pub faults: u64,
    pub trace: bool,
    numbers: BTreeMap<(&'static str, u64), u64>,
}

impl Judged {
    /// Makes a call with these inputs and areas of these sizes; gives what it wrote.
    pub fn call<const I: usize, const A: usize>(
        &mut self,
        rng: &mut Rng,
        call: &Call,
        inputs: [&[u8]; I],
        sizes: [usize; A],
        make: impl FnOnce([&[u8]; I], [&mut [u8]; A]) -> (u64, [u64; A]),
    ) -> [Vec<u8>; A] {
        if self.trace {
            eprintln!("{}", self.told(call, &inputs, &sizes));
        }
        let salt = rng.number();
        let lent = black_box(inputs.map(Space::holding));
        let mut areas = sizes.map(|size| Space::new(size, salt));
        let (number, lengths) = make(
            lent.each_ref().map(|space| space.first(u64::MAX)),
            areas.each_mut().map(|space| space.lent()),
        );
        let (lent, areas) = black_box((lent, areas));
        let mut faults = Vec::new();
        if !call.may.contains(&number) {
            faults.push(format!("returned {number}"));
        }
        for i in 0..I {
            if !Space::holding(inputs[i]).same(&lent[i]) {
                faults.push(format!("input {i} changed"));
            }
        }
        for i in 0..A {
            // A search refused with 11 makes the record area zero; that is its first area.
            let zeroed = number == 11 && call.name == "search" && i == 0;
            let before = Space::new(sizes[i], salt);
            if let Some(fault) = left(number, lengths[i], zeroed, before, &areas[i], sizes[i]) {
                faults.push(format!("area {i}: {fault}"));
            }
        }
        for fault in faults {
            self.fault(&format!("{fault}: {}", self.told(call, &inputs, &sizes)));
        }
        *self.numbers.entry((call.name, number)).or_default() += 1;
        let written = |i: usize| areas[i].first(lengths[i]).to_vec();
        std::array::from_fn(written)
    }

    /// Counts a fault and shows the first ones.
    pub fn fault(&mut self, text: &str) {
        self.faults += 1;
        if self.faults <= 10 {
            println!("FAULT in round {}: {text}", self.round);
        }
    }

    /// A call as it is shown.
    fn told(&self, call: &Call, inputs: &[&[u8]], sizes: &[usize]) -> String {
        let inputs: String = inputs.iter().map(|bytes| shown("input", bytes)).collect();
        let (name, fields) = (call.name, call.fields);
        format!("{} {name} {fields:?} {inputs}areas {sizes:?}", self.round)
    }

    pub fn print(&self) {
        println!("calls of each returned number:");
        for ((call, number), count) in &self.numbers {
            println!("  {call}: {number}: {count}");
        }
        println!("calls: {}", self.numbers.values().sum::<u64>());
    }
}

/// What is wrong with an area after a call, if anything is.
fn left(
    number: u64,
    length: u64,
    zeroed: bool,
    mut before: Space,
    after: &Space,
    size: usize,
) -> Option<&'static str> {
    if number != 0 && length != 0 {
        return Some("refused with a length");
    }
    if length > size as u64 {
        return Some("a length above the space");
    }
    if zeroed {
        before.lent().fill(0);
    }
    let written = after.first(length);
    before.lent()[..written.len()].copy_from_slice(written);
    match (before.same(after), number) {
        (true, _) => None,
        (false, 0) => Some("a byte past the length changed"),
        (false, _) => Some("a byte is not as a refusal leaves it"),
    }
}
