//! Spaces lent to the calls, and the count of what was compared.

use second::rng::Rng;
use std::collections::BTreeMap;
use std::fmt::Display;

/// Bytes after every lent space that no call may touch.
const GUARD: usize = 24;

/// A space filled with a pattern before the call, without zero bytes.
pub struct Space {
    bytes: Vec<u8>,
    lent: usize,
}

impl Space {
    pub fn new(lent: usize, salt: u64) -> Space {
        let salt = salt as u8;
        let pattern = |i: usize| (i as u8).wrapping_mul(31).wrapping_add(salt).max(1);
        Space {
            bytes: (0..lent + GUARD).map(pattern).collect(),
            lent,
        }
    }

    /// A space that holds these bytes before the call.
    pub fn holding(bytes: &[u8]) -> Space {
        let mut space = Space::new(bytes.len(), 0);
        space.lent().copy_from_slice(bytes);
        space
    }

    pub fn lent(&mut self) -> &mut [u8] {
        &mut self.bytes[..self.lent]
    }

    /// The first bytes of the space, all where there are fewer.
    pub fn first(&self, length: u64) -> &[u8] {
        let length = usize::try_from(length).unwrap_or(self.lent);
        &self.bytes[..length.min(self.lent)]
    }

    pub fn same(&self, other: &Space) -> bool {
        self.bytes == other.bytes
    }
}

/// What a call returned and what it left in its spaces.
pub struct Outcome {
    pub numbers: Vec<u64>,
    pub spaces: Vec<Space>,
}

/// What a call is aimed at.
pub struct Plan {
    pub kind: &'static str,
    pub damages: Vec<&'static str>,
    /// The first numbers that the call must return, as far as they are known beforehand.
    pub wanted: Vec<u64>,
}

impl Plan {
    /// The plan of call i: honest, hostile, each damage, each two damages, and round again.
    pub fn of(i: usize, damages: &[&'static str]) -> Plan {
        let mut all = Vec::new();
        for _ in 0..6 + damages.len() * damages.len() / 4 {
            all.push(("honest", vec![]));
        }
        for _ in 0..3 + damages.len() {
            all.push(("hostile", vec![]));
        }
        for (a, first) in damages.iter().enumerate() {
            for _ in 0..4 {
                all.push(("damaged once", vec![*first]));
            }
            for second in &damages[a + 1..] {
                all.push(("damaged twice", vec![*first, *second]));
            }
        }
        let at = i % all.len();
        let (kind, damages) = all.swap_remove(at);
        Plan {
            kind,
            damages,
            wanted: Vec::new(),
        }
    }

    pub fn special(name: &'static str) -> Plan {
        Plan {
            kind: "special",
            damages: vec![name],
            wanted: Vec::new(),
        }
    }

    pub fn fixed(name: &'static str, wanted: &[u64]) -> Plan {
        Plan {
            kind: "fixed",
            damages: vec![name],
            wanted: wanted.to_vec(),
        }
    }

    /// The plan of an honest collection whose answer is then judged by brute force.
    pub fn counted(name: &'static str) -> Plan {
        Plan {
            kind: "counted",
            damages: vec![name],
            wanted: vec![0],
        }
    }

    pub fn has(&self, damage: &str) -> bool {
        self.damages.contains(&damage)
    }

    pub fn hostile(&self) -> bool {
        self.kind == "hostile"
    }

    /// A call as planned.
    pub fn call<C>(
        &self,
        rng: &mut Rng,
        hostile: impl Fn(&mut Rng) -> C,
        damaged: impl Fn(&mut Rng, &Plan) -> C,
    ) -> C {
        if self.hostile() {
            hostile(rng)
        } else {
            damaged(rng, self)
        }
    }
}

#[derive(Default)]
pub struct Tally {
    pub calls: u64,
    pub differences: u64,
    /// The call whose outcome is changed on purpose, to try the comparison.
    pub spoil: Option<u64>,
    pub trace: bool,
    numbers: BTreeMap<(&'static str, u64), u64>,
    kinds: BTreeMap<(&'static str, &'static str), u64>,
    aims: BTreeMap<(&'static str, &'static str), u64>,
    answers: BTreeMap<u64, u64>,
    /// Pairs of collections of each kind with equal records and with others.
    pairs: BTreeMap<&'static str, [u64; 2]>,
}

impl Tally {
    /// Announces the next call when tracing.
    pub fn before(&self, call: &str, plan: &Plan, inputs: &dyn Display) {
        if self.trace {
            eprintln!(
                "{} {call} {} {:?} {inputs}",
                self.calls, plan.kind, plan.damages
            );
        }
    }

    /// Compares one call's outcomes in every number and every byte; gives the second back.
    pub fn judge(
        &mut self,
        call: &'static str,
        plan: &Plan,
        ours: Outcome,
        mut theirs: Outcome,
        inputs: &dyn Display,
    ) -> Outcome {
        if self.spoil == Some(self.calls) {
            match theirs.spaces.last_mut().and_then(|s| s.bytes.last_mut()) {
                Some(byte) => *byte ^= 1,
                None => theirs.numbers[0] ^= 1,
            }
        }
        let mut text = String::new();
        if ours.numbers != theirs.numbers {
            text += &format!(" ours {:?} theirs {:?};", ours.numbers, theirs.numbers);
        }
        for (whose, numbers) in [("ours", &ours.numbers), ("theirs", &theirs.numbers)] {
            if !numbers.starts_with(&plan.wanted) {
                text += &format!(" {whose} {numbers:?} wanted {:?};", plan.wanted);
            }
        }
        for (i, (a, b)) in ours.spaces.iter().zip(&theirs.spaces).enumerate() {
            if let Some(at) = (0..a.bytes.len()).find(|&at| a.bytes[at] != b.bytes[at]) {
                let (x, y) = (a.bytes[at], b.bytes[at]);
                text += &format!(
                    " space {i} of {} bytes: byte {at} ours {x:02x} theirs {y:02x};",
                    a.lent
                );
            }
        }
        if !text.is_empty() {
            self.differences += 1;
            if self.differences <= 10 {
                println!("DIFFERS at call {}: {call}, {}", self.calls, plan.kind);
                println!("  aimed at {:?};{text}", plan.damages);
                println!("  {inputs}");
            }
        }
        self.calls += 1;
        *self.numbers.entry((call, ours.numbers[0])).or_default() += 1;
        *self.kinds.entry((call, plan.kind)).or_default() += 1;
        for damage in &plan.damages {
            *self.aims.entry((call, damage)).or_default() += 1;
        }
        if call == "combine" {
            *self.answers.entry(ours.numbers[1]).or_default() += 1;
        }
        theirs
    }

    /// Counts something else that must hold of the call before and does not.
    pub fn fault(&mut self, text: &str) {
        self.differences += 1;
        if self.differences <= 10 {
            println!("FAILS after {} calls: {text}", self.calls);
        }
    }

    /// Counts two collections, and a fault unless their records are equal as they should be.
    pub fn pair(&mut self, kind: &'static str, equal: bool, should: bool) {
        self.pairs.entry(kind).or_default()[!equal as usize] += 1;
        if equal != should {
            self.fault(&format!(
                "demand 3, {kind}: records equal {equal}, cut strings rearranged {should}"
            ));
        }
    }

    /// How many pairs of collections had equal records and how many others.
    pub fn all_pairs(&self) -> [u64; 2] {
        let sum = |at: usize| self.pairs.values().map(|both| both[at]).sum();
        [sum(0), sum(1)]
    }

    pub fn met(&self, call: &'static str, number: u64) -> bool {
        self.numbers.contains_key(&(call, number))
    }

    pub fn met_kind(&self, kind: u64) -> bool {
        self.answers.contains_key(&kind)
    }

    pub fn print(&self) {
        println!("calls of each kind:");
        for ((call, kind), count) in &self.kinds {
            println!("  {call}: {kind}: {count}");
        }
        println!("calls aimed at each thing:");
        for ((call, aim), count) in &self.aims {
            println!("  {call}: {aim}: {count}");
        }
        println!("calls of each returned number:");
        for ((call, number), count) in &self.numbers {
            println!("  {call}: {number}: {count}");
        }
        for (kind, count) in &self.answers {
            println!("  combine answering kind {kind}: {count}");
        }
        for (kind, [equal, other]) in &self.pairs {
            println!("  pairs of collections, {kind}: {equal} equal records, {other} not");
        }
    }
}

/// The first bytes of an input in hexadecimal, with its length.
pub fn shown(name: &str, bytes: &[u8]) -> String {
    let head: String = bytes.iter().take(64).map(|b| format!("{b:02x}")).collect();
    let more = if bytes.len() > 64 { ".." } else { "" };
    format!("{name}[{}]={head}{more} ", bytes.len())
}
