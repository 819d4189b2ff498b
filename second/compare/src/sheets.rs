//! Sheets for the exam: their text, and their answer counted by brute force.

use crate::make::{room, seed, strings};
use second::brute;
use second::rng::Rng;

/// An exam text as laid out, before it is written.
#[derive(Clone)]
pub struct Sheet {
    pub n: usize,
    pub t: u64,
    /// Nothing where the field is missing.
    pub expander: Option<u64>,
    pub strings: Vec<Vec<bool>>,
    /// The two seeds of each string.
    pub seeds: Vec<[Vec<u8>; 2]>,
}

impl Sheet {
    /// The sheet of these strings, with seeds drawn.
    pub fn of(rng: &mut Rng, n: usize, t: u64, expander: Option<u64>, strings: &[&str]) -> Sheet {
        let bits = |text: &&str| text.chars().map(|c| c == '1').collect();
        Sheet {
            n,
            t,
            expander,
            strings: strings.iter().map(bits).collect(),
            seeds: strings.iter().map(|_| [seed(rng), seed(rng)]).collect(),
        }
    }

    /// A sheet of up to `most` bits and strings, whose search reaches at most so many nodes.
    pub fn random(rng: &mut Rng, most: usize, nodes: impl Fn(bool) -> usize) -> Sheet {
        let (any, few) = (1 + rng.below(most), 1 + rng.below(most.min(9)));
        let n = rng.pick(&[1, 2, few, few, any, any, most - 1, most]);
        let (any, few) = (rng.below(most + 1), rng.below(most.min(6)));
        let count = rng.pick(&[0, 1, few, few, any, any, most - 1, most]);
        let all = count.max(1) as u64;
        let expander = rng.pick(&[None, Some(1), Some(2)]);
        let strings = strings(rng, n, count);
        let mut sheet = Sheet {
            n,
            t: rng.pick(&[1, 1, 2, 2, 3, all, all + 1, 65_535]),
            expander,
            strings,
            seeds: (0..count).map(|_| [seed(rng), seed(rng)]).collect(),
        };
        while sheet.nodes() > nodes(sheet.expander == Some(1)) {
            sheet.t += 1;
        }
        sheet
    }

    /// The nodes that both servers reach one by one.
    pub fn nodes(&self) -> usize {
        let asked = brute::queried(&self.strings, self.n, self.t);
        let steps: usize = asked.iter().map(|(prefix, _)| prefix.len()).sum();
        2 * steps * self.strings.len()
    }

    /// The first line.
    pub fn head(&self) -> String {
        let start = format!("{} {} {}", self.n, self.t, self.strings.len());
        match self.expander {
            Some(expander) => format!("{start} {expander}\n"),
            None => format!("{start}\n"),
        }
    }

    /// The lines of the strings and seeds.
    pub fn lines(&self) -> String {
        let hex = |seed: &[u8]| -> String { seed.iter().map(|b| format!("{b:02x}")).collect() };
        let line = |(string, [seed0, seed1]): (&Vec<bool>, &[Vec<u8>; 2])| {
            format!("{} {} {}\n", digits(string), hex(seed0), hex(seed1))
        };
        self.strings.iter().zip(&self.seeds).map(line).collect()
    }

    pub fn text(&self) -> Vec<u8> {
        (self.head() + &self.lines()).into_bytes()
    }

    /// The answer, counted without keys.
    pub fn answer(&self) -> Vec<u8> {
        let mut lines = String::new();
        for (prefix, total) in brute::queried(&self.strings, self.n, self.t) {
            lines += &format!("{} {total}\n", digits(&prefix));
        }
        for string in brute::heavy(&self.strings, self.t) {
            lines += &format!("heavy {}\n", digits(&string));
        }
        lines.into_bytes()
    }
}

fn digits(string: &[bool]) -> String {
    let digit = |bit: &bool| if *bit { '1' } else { '0' };
    string.iter().map(digit).collect()
}

/// The characters of an exam text, and some others.
const CHARACTERS: &[u8] = b"0123456789abcdef \n0123 \n012 \nABFg-+.,\r\t\0\x0b\x7f\x80\xb0\xff";

/// Replaces, deletes or inserts one byte.
pub fn change_byte(rng: &mut Rng, text: &mut Vec<u8>) {
    let any = rng.number() as u8;
    let likely = rng.pick(CHARACTERS);
    let byte = rng.pick(&[any, likely, likely, likely]);
    let at = rng.below(text.len() + 1);
    match rng.below(3) {
        0 => text.insert(at, byte),
        _ if at == text.len() => text.push(byte),
        1 => text[at] = byte,
        _ => {
            text.remove(at);
        }
    }
}

/// Bytes like those of exam texts, in any order.
pub fn wild_text(rng: &mut Rng) -> Vec<u8> {
    let (short, long) = (rng.below(20), rng.below(400));
    let length = rng.pick(&[short, short, long]);
    let length = if rng.below(50) == 0 {
        room(rng, 4090)
    } else {
        length
    };
    if rng.below(4) == 0 {
        return rng.bytes(length);
    }
    let mut text: Vec<u8> = (0..length).map(|_| rng.pick(CHARACTERS)).collect();
    text.push(b'\n');
    text
}
