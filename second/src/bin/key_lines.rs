//! Key lines to compare with, right ones and damaged ones, the same at every run.

use second::field::P;
use second::rng::Rng;
use second::text::{digits, hex};
use std::collections::HashSet;

/// The seeds of the damaged lines.
const S0: &str = "0123456789abcdef1032547698badcfe";
const S1: &str = "f0e1d2c3b4a5968778695a4b3c2d1e0f";

/// What stands in for a character of a line: spaces, what is next to a digit, signs and more.
const OTHERS: [&str; 17] = [
    " ", "\t", "\r", "/", ":", "@", "A", "F", "G", "`", "g", "2", "-", "+", ".", "\u{7f}",
    "\u{ff11}",
];

fn main() {
    let mut lines = right();
    lines.extend(edges());
    lines.extend(refused());
    lines.extend(fields());
    lines.extend(characters(&format!("12 1 011010010110 {S0} {S1}")));
    let mut printed = HashSet::new();
    for line in lines {
        if printed.insert(line.clone()) {
            println!("{line}");
        }
    }
}

/// A line for a string and two seeds.
fn line(expander: u64, string: &[bool], seed0: &[u8], seed1: &[u8]) -> String {
    let (n, string) = (string.len(), digits(string));
    format!("{n} {expander} {string} {} {}", hex(seed0), hex(seed1))
}

/// Right lines of every length, with both expanders and each kind of string and of seeds.
fn right() -> Vec<String> {
    let mut rng = Rng::new(1);
    let mut lines = vec![line(2, &[true], &first_word(0), &first_word(1))];
    for n in 1..=32 {
        for expander in [1, 2] {
            let every_second = (0..n).map(|i| i % 2 == 0).collect();
            let strings = [vec![false; n], vec![true; n], every_second, rng.bits(n)];
            for (i, string) in strings.iter().enumerate() {
                let (a, b) = (rng.bytes(16), rng.bytes(16));
                let (zero, full) = (vec![0; 16], vec![255; 16]);
                let [seed0, seed1] = match (n + i) % 6 {
                    0 => [a, b],
                    1 => [a.clone(), a],
                    2 => [full.clone(), full],
                    3 => [zero.clone(), zero],
                    4 => [zero, full],
                    _ => [full, b],
                };
                lines.push(line(expander, string, &seed0, &seed1));
            }
        }
    }
    lines
}

/// A seed with this first word and zeros after it.
fn first_word(word: u64) -> Vec<u8> {
    u128::from(word).to_le_bytes().to_vec()
}

/// Right lines whose draws by expander 2 are around p and around 2^64.
fn edges() -> Vec<String> {
    let mut lines = Vec::new();
    for below in 0..16 {
        for (i, end) in [P, u64::MAX].into_iter().enumerate() {
            let string = [below % 2 == 0, i == 0, true];
            let [near, far] = [end - below, below].map(first_word);
            lines.push(line(2, &string, &near, &far));
            lines.push(line(2, &string, &far, &near));
        }
    }
    lines
}

/// Lines that are as laid out but for n = 0, an unknown expander or both.
fn refused() -> Vec<String> {
    let mut lines = Vec::new();
    for expander in [
        0, 1, 2, 3, 4, 9, 10, 11, 12, 20, 21, 22, 255, 256, 257, 258, 10_002, 32_769, 65_535,
        65_536, 65_537, 65_538, 99_999,
    ] {
        lines.push(format!("0 {expander}  {S0} {S1}"));
        lines.push(format!("1 {expander} 1 {S0} {S1}"));
    }
    lines
}

/// Lines of which a field is not as laid out, one is missing or one too many.
fn fields() -> Vec<String> {
    let mut lines: Vec<String> = [
        "", " ", "    ", "\t", "\r", "0", "1", "1 2", "1 2 1", "1 2 1 ",
    ]
    .map(String::from)
    .to_vec();
    for n in [33, 34, 40, 64, 255, 256, 257] {
        for expander in [0, 1, 2] {
            lines.push(format!("{n} {expander} {} {S0} {S1}", &"01".repeat(n)[..n]));
        }
    }
    for head in [
        "01 2 1",
        "1 02 1",
        "00 2 ",
        "0 00 ",
        "1 00 1",
        "00001 2 1",
        "000001 2 1",
        "1 00002 1",
        "1 000002 1",
        "100000 2 1",
        "1 100000 1",
        "100001 2 1",
        "1 100002 1",
        "65537 2 1",
        "65568 2 1",
        "99999 2 1",
        "4294967297 2 1",
        "1 4294967298 1",
        "18446744073709551617 2 1",
        "1 18446744073709551618 1",
        "+1 2 1",
        "-1 2 1",
        "-0 2 ",
        "1 +2 1",
        "1 -2 1",
        "1.0 2 1",
        "0x1 2 1",
        "1 2. 1",
        "1,2 1",
        "0 2 0",
        "0 2",
        "0 2  ",
        "0 3 1",
        "0 100000 ",
        "33 3 1",
        "1 2 ",
        "1 2",
        "2",
        " 2 1",
        "1  1",
        "1 2 2",
        "1 2 a",
        "1 2 01",
        "1 2 10",
        "2 2 1",
        "2 2 011",
        "32 1 1",
        "31 1 11111111111111111111111111111111",
        "1 2 1 2",
        "1 1 1 2",
    ] {
        lines.push(format!("{head} {S0} {S1}"));
    }
    let (upper, cut) = (S0.to_uppercase(), &S0[1..]);
    for seeds in [
        S0.to_owned(),
        format!(" {S1}"),
        format!("{S0} "),
        format!("{S0}{S1}"),
        format!("{S0}  {S1}"),
        format!("{S0} {S1} "),
        format!("{S0} {S1}\t"),
        format!("{S0} {S1}\r"),
        format!("{S0} {S1} {S1}"),
        format!("{S0} {S1} 0"),
        format!("{upper} {S1}"),
        format!("{S1} {upper}"),
        format!("{cut} {S1}"),
        format!("{S1} {cut}"),
        format!("0{S0} {S1}"),
        format!("{S0} 0{S1}"),
        format!("{S0}0 {cut}"),
        format!("{cut} {S1}0"),
        format!("0x{cut} {S1}"),
        format!("0x{} {S1}", &S0[2..]),
        format!("{S0} {}", &S1[..30]),
        format!("{S0} {S1}00"),
    ] {
        lines.push(format!("1 2 1 {seeds}"));
    }
    let good = format!("1 2 1 {S0} {S1}");
    lines.extend([format!(" {good}"), format!("\t{good}"), format!("\r{good}")]);
    lines.extend([
        format!("{good:0<4095}"),
        format!("{good:0<4096}"),
        format!("{good: <10000}"),
    ]);
    lines.extend(["\t", "\r", ",", ""].map(|space| good.replace(' ', space)));
    lines
}

/// A right line with each character dropped, doubled or changed.
fn characters(good: &str) -> Vec<String> {
    let mut lines = vec![good.to_owned()];
    for at in 0..good.len() {
        let (before, one, after) = (&good[..at], &good[at..=at], &good[at + 1..]);
        lines.push(format!("{before}{after}"));
        lines.push(format!("{before}{one}{one}{after}"));
        let starts = at == 0 || before.ends_with(' ');
        let others = if starts {
            &OTHERS[..]
        } else {
            &OTHERS[at % OTHERS.len()..][..1]
        };
        lines.extend(others.iter().map(|other| format!("{before}{other}{after}")));
    }
    lines
}
