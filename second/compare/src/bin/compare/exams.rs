//! Comparison of the exam: every change of one byte in some sheets, the fixed texts of
//! `exam_cases`, and random sheets, whole and damaged; number, length, all of `out` and the text.
//! For each of these texts the whole output, in just enough space and in one byte less.

use crate::exam_cases;
use compare::calls;
use compare::make::{room, short_room};
use compare::sheets::{change_byte, wild_text, Sheet};
use compare::tally::{Outcome, Plan, Space, Tally};
use second::exam::MOST_ANSWER;
use second::rng::Rng;
use std::hint::black_box;
use std::ops::Range;

/// What is damaged, with the number that surely follows, 0 where it may be any.
const DAMAGES: [(&str, u64); 11] = [
    ("n", 1),
    ("t", 2),
    ("expander", 3),
    ("count", 10),
    ("digits of the first line", 10),
    ("one byte", 0),
    ("many bytes", 0),
    ("lines", 0),
    ("cut short", 10),
    ("more at the end", 10),
    ("room", 11),
];

pub fn run(start: u64, count: usize, tally: &mut Tally) {
    let mut rng = Rng::new(start ^ 6);
    changed_sheets(&mut rng, tally);
    exam_cases::each(|name, number, answer, text| {
        for (room, wanted) in rooms(number, answer.len()) {
            let plan = Plan::fixed(name, &wanted);
            let theirs = compare_exam(&mut rng, &plan, text, room, tally);
            answered(name, &theirs, answer, tally);
        }
        let output = compare_respond(&mut rng, &Plan::fixed(name, &[]), text, tally);
        let line = format!("refused {number}\n").into_bytes();
        if output != if number == 0 { answer } else { &line } {
            tally.fault(&format!("respond, {name}: another output"));
        }
    });
    let names = DAMAGES.map(|(name, _)| name);
    for i in 0..count {
        let plan = Plan::of(i, &names);
        if plan.hostile() {
            let size = rng.pick(&[0, 7, 8, 100, MOST_ANSWER]);
            let text = wild_text(&mut rng);
            compare(&mut rng, &plan, &text, size, tally);
        } else {
            sheet(&mut rng, plan, tally);
        }
    }
}

/// The rooms that a fixed text is tried with, and what it must then return.
fn rooms(number: u64, size: usize) -> Vec<(usize, [u64; 2])> {
    if number != 0 {
        return [0, 8, MOST_ANSWER].map(|room| (room, [number, 0])).to_vec();
    }
    let fits = [size, size + 1, MOST_ANSWER].map(|room| (room, [0, size as u64]));
    let short = [0, size / 2, size - 1].map(|room| (room, [11, 0]));
    [fits, short].concat()
}

/// Every change of one byte in D to G, and in the first two lines of a sheet with AES.
fn changed_sheets(rng: &mut Rng, tally: &mut Tally) {
    for strings in [["01", "01", "11"], ["01", "01", "10"], ["01", "00", "11"]] {
        for expander in [Some(2), None] {
            let sheet = Sheet::of(rng, 2, 2, expander, &strings);
            changed(rng, &sheet, 0..sheet.text().len(), tally);
        }
    }
    for expander in [Some(2), None] {
        let sheet = Sheet::of(rng, 1, 1, expander, &[]);
        changed(rng, &sheet, 0..sheet.text().len(), tally);
    }
    let strings = ["110100101", "110100101", "110111000"];
    let sheet = Sheet::of(rng, 9, 2, Some(1), &strings);
    let two_lines = sheet.head().len() + sheet.lines().len() / 3;
    changed(rng, &sheet, 0..two_lines, tally);
}

/// Every text with one byte replaced, deleted or inserted at these places.
fn changed(rng: &mut Rng, sheet: &Sheet, places: Range<usize>, tally: &mut Tally) {
    let text = sheet.text();
    let size = sheet.answer().len();
    let wide = size + 40 * sheet.n;
    let [replaced, deleted, inserted] =
        ["one byte replaced", "one byte deleted", "one byte inserted"].map(|name| Plan {
            kind: "changed",
            damages: vec![name],
            wanted: Vec::new(),
        });
    for at in places.start..=places.end {
        let mut take = |plan: &Plan, text: &[u8]| {
            let room = rng.pick(&[wide, wide, wide, size, size, size - 1, 0]);
            compare(rng, plan, text, room, tally);
        };
        let mut longer = text.clone();
        longer.insert(at, 0);
        for byte in 0..=255 {
            longer[at] = byte;
            take(&inserted, &longer);
        }
        if at < places.end {
            let mut other = text.clone();
            for byte in 0..=255 {
                other[at] = byte;
                take(&replaced, &other);
            }
            other.remove(at);
            take(&deleted, &other);
        }
    }
}

/// A random sheet, damaged as planned.
fn sheet(rng: &mut Rng, mut plan: Plan, tally: &mut Tally) {
    let known = known(&plan.damages);
    // A changed byte may lower t or change the expander, so such a sheet is small.
    let most = if known.is_some() { 32 } else { 12 };
    let mut sheet = Sheet::random(rng, most, |aes| if aes { 3_000 } else { 100_000 });
    let answer = sheet.answer();
    for damage in &plan.damages {
        spoil_sheet(rng, &mut sheet, damage);
    }
    let mut text = sheet.text();
    for damage in &plan.damages {
        spoil_text(rng, &mut text, damage);
    }
    let near = room(rng, answer.len());
    let mut size = rng.pick(&[near, near, MOST_ANSWER]);
    if plan.has("room") {
        size = short_room(rng, answer.len());
    }
    plan.wanted = match known {
        Some(0) => vec![0, answer.len() as u64],
        Some(number) => vec![number, 0],
        None => Vec::new(),
    };
    let theirs = compare(rng, &plan, &text, size, tally);
    if known == Some(0) {
        answered("random sheet", &theirs, &answer, tally);
    }
}

/// The number that follows from the damages, 10 before the lowest, where it surely does.
fn known(damages: &[&str]) -> Option<u64> {
    let number = |name: &&str| DAMAGES.iter().find(|damage| damage.0 == *name).unwrap().1;
    let numbers: Vec<u64> = damages.iter().map(number).collect();
    // Two damages to the text may undo each other.
    match numbers.iter().filter(|n| [0, 10].contains(n)).count() {
        0 => Some(numbers.into_iter().min().unwrap_or(0)),
        1 if numbers.contains(&10) => Some(10),
        _ => None,
    }
}

fn spoil_sheet(rng: &mut Rng, sheet: &mut Sheet, damage: &str) {
    match damage {
        "n" => {
            sheet.n = 0;
            sheet.strings.iter_mut().for_each(Vec::clear);
        }
        "t" => sheet.t = rng.pick(&[0, 65_536, 65_537, 99_999]),
        "expander" => sheet.expander = Some(rng.pick(&[0, 3, 9, 257, 65_537, 99_999])),
        _ => {}
    }
}

fn spoil_text(rng: &mut Rng, text: &mut Vec<u8>, damage: &str) {
    let mut lines: Vec<Vec<u8>> = text
        .split_inclusive(|b| *b == b'\n')
        .map(Vec::from)
        .collect();
    match damage {
        "count" | "digits of the first line" if !lines.is_empty() => {
            let count = lines.len() - 1;
            let head = String::from_utf8_lossy(&lines[0]).trim_end().to_string();
            let mut fields: Vec<String> = head.split(' ').map(String::from).collect();
            if damage == "count" {
                let other = rng.pick(&[count + 1, count.wrapping_sub(1), 33, 99_999]);
                fields[2] = other.to_string();
            } else {
                let field = rng.below(fields.len());
                let more = if rng.coin() { "0" } else { "00000" };
                fields[field].insert_str(0, more);
            }
            lines[0] = (fields.join(" ") + "\n").into_bytes();
            *text = lines.concat();
        }
        "one byte" => change_byte(rng, text),
        "many bytes" => {
            for _ in 0..2 + rng.below(5) {
                change_byte(rng, text);
            }
        }
        "lines" if !lines.is_empty() => {
            let (from, to) = (rng.below(lines.len()), rng.below(lines.len()));
            match rng.below(3) {
                0 => lines.swap(from, to),
                1 => lines.insert(to, lines[from].clone()),
                _ => {
                    lines.remove(from);
                }
            }
            *text = lines.concat();
        }
        "cut short" => text.truncate(rng.below(text.len().max(1))),
        "more at the end" => {
            let again = lines.last().cloned().unwrap_or_default();
            let more: [&[u8]; 5] = [b"\n", b" ", b"\0", b"\n\n", &again];
            text.extend(rng.pick(&more).repeat(rng.pick(&[1, 1, 2, 60, 5000])));
        }
        _ => {}
    }
}

/// Counts a fault unless the library wrote this answer.
fn answered(name: &str, theirs: &Outcome, answer: &[u8], tally: &mut Tally) {
    if theirs.numbers[0] == 0 && theirs.spaces[1].first(theirs.numbers[1]) != answer {
        tally.fault(&format!("exam, {name}: the answer is not the counts"));
    }
}

/// A call that takes a text and one space.
type Exam = fn(&[u8], &mut [u8]) -> second::Reply;

/// Compares the exam in this room, and the whole output; gives the library's outcome of the exam.
fn compare(rng: &mut Rng, plan: &Plan, text: &[u8], room: usize, tally: &mut Tally) -> Outcome {
    compare_respond(rng, plan, text, tally);
    compare_exam(rng, plan, text, room, tally)
}

fn compare_exam(
    rng: &mut Rng,
    plan: &Plan,
    text: &[u8],
    room: usize,
    tally: &mut Tally,
) -> Outcome {
    let both = [second::exam_into as Exam, calls::exam];
    compare_call("exam", both, rng, plan, text, room, tally)
}

/// Compares the whole output in just enough space and in one byte less, and gives it.
fn compare_respond(rng: &mut Rng, plan: &Plan, text: &[u8], tally: &mut Tally) -> Vec<u8> {
    let output = second::exam(text);
    let size = output.len();
    for (room, wanted) in [(size, [0, size as u64]), (size - 1, [11, 0])] {
        let plan = Plan {
            kind: plan.kind,
            damages: plan.damages.clone(),
            wanted: wanted.to_vec(),
        };
        let both = [second::respond_into as Exam, calls::respond];
        compare_call("respond", both, rng, &plan, text, room, tally);
    }
    output
}

/// Compares one call and gives the library's outcome.
fn compare_call(
    name: &'static str,
    both: [Exam; 2],
    rng: &mut Rng,
    plan: &Plan,
    text: &[u8],
    room: usize,
    tally: &mut Tally,
) -> Outcome {
    let inputs = text[..text.len().min(400)].escape_ascii();
    tally.before(name, plan, &inputs);
    let salt = rng.number();
    let [ours, theirs] = both.map(|call| {
        let lent = black_box(Space::holding(text));
        let mut out = Space::new(room, salt);
        let reply = call(lent.first(u64::MAX), out.lent());
        Outcome {
            numbers: vec![reply.number, reply.length],
            spaces: black_box(vec![lent, out]),
        }
    });
    tally.judge(name, plan, ours, theirs, &inputs)
}
