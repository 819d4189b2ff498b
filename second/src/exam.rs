//! The exam program: from the text on standard input to the whole output.

use crate::query::{pack, unpack, Query};
use crate::text::{self, decimal, digits, report, Line};
use crate::{field, judge, key, search, Reply};

/// Bytes that are enough for every answer: 64 lines for each of 32 lengths, 32 heavy strings.
pub const MOST_ANSWER: usize = 43_232;

/// An exam text as laid out.
struct Text {
    n: usize,
    t: u64,
    expander: u64,
    reports: Vec<Line>,
}

/// The whole output for a standard input.
pub fn exam(text: &[u8]) -> Vec<u8> {
    let mut out = vec![0u8; MOST_ANSWER];
    let reply = exam_into(text, &mut out);
    if reply.number != 0 {
        return text::refused(reply.number).into_bytes();
    }
    out.truncate(reply.length as usize);
    out
}

/// Writes the whole output for an exam text, or refuses with 11.
pub fn respond_into(text: &[u8], out: &mut [u8]) -> Reply {
    let output = exam(text);
    if output.len() > out.len() {
        return Reply {
            number: 11,
            length: 0,
        };
    }
    out[..output.len()].copy_from_slice(&output);
    Reply {
        number: 0,
        length: output.len() as u64,
    }
}

/// Writes the answer to an exam text: 10 is judged first, then 1, 2 and 3, and 11 last.
pub fn exam_into(text: &[u8], out: &mut [u8]) -> Reply {
    let outcome = match read(text) {
        Some(text) => judged(&text),
        None => Err(10),
    };
    let refused = |number| Reply { number, length: 0 };
    match outcome {
        Err(number) => refused(number),
        Ok(lines) if lines.len() > out.len() => refused(11),
        Ok(lines) => {
            out[..lines.len()].copy_from_slice(lines.as_bytes());
            Reply {
                number: 0,
                length: lines.len() as u64,
            }
        }
    }
}

fn judged(text: &Text) -> Result<String, u64> {
    let n = text.n as u64;
    // The bounds are those of the search, judged before any key is made.
    let number = judge::search(n, false, text.t, text.expander, &[], &[], &[], &[], 0, 0);
    if number != 0 {
        return Err(number);
    }
    let mut seeds0 = Vec::new();
    let mut seeds1 = Vec::new();
    let mut public_shares = Vec::new();
    for line in &text.reports {
        let mut space = vec![0u8; crate::keys::public_share_size(text.n)];
        let string = pack(&line.string);
        let made = key(
            n,
            text.expander,
            1,
            &string,
            &line.seed0,
            &line.seed1,
            &mut space,
        );
        if made.number != 0 {
            return Err(made.number);
        }
        public_shares.extend_from_slice(&space);
        seeds0.extend_from_slice(&line.seed0);
        seeds1.extend_from_slice(&line.seed1);
    }
    let mut record = vec![0u8; 1 << 16];
    let mut list = vec![0u8; 1 << 10];
    let found = search(
        n,
        false,
        text.t,
        text.expander,
        &seeds0,
        &public_shares,
        &seeds1,
        &public_shares,
        &mut record,
        &mut list,
    );
    if found.number != 0 {
        return Err(found.number);
    }
    let record = &record[..found.record_length as usize];
    let list = &list[..found.list_length as usize];
    Ok(printed(text.n, record, list))
}

fn printed(n: usize, record: &[u8], list: &[u8]) -> String {
    let mut lines = String::new();
    for (length, prefix, total) in entries(record) {
        lines += &format!("{} {total}\n", digits(&unpack(&prefix, length)));
    }
    for string in list.chunks(crate::query::packed_size(n)) {
        lines += &format!("heavy {}\n", digits(&unpack(string, n)));
    }
    lines
}

/// The bytes of the head of a record, which is not printed.
const HEAD: usize = 8;

/// Each queried prefix of a record, after its head: its length, its packed bits, its total.
pub fn entries(record: &[u8]) -> Vec<(usize, Vec<u8>, u64)> {
    let mut entries = Vec::new();
    let mut rest = &record[HEAD..];
    while rest.len() >= 6 {
        let length = u16::from_be_bytes([rest[0], rest[1]]) as usize + 1;
        let count = u32::from_be_bytes([rest[2], rest[3], rest[4], rest[5]]) as usize;
        let end = 6 + count * crate::query::packed_size(length);
        let query = Query::of(&rest[..end]);
        for i in 0..count {
            let total = field::read(&rest[end + 8 * i..end + 8 * i + 8]);
            entries.push((length, query.prefix(i).to_vec(), total));
        }
        rest = &rest[end + 8 * count..];
    }
    entries
}

fn read(text: &[u8]) -> Option<Text> {
    let mut lines = text::body(text)?.split(|&byte| byte == b'\n');
    let head: Vec<&[u8]> = lines.next()?.split(|&byte| byte == b' ').collect();
    if head.len() != 3 && head.len() != 4 {
        return None;
    }
    let numbers: Option<Vec<u64>> = head.iter().map(|field| decimal(field)).collect();
    let numbers = numbers?;
    let (n, t, count) = (numbers[0], numbers[1], numbers[2]);
    if n > 32 || count > 32 {
        return None;
    }
    let reports: Option<Vec<Line>> = lines.map(|line| report(line, n as usize)).collect();
    let reports = reports?;
    if reports.len() as u64 != count {
        return None;
    }
    Some(Text {
        n: n as usize,
        t,
        expander: numbers.get(3).copied().unwrap_or(2),
        reports,
    })
}
