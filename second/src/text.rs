//! What the exam text and the key text have in common: their fields, read and written.

/// The string and the root seeds of one report.
pub struct Line {
    pub string: Vec<bool>,
    pub seed0: Vec<u8>,
    pub seed1: Vec<u8>,
}

/// A text of at most 4,096 bytes without the newline at its end.
pub fn body(text: &[u8]) -> Option<&[u8]> {
    text.strip_suffix(b"\n").filter(|_| text.len() <= 4096)
}

/// The number of a decimal field, where it is laid out as one.
pub fn decimal(field: &[u8]) -> Option<u64> {
    if field.is_empty() || field.len() > 5 || !field.iter().all(|byte| byte.is_ascii_digit()) {
        return None;
    }
    if field.len() > 1 && field[0] == b'0' {
        return None;
    }
    let number = field
        .iter()
        .fold(0, |sum, byte| 10 * sum + (byte - b'0') as u64);
    Some(number)
}

/// The report of a line `string seed0 seed1` for a string of n bits, where it is laid out so.
pub fn report(line: &[u8], n: usize) -> Option<Line> {
    let fields: Vec<&[u8]> = line.split(|&byte| byte == b' ').collect();
    if fields.len() != 3 || fields[0].len() != n {
        return None;
    }
    if fields[0].iter().any(|&byte| byte != b'0' && byte != b'1') {
        return None;
    }
    Some(Line {
        string: fields[0].iter().map(|&byte| byte == b'1').collect(),
        seed0: seed(fields[1])?,
        seed1: seed(fields[2])?,
    })
}

/// The seed of a field of 32 lower-case hexadecimal digits.
fn seed(field: &[u8]) -> Option<Vec<u8>> {
    if field.len() != 32 {
        return None;
    }
    field
        .chunks(2)
        .map(|pair| Some(16 * nibble(pair[0])? + nibble(pair[1])?))
        .collect()
}

/// The value of a lower-case hexadecimal digit.
fn nibble(digit: u8) -> Option<u8> {
    match digit {
        b'0'..=b'9' => Some(digit - b'0'),
        b'a'..=b'f' => Some(digit - b'a' + 10),
        _ => None,
    }
}

/// The digits of a string's bits.
pub fn digits(string: &[bool]) -> String {
    string
        .iter()
        .map(|&bit| if bit { '1' } else { '0' })
        .collect()
}

/// Bytes in lower-case hexadecimal.
pub fn hex(bytes: &[u8]) -> String {
    bytes.iter().map(|byte| format!("{byte:02x}")).collect()
}

/// The output of a refusal.
pub fn refused(number: u64) -> String {
    format!("refused {number}\n")
}
