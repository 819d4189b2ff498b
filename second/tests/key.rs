//! The key program's texts, answers and refusals, and the lines to compare with.

use second::keys::public_share_size;
use second::query::pack;
use second::text::hex;
use second::{key, key_text};
use std::io::Write;
use std::process::{Command, Stdio};

const ZERO: &str = "00000000000000000000000000000000";
const ONE: &str = "01000000000000000000000000000000";
const S0: &str = "000102030405060708090a0b0c0d0e0f";
const S1: &str = "ffeeddccbbaa99887766554433221100";

fn output(text: &str) -> String {
    String::from_utf8(key_text(text.as_bytes())).unwrap()
}

fn refused(text: &str, number: u64) {
    assert_eq!(output(text), format!("refused {number}\n"), "{text:?}");
}

const A: &str = "control 01
level 1 1 0 02000000000000000300000000000000 0100000000000000
prefix 1 6 18446744069414584316 1
beside 0 5 18446744069414584316 0
";

#[test]
fn a_b_c() {
    assert_eq!(output(&format!("1 2 1 {ZERO} {ONE}\n")), A);
}

#[test]
fn h_equal_seeds() {
    let wanted = format!(
        "control 02
level 1 0 1 {ZERO} 00000000ffffffff
prefix 1 6 18446744069414584316 1
beside 0 3 18446744069414584318 0
"
    );
    assert_eq!(output(&format!("1 2 1 {ZERO} {ZERO}\n")), wanted);
}

/// Judges the whole answer to a right line, but for the two shares of a prefix.
fn judge(text: &str) {
    let given: Vec<&str> = text.trim_end().split(' ').collect();
    let (n, expander): (usize, u64) = (given[0].parse().unwrap(), given[1].parse().unwrap());
    let string = given[2];
    let bits: Vec<bool> = string.chars().map(|digit| digit == '1').collect();
    let [seed0, seed1] =
        [given[3], given[4]].map(|seed| u128::from_str_radix(seed, 16).unwrap().to_be_bytes());
    let mut public = vec![0u8; public_share_size(n)];
    let made = key(
        n as u64,
        expander,
        1,
        &pack(&bits),
        &seed0,
        &seed1,
        &mut public,
    );
    assert_eq!(made.number, 0);
    let answer = output(text);
    assert!(answer.ends_with('\n'), "{text}");
    let lines: Vec<Vec<&str>> = answer
        .lines()
        .map(|line| line.split(' ').collect())
        .collect();
    assert_eq!(lines.len(), 1 + 3 * n, "{text}");
    assert_eq!((lines[0].len(), lines[0][0]), (2, "control"));
    let mut written = lines[0][1].to_owned();
    for level in 1..=n {
        let line = &lines[level];
        assert_eq!(line[..2], ["level", &level.to_string()]);
        let controls = public[(level - 1) / 4] >> (2 * ((level - 1) % 4));
        assert_eq!(
            line[2..4],
            [controls & 1, controls >> 1 & 1].map(|bit| bit.to_string())
        );
        written += &line[4..].concat();
        assert_eq!((line.len(), line[4].len(), line[5].len()), (6, 32, 16));
        let [on, off] = [0, 1].map(|i| &lines[n + 2 * level - 1 + i]);
        let other = if bits[level - 1] { "0" } else { "1" };
        let beside = string[..level - 1].to_owned() + other;
        assert_eq!(on[..2], ["prefix", &string[..level]]);
        assert_eq!(off[..2], ["beside", &beside]);
        for (line, total) in [(on, "1"), (off, "0")] {
            assert_eq!((line.len(), line[4]), (5, total), "{text}");
            let [share0, share1] = [2, 3].map(|i| line[i].parse::<u64>().unwrap());
            let sum = second::field::add(share0, share1);
            assert!(share0 < second::field::P && share1 < second::field::P);
            assert_eq!(sum.to_string(), total);
        }
    }
    assert_eq!(written, hex(&public), "{text}");
}

#[test]
fn the_longest_string_with_aes() {
    judge(&format!(
        "32 1 01101001100101101001011001101001 {S0} {S1}\n"
    ));
    judge(&format!(
        "32 1 11111111111111111111111111111111 {S0} {S0}\n"
    ));
}

#[test]
fn causes_one_and_three() {
    for expander in [0, 1, 2, 3, 99_999] {
        refused(&format!("0 {expander}  {S0} {S1}\n"), 1);
    }
    for expander in [0, 3, 12, 257, 65_537, 99_999] {
        refused(&format!("1 {expander} 1 {S0} {S1}\n"), 3);
    }
}

#[test]
fn texts_not_as_laid_out() {
    for text in [
        "", "\n", "1\n", "1 2\n", "1 2 1\n", "0 2\n", "0 2  \n", "    \n",
    ] {
        refused(text, 10);
    }
    for head in [
        "33 2 1",
        "0 2 1",
        "0 3 0",
        "0 2",
        "0 100000 ",
        "01 2 1",
        "00 2 ",
        "1 02 1",
        "1 00 1",
        "000001 2 1",
        "100000 2 1",
        "1 100000 1",
        "1 000002 1",
        "65537 2 1",
        "+1 2 1",
        "1 -2 1",
        " 2 1",
        "1  1",
        "1 2 ",
        "1 2 2",
        "1 2 01",
        "2 2 1",
        "x 2 1",
        "1 x 1",
        "1 2 x",
    ] {
        refused(&format!("{head} {S0} {S1}\n"), 10);
    }
    for expander in [0, 2] {
        refused(&format!("33 {expander} {} {S0} {S1}\n", "1".repeat(33)), 10);
    }
    let good = format!("2 1 01 {S0} {S1}\n");
    judge(&good);
    for at in 0..good.len() {
        refused(&good[..at], 10);
        for extra in [" ", "\t", "\r", "\n", "\0", "a ", "A", "g"] {
            refused(&format!("{}{extra}{}", &good[..at], &good[at..]), 10);
        }
        for other in ["\t", "\r", "\n\n", "\0", "A", "g", "/", ":", "`"] {
            refused(&format!("{}{other}{}", &good[..at], &good[at + 1..]), 10);
        }
    }
    for after in ["\n", " ", "\0", &good, "2 1 01"] {
        refused(&format!("{good}{after}"), 10);
    }
    refused(&good.replace(' ', "\t"), 10);
    refused(&good.to_uppercase(), 10);
    refused(&good.replace(S1, &S1[1..]), 10);
    refused(&good.replace(S0, &S0[1..]), 10);
    refused(&good.replace(S0, &format!("{S0}0")), 10);
    refused(&good.replace(S1, &"0".repeat(4096)), 10);
    assert_eq!(key_text(&[0xff, 0xfe, b'\n']), b"refused 10\n");
}

/// What a program prints for a standard input.
fn ran(program: &str, text: &[u8]) -> String {
    let mut child = Command::new(program)
        .stdin(Stdio::piped())
        .stdout(Stdio::piped())
        .spawn()
        .unwrap();
    child.stdin.take().unwrap().write_all(text).unwrap();
    let done = child.wait_with_output().unwrap();
    assert!(done.status.success());
    String::from_utf8(done.stdout).unwrap()
}

#[test]
fn the_program_reads_and_prints() {
    let program = env!("CARGO_BIN_EXE_key");
    assert_eq!(ran(program, format!("1 2 1 {ZERO} {ONE}\n").as_bytes()), A);
    assert_eq!(
        ran(program, format!("0 3  {S0} {S1}\n").as_bytes()),
        "refused 1\n"
    );
    assert_eq!(ran(program, b"\xff\n"), "refused 10\n");
}

#[test]
fn the_lines_to_compare_with() {
    let lines = ran(env!("CARGO_BIN_EXE_key_lines"), b"");
    let lines: Vec<&str> = lines.strip_suffix('\n').unwrap().split('\n').collect();
    let mut numbers = [0; 11];
    for line in &lines {
        let text = format!("{line}\n");
        let answer = output(&text);
        match answer.strip_prefix("refused ") {
            Some(number) => numbers[number.trim_end().parse::<usize>().unwrap()] += 1,
            None => {
                numbers[0] += 1;
                judge(&text);
            }
        }
    }
    let kinds = [0, 1, 3, 10].map(|number| numbers[number]);
    assert!(kinds.iter().all(|&count| count > 20), "{kinds:?}");
    assert_eq!(kinds.iter().sum::<usize>(), lines.len());
    let mut different = lines.clone();
    different.sort();
    different.dedup();
    assert_eq!(different.len(), lines.len());
    assert!(!lines.iter().any(|line| line.contains('\0')));
}
