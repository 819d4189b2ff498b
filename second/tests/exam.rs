//! The exam program's texts and refusals.

use second::exam::MOST_ANSWER;
use second::{exam, exam_into, respond_into, Reply};

const S: &str = "000102030405060708090a0b0c0d0e0f ffeeddccbbaa99887766554433221100";

fn says(text: &str, wanted: &str) {
    let output = String::from_utf8(exam(text.as_bytes())).unwrap();
    assert_eq!(output, wanted, "{text:?}");
}

fn refused(text: &str, number: u64) {
    says(text, &format!("refused {number}\n"));
}

#[test]
fn the_output_shown() {
    let wanted = "0 2\n1 1\n00 0\n01 2\nheavy 01\n";
    for head in ["2 2 3 2", "2 2 3 1", "2 2 3"] {
        says(&format!("{head}\n01 {S}\n01 {S}\n11 {S}\n"), wanted);
        says(&format!("{head}\n01 {S}\n01 {S}\n10 {S}\n"), wanted);
    }
    let text = format!("2 2 3\n01 {S}\n00 {S}\n11 {S}\n");
    says(&text, "0 2\n1 1\n00 1\n01 1\n");
    says("1 1 0\n", "0 0\n1 0\n");
    says("32 65535 0 1\n", "0 0\n1 0\n");
    says(&format!("1 1 1\n1 {S}\n"), "0 0\n1 1\nheavy 1\n");
}

#[test]
fn the_largest_text() {
    let string = "10".repeat(16);
    let text = format!("32 32 32 1\n{}", format!("{string} {S}\n").repeat(32));
    let output = String::from_utf8(exam(text.as_bytes())).unwrap();
    assert_eq!(output.lines().count(), 65);
    assert!(output.ends_with(&format!(
        "{string} 32\n{string_1} 0\nheavy {string}\n",
        string_1 = &format!("{}1", &string[..31])
    )));
}

#[test]
fn causes_one_to_three() {
    refused("0 1 0\n", 1);
    refused("0 0 0 7\n", 1);
    refused(&format!("0 1 1\n {S}\n"), 1);
    refused("1 0 0\n", 2);
    refused("1 65536 0 0\n", 2);
    refused("1 99999 0\n", 2);
    refused(&format!("1 0 1 3\n1 {S}\n"), 2);
    refused("1 1 0 0\n", 3);
    refused("1 1 0 3\n", 3);
    refused("1 1 0 99999\n", 3);
}

#[test]
fn texts_not_as_laid_out() {
    for text in [
        "",
        "\n",
        " \n",
        "1 1\n",
        "1 1 0",
        "1 1 0 \n",
        " 1 1 0\n",
        "1  1 0\n",
        "1 1 0 2 \n",
        "1 1 0 2 2\n",
        "1 1 0\n\n",
        "\n1 1 0\n",
        "1 1 0\r\n",
        "01 1 0\n",
        "1 01 0\n",
        "1 1 00\n",
        "1 1 0 02\n",
        "1 100000 0\n",
        "33 1 0\n",
        "257 1 0\n",
        "1 1 33\n",
        "1 1 1\n",
        "-1 1 0\n",
        "+1 1 0\n",
        "1\t1 0\n",
        "a 1 0\n",
        "1 1 0 e\n",
        "0 0 33\n",
        "1 1 0\n1 1 0\n",
    ] {
        refused(text, 10);
    }
    let good = format!("2 1 1\n01 {S}\n");
    says(&good, "0 1\n1 0\n00 0\n01 1\nheavy 01\n");
    for at in 0..good.len() {
        refused(&good[..at], 10);
        let mut longer = good.clone();
        longer.insert(at, ' ');
        refused(&longer, 10);
    }
    refused(&format!("{good}01 {S}\n"), 10);
    refused(&format!("{good}\n"), 10);
    refused(&good.replace("01 0", "012 0"), 10);
    refused(&good.replace("01 0", "0 0"), 10);
    refused(&good.replace("01 0", "02 0"), 10);
    refused(&good.replace("0a", "0A"), 10);
    refused(&good.replace("0a", "0g"), 10);
    refused(&good.replace("0a", "a"), 10);
    refused(&good.replace("0a", "a "), 10);
    refused(&format!("1 1 0\n{}", "\n".repeat(5000)), 10);
    assert_eq!(exam(&[0xff, 0xfe, b'\n']), b"refused 10\n");
}

#[test]
fn space_for_the_answer() {
    let text = format!("2 2 3\n01 {S}\n01 {S}\n11 {S}\n");
    let answer = b"0 2\n1 1\n00 0\n01 2\nheavy 01\n";
    let refused = |number| Reply { number, length: 0 };
    let mut out = [7u8; 30];
    for space in [0, 1, 26] {
        assert_eq!(exam_into(text.as_bytes(), &mut out[..space]), refused(11));
    }
    for (text, number) in [
        ("1 1 1\n", 10),
        ("0 0 0 0\n", 1),
        ("1 0 0 0\n", 2),
        ("1 1 0 0\n", 3),
    ] {
        assert_eq!(exam_into(text.as_bytes(), &mut []), refused(number));
        assert_eq!(exam_into(text.as_bytes(), &mut out), refused(number));
    }
    assert_eq!(out, [7; 30]);
    let reply = exam_into(text.as_bytes(), &mut out[..27]);
    assert_eq!((reply.number, reply.length), (0, 27));
    assert_eq!((&out[..27], &out[27..]), (&answer[..], &[7u8; 3][..]));
}

#[test]
fn space_for_the_whole_output() {
    let good = format!("2 2 3\n01 {S}\n01 {S}\n11 {S}\n");
    for text in [
        good.as_str(),
        "1 1 1\n",
        "0 0 0 0\n",
        "1 0 0\n",
        "1 1 0 0\n",
    ] {
        let output = exam(text.as_bytes());
        let mut out = [7u8; 30];
        for space in [0, output.len() - 1] {
            let refused = Reply {
                number: 11,
                length: 0,
            };
            assert_eq!(respond_into(text.as_bytes(), &mut out[..space]), refused);
            assert_eq!(out, [7; 30]);
        }
        let reply = respond_into(text.as_bytes(), &mut out[..output.len()]);
        assert_eq!((reply.number, reply.length), (0, output.len() as u64));
        assert_eq!(out[..output.len()], output);
    }
}

#[test]
fn the_longest_answers_fit() {
    let line = |i: u32| format!("{:032b} {S}\n", i << 27);
    let lines: String = (0..32).map(line).collect();
    let output = exam(format!("32 1 32\n{lines}").as_bytes());
    assert_eq!(output.len(), 39_710);
    assert!(output.len() <= MOST_ANSWER);
}
