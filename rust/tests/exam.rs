//! Exam texts through the crate: document 01's examples, every cause of refusal, and the largest answer.

use tally::{exam, exam_into, respond, respond_into, Refusal, EXAM_SPACE};

const SEEDS: &str = "000102030405060708090a0b0c0d0e0f ffeeddccbbaa99887766554433221100";

const D: &str = "0 2\n1 1\n00 0\n01 2\nheavy 01\n";

/// A text with this first line and a line for each string.
fn text(head: &str, strings: &[&str]) -> String {
    let line = |string: &&str| format!("{string} {SEEDS}\n");
    format!("{head}\n{}", strings.iter().map(line).collect::<String>())
}

/// The answer as text.
fn answer(text: &str) -> Result<String, Refusal> {
    exam(text.as_bytes()).map(|bytes| String::from_utf8(bytes).unwrap())
}

#[test]
fn d_with_each_expander_and_without_the_field() {
    for head in ["2 2 3 2", "2 2 3 1", "2 2 3"] {
        assert_eq!(answer(&text(head, &["01", "01", "11"])).unwrap(), D);
    }
}

#[test]
fn e_f_and_g() {
    let e = answer(&text("2 2 3 2", &["01", "01", "10"]));
    assert_eq!(e.unwrap(), D);
    let f = answer(&text("2 2 3 2", &["01", "00", "11"]));
    assert_eq!(f.unwrap(), "0 2\n1 1\n00 1\n01 1\n");
    assert_eq!(answer("1 1 0\n").unwrap(), "0 0\n1 0\n");
}

#[test]
fn refusal_10_exam_text() {
    let good = text("2 2 3", &["01", "01", "11"]);
    for wrong in [
        "".to_string(),
        "\n".to_string(),
        "33 1 0\n".to_string(),
        "1 1 33\n".to_string(),
        "01 1 0\n".to_string(),
        "1 100000 0\n".to_string(),
        "1 1 0 2 \n".to_string(),
        "1 1 0\r\n".to_string(),
        good[..good.len() - 1].to_string(),
        format!("{good}\n"),
        good.replace("01 0", "02 0"),
        good.replace("0a", "0A"),
        text("2 2 2", &["01", "01", "11"]),
        text("2 2 3", &["01", "01", "111"]),
        format!("{good}{}", " ".repeat(5000)),
        // 10 is judged before 1, 2 and 3
        "0 0 0 0\n\n".to_string(),
    ] {
        assert_eq!(answer(&wrong), Err(Refusal::ExamText), "{wrong:?}");
    }
}

#[test]
fn refusals_1_2_and_3() {
    for head in ["0 1 0", "0 0 0 7", "0 65536 0"] {
        assert_eq!(answer(&text(head, &[])), Err(Refusal::StringLength));
    }
    assert_eq!(answer(&text("0 1 1", &[""])), Err(Refusal::StringLength));
    for head in ["1 0 0", "1 65536 0 0", "1 99999 0"] {
        assert_eq!(answer(&text(head, &[])), Err(Refusal::Threshold));
    }
    for head in ["1 1 1 0", "1 1 1 3", "1 65535 1 99999"] {
        assert_eq!(answer(&text(head, &["1"])), Err(Refusal::Expander));
    }
}

#[test]
fn refusal_11_space() {
    let text = text("2 2 3", &["01", "01", "11"]);
    let mut out = [7; 30];
    for space in [0, 1, D.len() - 1] {
        let refused = exam_into(text.as_bytes(), &mut out[..space]);
        assert_eq!(refused, Err(Refusal::Space));
        assert_eq!(out, [7; 30]);
    }
    let refused = exam_into(b"1 1 1\n", &mut out);
    assert_eq!(refused, Err(Refusal::ExamText));
    assert_eq!(out, [7; 30]);
    let length = exam_into(text.as_bytes(), &mut out[..D.len()]).unwrap();
    assert_eq!((length, &out[..length]), (D.len(), D.as_bytes()));
    assert_eq!(out[length..], [7; 3]);
}

#[test]
fn the_whole_output_is_the_answer_or_the_line_of_the_refusal() {
    let good = text("2 2 3", &["01", "01", "11"]);
    for (text, output) in [
        (good.as_str(), D),
        ("", "refused 10\n"),
        ("0 0 0 0\n\n", "refused 10\n"),
        ("0 0 0 0\n", "refused 1\n"),
        ("1 0 0 0\n", "refused 2\n"),
        ("1 1 0 0\n", "refused 3\n"),
    ] {
        assert_eq!(respond(text.as_bytes()).unwrap(), output.as_bytes());
        let mut out = [7; 30];
        for space in [0, 1, output.len() - 1] {
            let refused = respond_into(text.as_bytes(), &mut out[..space]);
            assert_eq!(refused, Err(Refusal::Space));
            assert_eq!(out, [7; 30]);
        }
        let length = respond_into(text.as_bytes(), &mut out[..output.len()]).unwrap();
        assert_eq!(&out[..length], output.as_bytes());
        assert_eq!(out[length..], [7; 30][length..]);
    }
}

#[test]
fn the_largest_sheet_fits() {
    // 32 strings that differ in their first five bits
    let strings: Vec<String> = (0..32u32)
        .map(|i| format!("{:032b}", i << 27 | i))
        .collect();
    let strings: Vec<&str> = strings.iter().map(String::as_str).collect();
    let answer = answer(&text("32 1 32", &strings)).unwrap();
    assert!(answer.len() <= EXAM_SPACE);
    assert_eq!(answer.lines().count(), 62 + 27 * 64 + 32);
    let heavy: Vec<&str> = answer
        .lines()
        .filter_map(|line| line.strip_prefix("heavy "))
        .collect();
    assert_eq!(heavy, strings);
}
