//! Fixed exam texts, each with the number that document 01 says and its answer where that is 0.

use compare::sheets::Sheet;
use second::rng::Rng;

/// What takes each text: its name, its number, its answer, the text.
type Take<'a> = &'a mut dyn FnMut(&'static str, u64, &[u8], &[u8]);

/// Hands over every fixed text.
pub fn each(mut take: impl FnMut(&'static str, u64, &[u8], &[u8])) {
    let mut rng = Rng::new(1);
    shown(&mut rng, &mut take);
    bounds(&mut rng, &mut take);
    largest(&mut rng, &mut take);
    several_causes(&mut rng, &mut take);
    not_laid_out(&mut rng, &mut take);
    lengths(&mut rng, &mut take);
}

/// Takes a text that is refused with this number.
fn refused(take: Take, name: &'static str, number: u64, text: impl AsRef<[u8]>) {
    take(name, number, &[], text.as_ref());
}

/// Takes a sheet with its answer.
fn passes(take: Take, name: &'static str, sheet: &Sheet) {
    take(name, 0, &sheet.answer(), &sheet.text());
}

/// The outputs that document 01 shows, D to G, as they stand there.
fn shown(rng: &mut Rng, take: Take) {
    let two_heavy = "0 2\n1 1\n00 0\n01 2\nheavy 01\n";
    for expander in [None, Some(1), Some(2)] {
        for (name, strings, answer) in [
            ("D", ["01", "01", "11"], two_heavy),
            ("E", ["01", "01", "10"], two_heavy),
            ("F", ["01", "00", "11"], "0 2\n1 1\n00 1\n01 1\n"),
        ] {
            let sheet = Sheet::of(rng, 2, 2, expander, &strings);
            take(name, 0, answer.as_bytes(), &sheet.text());
        }
        let sheet = Sheet::of(rng, 1, 1, expander, &[]);
        take("G", 0, b"0 0\n1 0\n", &sheet.text());
    }
}

/// Each number of the first line at its bounds and beyond.
fn bounds(rng: &mut Rng, take: Take) {
    for strings in [&[][..], &["1"], &["1", "0", "1"]] {
        let sheet = Sheet::of(rng, 1, 1, Some(2), strings);
        for t in [1, 65_534, 65_535] {
            passes(take, "t within", &Sheet { t, ..sheet.clone() });
        }
        for t in [0, 65_536, 65_537, 99_999] {
            let text = Sheet { t, ..sheet.clone() }.text();
            refused(take, "t outside", 2, text);
        }
        for expander in [None, Some(1), Some(2)] {
            let sheet = sheet.clone();
            passes(take, "expander within", &Sheet { expander, ..sheet });
        }
        for expander in [0, 3, 10, 257, 258, 65_537, 65_538, 99_999] {
            let expander = Some(expander);
            let text = Sheet {
                expander,
                ..sheet.clone()
            }
            .text();
            refused(take, "expander outside", 3, text);
        }
        for field in 0..4 {
            for digits in ["100000", "65537000", "4294967297", "18446744073709551617"] {
                let head = sheet.head().trim_end().to_string();
                let mut fields: Vec<&str> = head.split(' ').collect();
                fields[field] = digits;
                let text = fields.join(" ") + "\n" + &sheet.lines();
                refused(take, "six digits or more", 10, text);
            }
        }
    }
    let string = "10".repeat(17);
    for n in [1, 2, 7, 8, 9, 16, 17, 31, 32] {
        for count in [0, 1, 3] {
            let sheet = Sheet::of(rng, n, 2, Some(2), &vec![&string[..n]; count]);
            passes(take, "n within", &sheet);
        }
    }
    for n in [33, 34] {
        for count in [0, 1] {
            let sheet = Sheet::of(rng, n, 1, Some(2), &vec![&string[..n]; count]);
            refused(take, "n above 32", 10, sheet.text());
        }
    }
    for n in [256, 257, 65_535, 65_537, 99_999] {
        refused(take, "n above 32", 10, format!("{n} 1 0\n"));
    }
    for expander in [None, Some(1), Some(2)] {
        for count in [0, 1, 2, 32] {
            let sheet = Sheet::of(rng, 0, 1, expander, &vec![""; count]);
            refused(take, "n is 0", 1, sheet.text());
            if count > 0 {
                let text = sheet.head() + &sheet.lines().replacen(' ', "", 1);
                refused(take, "n is 0, no space before a seed", 10, text);
            }
        }
    }
    for (count, written) in [(33, 33), (33, 32), (33, 0), (34, 34), (99_999, 0), (31, 32)] {
        let sheet = Sheet::of(rng, 1, 1, Some(2), &vec!["1"; written]);
        let text = format!("1 1 {count} 2\n{}", sheet.lines());
        refused(take, "count above 32, or another than the lines", 10, text);
    }
    for zeros in ["0", "00", "0000"] {
        for head in [
            "_1 1 0 2", "1 _1 0 2", "1 1 _0 2", "1 1 0 _2", "1 1 0 _1", "1 1 _0", "_0 1 0",
        ] {
            refused(take, "leading zeros", 10, head.replace('_', zeros) + "\n");
        }
    }
}

/// Sheets of 32 strings and of 32 bits.
fn largest(rng: &mut Rng, take: Take) {
    let all: Vec<String> = (0..32u32)
        .map(|i| format!("{:032b}", i.reverse_bits() | i))
        .collect();
    let different: Vec<&str> = all.iter().map(String::as_str).collect();
    let same = vec!["10110100101101001011010010110100"; 32];
    for (strings, t, expander) in [
        (&different, 1, None),
        (&different, 1, Some(2)),
        (&different, 2, Some(1)),
        (&different, 32, Some(1)),
        (&different, 33, Some(1)),
        (&same, 32, Some(2)),
        (&same, 33, None),
        (&same, 65_535, Some(1)),
    ] {
        let sheet = Sheet::of(rng, 32, t, expander, strings);
        passes(take, "32 strings of 32 bits", &sheet);
    }
    let sheet = Sheet::of(rng, 32, 1, Some(1), &same[..1]);
    passes(take, "one string of 32 bits", &sheet);
    for expander in [Some(1), Some(2)] {
        let sheet = Sheet::of(rng, 1, 1, expander, &["1"; 32]);
        passes(take, "32 strings of one bit", &sheet);
    }
}

/// Every choice of 1, 2 and 3 together, and with 10: the lowest is due, but 10 before all.
fn several_causes(rng: &mut Rng, take: Take) {
    for (n, string) in [(0, ""), (1, "1")] {
        for t in [0, 1, 65_536, 99_999] {
            for expander in [None, Some(0), Some(1), Some(3), Some(99_999)] {
                for count in [0, 2] {
                    let sheet = Sheet::of(rng, n, t, expander, &vec![string; count]);
                    let wrong_t = t == 0 || t > 65_535;
                    let wrong_expander = !matches!(expander, None | Some(1));
                    let number = match (n, wrong_t, wrong_expander) {
                        (0, _, _) => 1,
                        (_, true, _) => 2,
                        (_, _, true) => 3,
                        _ => 0,
                    };
                    let text = sheet.text();
                    let answer = if number == 0 { sheet.answer() } else { vec![] };
                    take("1, 2 and 3 together", number, &answer, &text);
                    for more in ["\n", " ", "1 1 0\n"] {
                        let text = [&text[..], more.as_bytes()].concat();
                        refused(take, "10 with 1, 2 and 3", 10, text);
                    }
                    refused(take, "10 with 1, 2 and 3", 10, &text[..text.len() - 1]);
                }
            }
        }
    }
}

/// Newlines, spaces and digits that are not as laid out, at every place where they can be.
fn not_laid_out(rng: &mut Rng, take: Take) {
    for head in [
        "",
        "\n",
        "\n\n",
        " \n",
        "1\n",
        "1 1\n",
        "1 1 0",
        "1 1 0 2",
        "1 1 0 2 2\n",
    ] {
        refused(take, "not a first line", 10, head);
    }
    let strings = ["01", "01", "11"];
    for expander in [None, Some(2)] {
        let sheet = Sheet::of(rng, 2, 2, expander, &strings);
        let text = String::from_utf8(sheet.text()).unwrap();
        refused(take, "no last newline", 10, &text[..text.len() - 1]);
        refused(take, "two last newlines", 10, format!("{text}\n"));
        refused(
            take,
            "all lines end in CR LF",
            10,
            text.replace('\n', "\r\n"),
        );
        refused(take, "all lines end in CR", 10, text.replace('\n', "\r"));
        refused(take, "all spaces are tabs", 10, text.replace(' ', "\t"));
        refused(
            take,
            "a mark before the text",
            10,
            format!("\u{feff}{text}"),
        );
        for (at, c) in text.char_indices() {
            let instead = |with: &str| format!("{}{with}{}", &text[..at], &text[at + 1..]);
            let others: &[(&str, &str)] = match c {
                '\n' => &[
                    ("CR LF", "\r\n"),
                    ("LF CR", "\n\r"),
                    ("two newlines", "\n\n"),
                    ("space at a line's end", " \n"),
                    ("tab at a line's end", "\t\n"),
                    ("space at a line's start", "\n "),
                    ("no newline", ""),
                ],
                ' ' => &[("two spaces", "  "), ("tab", "\t"), ("no space", "")],
                'a'..='f' => &[
                    ("upper-case digit", "ABCDEF"),
                    ("no hexadecimal digit", "g"),
                ],
                _ => &[
                    ("no digit", "o"),
                    ("digit of two bytes", "\u{661}"),
                    ("sign", "+"),
                ],
            };
            for (name, with) in others {
                if *name == "upper-case digit" {
                    refused(take, name, 10, instead(&c.to_ascii_uppercase().to_string()));
                } else if !(*name == "space at a line's start" && at + 1 == text.len()) {
                    refused(take, name, 10, instead(with));
                }
            }
        }
    }
}

/// Texts of 4,096 bytes and of more, none of which can be as laid out.
fn lengths(rng: &mut Rng, take: Take) {
    let sheet = Sheet::of(rng, 2, 2, Some(2), &["01", "01", "11"]);
    let lines = sheet.lines();
    for length in [4095, 4096, 4097, 4098, 8192, 65_536, 65_751, 1 << 20] {
        for more in ["\n", " ", "0", &lines] {
            let mut text = sheet.text();
            text.extend(more.bytes().cycle().take(length - text.len()));
            refused(take, "a sheet with more after it", 10, &text);
            text[length - 1] = b'\n';
            refused(take, "a sheet with more after it", 10, &text);
        }
        refused(take, "zeros", 10, vec![0; length]);
        refused(take, "one long number", 10, vec![b'1'; length]);
    }
}
