//! The C header and the Rust declarations say the same: the structs with their fields, and the functions with their parameters, in order; and the
//! header and both crates have one version.

const HEADER: &str = include_str!("../../include/tally.h");
const DECLARED: &str = concat!(
    include_str!("../sys/src/lib.rs"),
    include_str!("../sys/src/library.rs")
);

/// A name, what it has in it, and for a function what it returns.
type Declared = (String, Vec<String>, String);

/// The text without line comments and with single spaces.
fn plain(text: &str) -> String {
    let lines = text.lines().filter_map(|line| line.split("//").next());
    let words: Vec<&str> = lines.flat_map(str::split_whitespace).collect();
    words.join(" ")
}

/// What follows `open`, as far as `close`, at each place.
fn between<'a>(text: &'a str, open: &'a str, close: &'a str) -> impl Iterator<Item = &'a str> {
    let rests = text.split(open).skip(1);
    rests.filter_map(move |rest| Some(rest.split_once(close)?.0))
}

/// The parts of a list, each read by `read`.
fn parts(list: &str, mark: char, read: impl Fn(&str) -> String) -> Vec<String> {
    let parts = list.split(mark).map(str::trim);
    parts.filter(|part| !part.is_empty()).map(read).collect()
}

/// A C type as Rust names it; `tally_combine_reply` is `CombineReply`.
fn c_type(name: &str) -> String {
    if let Some(to) = name.strip_suffix(" *") {
        return match to.strip_prefix("const ") {
            Some(read) => format!("*const {}", c_type(read)),
            None => format!("*mut {}", c_type(to)),
        };
    }
    let known = match name {
        "uint8_t" => "u8",
        "uint64_t" => "u64",
        "int16_t" => "i16",
        "size_t" => "usize",
        "bool" => "bool",
        _ => {
            let words = name.strip_prefix("tally_").expect(name).split('_');
            return words
                .map(|word| word[..1].to_uppercase() + &word[1..])
                .collect();
        }
    };
    known.to_string()
}

/// A C field or parameter as Rust writes it.
fn c_part(part: &str) -> String {
    let start = part.rfind([' ', '*']).expect(part) + 1;
    let (name, written) = (&part[start..], c_type(part[..start].trim_end()));
    match name.strip_suffix(']').and_then(|name| name.split_once('[')) {
        Some((name, count)) => format!("{name}: [{written}; {count}]"),
        None => format!("{name}: {written}"),
    }
}

fn c_structs(text: &str) -> Vec<Declared> {
    let structs = between(text, "typedef struct ", "}").map(|found| {
        let (name, fields) = found.split_once(" {").expect(found);
        (c_type(name), parts(fields, ';', c_part), String::new())
    });
    structs.collect()
}

fn c_functions(text: &str) -> Vec<Declared> {
    let ends = text.split(';').map(str::trim);
    let functions = ends
        .filter(|found| found.starts_with("tally_") || found.starts_with("uint64_t tally_"))
        .map(|found| {
            let (heading, parameters) = found.split_once('(').expect(found);
            let (returned, name) = heading.split_once(' ').expect(heading);
            let parameters = parts(parameters.trim_end_matches(')'), ',', c_part);
            (name.to_string(), parameters, c_type(returned))
        });
    functions.collect()
}

fn rust_structs(text: &str) -> Vec<Declared> {
    let structs = between(text, "#[repr(C)] ", "}").map(|found| {
        let (_, declared) = found.split_once("pub struct ").expect(found);
        let (name, fields) = declared.split_once(" {").expect(found);
        let fields = parts(fields, ',', |field| field.replace("pub ", ""));
        (name.to_string(), fields, String::new())
    });
    structs.collect()
}

fn rust_functions(text: &str) -> Vec<Declared> {
    let functions = between(text, "pub fn tally_", ";").map(|found| {
        let (name, rest) = found.split_once('(').expect(found);
        let (parameters, returned) = rest.split_once(") -> ").expect(found);
        let parameters = parts(parameters, ',', str::to_string);
        (format!("tally_{name}"), parameters, returned.to_string())
    });
    functions.collect()
}

#[test]
fn the_versions_agree() {
    let version = env!("CARGO_PKG_VERSION");
    assert!(HEADER.contains(&format!("\n#define TALLY_VERSION \"{version}\"\n")));
    let below = include_str!("../sys/Cargo.toml");
    assert!(below.contains(&format!("\nversion = \"{version}\"\n")));
}

#[test]
fn the_structs_agree() {
    let declared = rust_structs(&plain(DECLARED));
    assert_eq!(declared.len(), 4);
    assert_eq!(c_structs(&plain(HEADER)), declared);
}

#[test]
fn a_node_has_no_padding() {
    assert_eq!(size_of::<tally::Node>(), 17);
    assert_eq!(align_of::<tally::Node>(), 1);
}

#[test]
fn the_functions_agree() {
    let declared = rust_functions(&plain(DECLARED));
    assert_eq!(declared.len(), 12);
    assert_eq!(c_functions(&plain(HEADER)), declared);
}
