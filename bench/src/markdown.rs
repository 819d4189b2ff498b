//! The tables at the end, in Markdown.

use crate::hardware::Hardware;
use crate::timing::{human, Column, Timed};

/// The ways in which a measure's plain subjects do the work, in order.
fn ways(timed: &Timed) -> Vec<&'static str> {
    let mut ways: Vec<&str> = timed.times[1..].iter().map(|time| time.way).collect();
    ways.dedup();
    ways
}

/// The time of one subject with the ratio of the proved library's time to it, or why there is none.
fn cell(timed: &Timed, way: &str, column: Column) -> String {
    let found = timed
        .times
        .iter()
        .find(|time| time.way == way && time.column == column);
    match found {
        Some(time) => {
            let ratio = timed.times[0].ns / time.ns;
            let digits = if ratio < 0.1 { 3 } else { 2 };
            format!("{} ({ratio:.digits$})", human(time.ns))
        }
        None if column == Column::Hardware && Hardware::found().is_none() => {
            "this processor has none".to_string()
        }
        None => "–".to_string(),
    }
}

/// Prints the ratios of all measures, a line for each way.
pub fn print_ratios(all: &[Timed]) {
    println!("\nTime of each subject, and in brackets the ratio: proved / subject.\n");
    println!("| | proved | Rust, the same AES | Rust, words doubled at once | Rust, byte-table AES | Rust, AES-NI | buffers cleared first |");
    println!("|---|---|---|---|---|---|---|");
    for timed in all {
        for way in ways(timed) {
            let title = match way {
                "" => timed.title.clone(),
                way => format!("{}; Rust: {way}", timed.title),
            };
            let plain = match cell(timed, way, Column::NoAes).as_str() {
                "–" => cell(timed, way, Column::SameCode),
                time => format!("{time}, no AES in it"),
            };
            println!(
                "| {title} | {} | {plain} | {} | {} | {} | {} |",
                human(timed.times[0].ns),
                cell(timed, way, Column::DoubledAtOnce),
                cell(timed, way, Column::ByteTable),
                hardware_cell(timed, way),
                timed.cleared
            );
        }
    }
}

/// Prints the ratios of what was measured with kept nodes, a line for each.
pub fn print_kept(all: &[Timed]) {
    println!("\nWith kept nodes: time of each subject, and in brackets the ratio: proved with kept nodes / subject.\n");
    println!("| | proved, kept nodes | proved, from the root | Rust with kept nodes, the same AES | words doubled at once | byte-table AES | AES-NI |");
    println!("|---|---|---|---|---|---|---|");
    for timed in all {
        let columns = [
            Column::FromRoot,
            Column::SameCode,
            Column::DoubledAtOnce,
            Column::ByteTable,
            Column::Hardware,
        ];
        let cells = columns.map(|column| cell(timed, "", column));
        let proved = human(timed.times[0].ns);
        println!("| {} | {proved} | {} |", timed.title, cells.join(" | "));
    }
}

/// The cell for AES-NI, which combining does not have.
fn hardware_cell(timed: &Timed, way: &str) -> String {
    if timed.times.iter().any(|time| time.column == Column::NoAes) {
        return "–".to_string();
    }
    cell(timed, way, Column::Hardware)
}
