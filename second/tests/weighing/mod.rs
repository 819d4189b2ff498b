//! Reports with weights by their digits, and what a search that passes wrote.

use second::brute::Weighed;
use second::Found;

/// The string of some digits 0 and 1.
pub fn bits(text: &str) -> Vec<bool> {
    text.chars().map(|c| c == '1').collect()
}

/// Reports by their digits and weights.
pub fn weighed(reports: &[(&str, i16)]) -> Vec<Weighed> {
    reports
        .iter()
        .map(|&(s, weight)| (bits(s), weight))
        .collect()
}

/// The record and the list of a search that passes, from what it left in both areas.
pub fn written((found, mut record, mut list): (Found, Vec<u8>, Vec<u8>)) -> (Vec<u8>, Vec<u8>) {
    assert_eq!(found.number, 0);
    record.truncate(found.record_length as usize);
    list.truncate(found.list_length as usize);
    (record, list)
}
