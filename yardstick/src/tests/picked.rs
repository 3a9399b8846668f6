//! The stored journals reach every case and stay small.

use crate::picked::picked_journals;
use crate::replay::{replay, JOURNAL_LIMIT};
use crate::stored::complaint;

/// The most bytes that all journals, and all outputs, may have.
const MOST_DATA: usize = 125_000;
const MOST_OUTPUT: usize = 150_000;

fn journal(name: &str) -> Vec<u8> {
    let mut all = picked_journals().into_iter();
    let found = all.find(|picked| picked.name == name);
    found.expect("a name from the list").journal
}

#[test]
fn every_case_is_in_a_stored_journal() {
    assert_eq!(complaint(&picked_journals()), None);
}

#[test]
fn names_are_plain_and_differ() {
    let is_plain = |byte: u8| byte.is_ascii_lowercase() || byte.is_ascii_digit() || byte == b'_';
    let journals = picked_journals();
    let mut names: Vec<&str> = journals.iter().map(|picked| &*picked.name).collect();
    assert!(names
        .iter()
        .all(|name| name.len() <= 40 && name.bytes().all(is_plain)));
    let count = names.len();
    names.sort_unstable();
    names.dedup();
    assert_eq!(names.len(), count);
}

#[test]
fn damage_of_the_first_record_gives_one_line() {
    assert_eq!(replay(&journal("first_cut_in_its_head")), "0 20 0\n");
    assert_eq!(replay(&journal("first_tag_unknown")), "0 21 0\n");
    assert_eq!(replay(&journal("first_of_wrong_length")), "0 22 0\n");
}

#[test]
fn the_limit_cuts_a_store() {
    let journal = journal("longer_than_read");
    assert!(journal.len() > JOURNAL_LIMIT);
    let text = replay(&journal);
    assert!(text.ends_with("\n7282 0 0\n7283 20 65534\n"));
}

#[test]
fn all_is_small() {
    let journals = picked_journals();
    let data: usize = journals.iter().map(|picked| picked.journal.len()).sum();
    let output: usize = journals
        .iter()
        .map(|picked| replay(&picked.journal).len())
        .sum();
    assert!(data <= MOST_DATA && output <= MOST_OUTPUT);
}
