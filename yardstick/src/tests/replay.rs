//! The lines of the output.

use crate::replay::{replay, JOURNAL_LIMIT};
use crate::script::{journal_of, load, order, start};

#[test]
fn the_first_record_must_be_an_opening() {
    assert_eq!(replay(&[]), "0 23 0\n");
    assert_eq!(replay(&journal_of([order(), start(1, 1)])), "0 23 0\n");
}

#[test]
fn damage_of_the_first_record_is_told_as_read() {
    assert_eq!(replay(&[0x14]), "0 20 0\n");
    assert_eq!(replay(&[0x99, 0, 0]), "0 21 0\n");
    assert_eq!(replay(&[0x14, 0, 1]), "0 22 0\n");
    assert_eq!(replay(b"\x01\x00\x06cohX\x01\x01"), "0 23 0\n");
}

#[test]
fn a_later_opening_ends_the_run() {
    let journal = journal_of([start(1, 1), order(), start(0, 0), order()]);
    assert_eq!(replay(&journal), "0 0 0\n1 8 0\n2 23 12\n");
}

#[test]
fn a_size_out_of_range_ends_the_run() {
    assert_eq!(replay(&journal_of([start(0, 1), order()])), "0 14 0\n");
    assert_eq!(replay(&journal_of([start(8, 33), order()])), "0 14 0\n");
}

#[test]
fn damage_ends_the_run_at_its_byte_place() {
    let mut journal = journal_of([start(1, 1), load(1, 0)]);
    journal.extend([0x14, 0]);
    assert_eq!(replay(&journal), "0 0 0\n1 1 0\n2 20 14\n");
}

/// After the opening's 9 bytes, orders of 3 bytes leave one byte over.
#[test]
fn bytes_past_the_limit_do_not_count() {
    let orders = JOURNAL_LIMIT / 3;
    let journal = journal_of([start(1, 1)].into_iter().chain(vec![order(); orders]));
    let text = replay(&journal);
    assert!(journal.len() > JOURNAL_LIMIT);
    assert!(text.ends_with("\n21842 8 0\n21843 20 65535\n"));
    assert_eq!(text, replay(&journal[..JOURNAL_LIMIT]));
}
