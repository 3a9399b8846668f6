//! Why a run ends before its journal does, in a line.

use crate::ended::early_end;
use crate::generate::generate;
use crate::replay::{replay, JOURNAL_LIMIT};
use crate::script::{journal_of, load, order, rejoin, start};

const HINT: &str = "; this looks like text: `make` turns it into a journal";

#[test]
fn the_place_and_the_refusal_are_told() {
    let end = |journal: &[u8]| early_end(journal).expect("it ends early");
    let opening = "refusal 23, the opening is missing, wrong or repeated";
    assert_eq!(end(&[]), format!("byte 0: {opening}"));
    assert_eq!(end(&journal_of([order()])), format!("byte 0: {opening}"));
    let second = journal_of([start(1, 1), order(), start(1, 1)]);
    assert_eq!(end(&second), format!("byte 12: {opening}"));
    assert_eq!(
        end(&journal_of([start(9, 1)])),
        "byte 0: refusal 14, cards are not 1 to 8 or blocks not 1 to 32"
    );
    assert_eq!(
        end(&[0x99, b'a', b'b', b'c']),
        "byte 0: refusal 21, the tag is unknown"
    );
}

/// The limit cuts a record of a longer journal, which is itself sound.
#[test]
fn the_limit_is_told_where_it_cuts_a_record() {
    let orders = vec![order(); JOURNAL_LIMIT / 3];
    let journal = journal_of([start(1, 1)].into_iter().chain(orders));
    let cut = "byte 65535: refusal 20, the record is cut short";
    let limit = "; past byte 65536 nothing is read: 8 bytes";
    assert_eq!(early_end(&journal), Some(format!("{cut}{limit}")));
    assert_eq!(early_end(&journal[..JOURNAL_LIMIT]).as_deref(), Some(cut));
}

/// A journal that runs whole as far as it is read, and goes on.
#[test]
fn the_limit_is_told_where_it_cuts_no_record() {
    let orders = vec![order(); (JOURNAL_LIMIT - 13) / 3];
    let records = [start(1, 1)].into_iter().chain(orders);
    let mut journal = journal_of(records.chain([rejoin(0)]));
    assert_eq!(journal.len(), JOURNAL_LIMIT);
    assert_eq!(early_end(&journal), None);
    journal.push(0x14);
    let limit = "past byte 65536 nothing is read: 1 byte";
    assert_eq!(early_end(&journal).as_deref(), Some(limit));
    // Damage comes before the limit.
    journal[9] = 0x99;
    let damage = "byte 9: refusal 21, the tag is unknown";
    assert_eq!(early_end(&journal).as_deref(), Some(damage));
}

/// Refusals that do not end the run are none of it.
#[test]
fn a_journal_that_runs_whole_has_no_early_end() {
    let journal = journal_of([start(1, 1), load(0, 0), load(1, 0), order()]);
    assert_eq!(early_end(&journal), None);
}

/// Only where the journal's very first bytes are text.
#[test]
fn text_in_place_of_a_journal_is_seen() {
    let has_hint = |bytes: &[u8]| early_end(bytes).is_some_and(|end| end.ends_with(HINT));
    let text = b"start 2 cards 1 block\n# caf\xc3\xa9\n";
    assert_eq!(
        early_end(text),
        Some(format!("byte 0: refusal 21, the tag is unknown{HINT}"))
    );
    assert!(has_hint(b"\n\t # x"));
    assert!(has_hint(b"ab"));
    assert!(has_hint(b"\xEF\xBB\xBForder\n"));
    assert!(!has_hint(b"abc\0"));
    assert!(!has_hint(b""));
    let later = [journal_of([start(1, 1)]), b"order order".to_vec()].concat();
    assert!(!has_hint(&later));
}

/// An early end is told exactly where the output's last line has a number that
/// ends the run, with the byte place that stands there.
#[test]
fn an_early_end_is_what_the_output_ends_with() {
    let mut early = 0;
    for seed in 0..200 {
        let journal = generate(seed, true);
        let output = replay(&journal);
        let numbers: Vec<usize> = (output.lines().last().expect("a line").split(' '))
            .map(|word| word.parse().expect("a number"))
            .collect();
        let ends = matches!(numbers[1], 14 | 20..=23);
        let end = early_end(&journal);
        assert_eq!(end.is_some(), ends, "seed {seed}");
        if let Some(end) = end {
            let told = format!("byte {}: refusal {}, ", numbers[2], numbers[1]);
            assert!(end.starts_with(&told), "seed {seed}: {end}");
            early += 1;
        }
    }
    assert!(early > 50, "{early}");
}
