//! From the readable form to the journal, and to and fro.

use crate::edition::Edition;
use crate::files::LONGEST_JOURNAL;
use crate::generate::generate;
use crate::make::make;
use crate::picked::picked_journals;
use crate::random::Random;
use crate::replay::JOURNAL_LIMIT;
use crate::script::{
    ask, copy, deliver, drop_copy, journal_of, load, order, rejoin, start, start_of, store,
};
use crate::show::show;

/// The words that the readable form has, and some that it has not.
const WORDS: [&str; 33] = [
    "start",
    "load",
    "store",
    "ask",
    "drop",
    "order",
    "deliver",
    "copy",
    "rejoin",
    "bytes",
    "card",
    "cards",
    "block",
    "blocks",
    "value",
    "mask",
    "kind",
    "GETS",
    "GETX",
    "PUTX",
    "0",
    "1",
    "255",
    "256",
    "0xff",
    "ff",
    "0x",
    "00000011",
    "4294967296",
    "#",
    "\n",
    "\u{e9}\t",
    "\r\n",
];

/// What `make` says of a text with mistakes, a line for each.
fn mistakes(text: &[u8]) -> String {
    make(text).expect_err("it has a mistake").lines("text")
}

/// What `make` says of a text with one mistake.
fn mistake(text: &str) -> String {
    let told = mistakes(text.as_bytes());
    let one = told.strip_prefix("text:").expect("the name comes first");
    assert_eq!(one.lines().count(), 1, "{told}");
    one.to_string()
}

/// Sees that `make` gives a journal again from its readable form.
fn goes_to_and_fro(journal: &[u8], name: &str) {
    let shown = show(journal, usize::MAX);
    assert!(make(shown.as_bytes()).as_deref() == Ok(journal), "{name}");
}

#[test]
fn each_line_is_a_record() {
    let text = "\
        # a comment alone, and a blank line\n\n\
        start 2 cards 1 block\n\
        \tload card 1 block 2   # and a comment behind\n\
        store card 3 block 4 value 4294967295\r\n\
        ask card 0 block 0 GETS mask 00000011\n\
        ask card 0 block 0 GETX mask 0x81\n\
        ask card 0 block 0 PUTX mask 00000000\n\
        ask card 0 block 0 kind 9 mask 11111111#near\n\
        drop card 0xff block 0x0\norder\ndeliver 63\ncopy 0x3F\nrejoin card 007\n\
        bytes 01 fF 7a";
    let mut expected = journal_of([
        start(2, 1),
        load(1, 2),
        store(3, 4, u32::MAX),
        ask(0, 0, 1, 3),
        ask(0, 0, 2, 0x81),
        ask(0, 0, 3, 0),
        ask(0, 0, 9, 255),
        drop_copy(255, 0),
        order(),
        deliver(63),
        copy(63),
        rejoin(7),
    ]);
    expected.extend([0x01, 0xFF, 0x7A]);
    assert_eq!(make(text.as_bytes()), Ok(expected));
    assert_eq!(make(b""), Ok(Vec::new()));
    assert_eq!(
        make(b"start 1 card 32 blocks"),
        make(b"start 1 cards 32 block")
    );
}

/// The edition stands before the sizes; MSI need not be named.
#[test]
fn a_start_names_its_edition() {
    let of = |edition| Ok(journal_of([start_of(edition, 2, 1)]));
    assert_eq!(make(b"start MOSI 2 cards 1 block"), of(Edition::Mosi));
    assert_eq!(make(b"start MSI 2 cards 1 block"), of(Edition::Msi));
    assert_eq!(make(b"start 2 cards 1 block"), of(Edition::Msi));
    let shown = |edition| show(&journal_of([start_of(edition, 2, 1)]), 1);
    assert!(shown(Edition::Mosi).starts_with("start MOSI 2 cards 1 block "));
    assert!(shown(Edition::Msi).starts_with("start 2 cards 1 block "));
}

#[rustfmt::skip]
const MISTAKES: [(&str, &str); 26] = [
    ("start MESI 2 cards 1 block", "1:7: MSI, MOSI or a number of cards from 0 to 255 is expected, not `MESI`"),
    ("start", "1:6: MSI, MOSI or a number of cards from 0 to 255 is expected, not the line's end"),
    ("start MOSI cards", "1:12: a number from 0 to 255 is expected, not `cards`"),
    ("\n\nload card foo block 0", "3:11: a number from 0 to 255 is expected, not `foo`"),
    ("order\ndeliver 256", "2:9: a number from 0 to 255 is expected, not `256`"),
    ("deliver -1", "1:9: a number from 0 to 255 is expected, not `-1`"),
    ("deliver +1", "1:9: a number from 0 to 255 is expected, not `+1`"),
    ("deliver 0x", "1:9: a number from 0 to 255 is expected, not `0x`"),
    ("deliver 0x100", "1:9: a number from 0 to 255 is expected, not `0x100`"),
    ("deliver 99999999999999999999999", "1:9: a number from 0 to 255 is expected, not `99999999999999999999999`"),
    ("  copy  # 0", "1:7: a number from 0 to 255 is expected, not the line's end"),
    ("store card 0 block 0 value 4294967296", "1:28: a number from 0 to 4294967295 is expected, not `4294967296`"),
    ("load block 0", "1:6: `card` is expected, not `block`"),
    ("start 2 card 1 bloc", "1:16: `blocks` is expected, not `bloc`"),
    ("start 2", "1:8: `cards` is expected, not the line's end"),
    ("order 1", "1:7: the line's end is expected, not `1`"),
    ("ask card 0 block 0 GET mask 00000000", "1:20: GETS, GETX, PUTX or `kind` is expected, not `GET`"),
    ("ask card 0 block 0 GETS mask 11", "1:30: a mask of 8 binary digits, or of 0x and hex digits, is expected, not `11`"),
    ("ask card 0 block 0 GETS mask 00000012", "1:30: a mask of 8 binary digits, or of 0x and hex digits, is expected, not `00000012`"),
    ("ask card 0 block 0 GETS mask 0x100", "1:30: a mask of 8 binary digits, or of 0x and hex digits, is expected, not `0x100`"),
    ("bytes", "1:6: a byte of two hex digits is expected, not the line's end"),
    ("bytes 00 0x11", "1:10: a byte of two hex digits is expected, not `0x11`"),
    ("bytes 0x", "1:7: a byte of two hex digits is expected, not `0x`"),
    ("bytes 00 1", "1:10: a byte of two hex digits is expected, not `1`"),
    ("\u{e9}\u{e9} \u{7}", "1:1: start, load, store, ask, drop, order, deliver, copy, rejoin or bytes is expected, not `\u{e9}\u{e9}`"),
    ("bytes \u{e9} \u{7}", "1:7: a byte of two hex digits is expected, not `\u{e9}`"),
];

#[test]
fn a_mistake_has_its_place_and_what_is_expected() {
    for (text, expected) in MISTAKES {
        assert_eq!(mistake(text), expected);
    }
}

#[test]
fn what_is_quoted_is_short_and_can_be_seen() {
    assert!(mistake("order \u{7}").ends_with("not `\\u{7}`"));
    let long = "x".repeat(10_000);
    assert!(mistake(&long).ends_with(&format!("not `{}..`", "x".repeat(40))));
}

#[test]
fn text_that_is_not_utf_8_has_its_place() {
    let told = mistakes(b"order\n# \xC3\xA9 \xFF\norders\n\xC3");
    let lines: Vec<&str> = told.lines().collect();
    assert_eq!(lines[0], "text:2:5: the text is not UTF-8");
    assert!(lines[1].starts_with("text:3:1: start, load, "));
    assert_eq!(lines[2..], ["text:4:1: the text is not UTF-8"]);
}

#[test]
fn one_mistake_makes_no_journal() {
    assert!(make(b"start 1 card 1 block\norder\norder order\n").is_err());
    assert!(make(b"order order\nstart 1 card 1 block\norder\n").is_err());
}

/// The first of each line, in the order of the lines.
#[test]
fn every_line_with_a_mistake_is_told() {
    let told = mistakes(b"deliver x y\norder\n  # x\ncopy\n\nload card 0 block 300");
    let expected = "text:1:9: a number from 0 to 255 is expected, not `x`\n\
                    text:4:5: a number from 0 to 255 is expected, not the line's end\n\
                    text:6:19: a number from 0 to 255 is expected, not `300`";
    assert_eq!(told, expected);
}

#[test]
fn twenty_mistakes_are_told_and_the_others_counted() {
    let told = |count| mistakes("copy\n".repeat(count).as_bytes());
    assert_eq!(told(19).lines().count(), 19);
    assert_eq!(told(20).lines().count(), 20);
    assert!(
        told(20).ends_with("\ntext:20:5: a number from 0 to 255 is expected, not the line's end")
    );
    let more = |count, more: &str| told(count) == format!("{}\n{more}", told(20));
    assert!(more(21, "text: mistakes in more lines: 1"));
    assert!(more(1_000, "text: mistakes in more lines: 980"));
}

/// The mark that editors put first is no character of the text.
#[test]
fn a_byte_order_mark_is_passed_over() {
    let marked = |text: &str| [b"\xEF\xBB\xBF", text.as_bytes()].concat();
    assert_eq!(make(&marked("order\n")), make(b"order\n"));
    assert_eq!(make(&marked("")), Ok(Vec::new()));
    let first = "text:1:7: the line's end is expected, not `1`";
    assert_eq!(mistakes(&marked("order 1")), first);
    // Only the first three bytes are one.
    assert!(mistakes("order\n\u{feff}order".as_bytes()).starts_with("text:2:1: start, "));
    assert!(mistakes(&marked("\u{feff}order")).ends_with("not `\\u{feff}order`"));
}

/// What is no text of this form at all has one mistake and not one a line.
#[test]
fn other_forms_are_told_in_a_line() {
    for utf_16 in [&b"\xFF\xFEo\0\n\0o\0"[..], b"\xFE\xFF\0o\0\n\0o"] {
        assert_eq!(mistakes(utf_16), "text:1:1: the text is UTF-16, not UTF-8");
    }
    let journal = journal_of([start(1, 1), load(10, 10), load(10, 10)]);
    let told = "text:1:1: this is a journal, not a text: `show` turns it into one";
    assert_eq!(mistakes(&journal), told);
}

/// What the other commands would not read is not made: the longest journal
/// is, one byte more is not.
#[test]
fn a_journal_that_is_too_long_is_not_made() {
    let line = format!("bytes{}\n", " 5a".repeat(LONGEST_JOURNAL / 256));
    let mut text = line.repeat(256);
    let made = make(text.as_bytes()).expect("the longest one is made");
    assert_eq!(made.len(), LONGEST_JOURNAL);
    text.push_str("# one more\nbytes 5a\n");
    let expected = "258:1: the journal is longer than 16777216 bytes from here on";
    assert_eq!(mistake(&text), expected);
}

#[test]
fn generated_journals_go_to_and_fro() {
    for seed in 0..400 {
        for damaged in [false, true] {
            goes_to_and_fro(&generate(seed, damaged), &format!("{seed} {damaged}"));
        }
    }
}

#[test]
fn picked_journals_go_to_and_fro() {
    for picked in picked_journals() {
        goes_to_and_fro(&picked.journal, &picked.name);
    }
}

/// A journal cut at every place, and openings where none should be.
#[test]
fn cut_journals_and_late_openings_go_to_and_fro() {
    let mut journal = journal_of([start(2, 1), ask(0, 0, 2, 0), start(0, 0), order()]);
    journal.extend([0x99]);
    journal.extend(journal_of([start(2, 1), store(0, 0, 7)]));
    for length in 0..=journal.len() {
        goes_to_and_fro(&journal[..length], &format!("cut at {length}"));
        goes_to_and_fro(&journal[length..], &format!("from {length}"));
    }
}

/// The last record within the limit ends before it, at it and past it.
#[test]
fn journals_about_the_limit_go_to_and_fro() {
    for more in 0..12 {
        let mut journal = journal_of([start(1, 1)]);
        journal.extend(
            vec![order(); more]
                .iter()
                .flat_map(|order| journal_of([*order])),
        );
        journal.extend(journal_of(vec![store(0, 0, 7); JOURNAL_LIMIT / 9 + 2]));
        goes_to_and_fro(&journal, &format!("{more} orders"));
        for length in JOURNAL_LIMIT - 3..JOURNAL_LIMIT + 4 {
            goes_to_and_fro(
                &journal[..length],
                &format!("{more} orders, cut at {length}"),
            );
        }
    }
}

#[test]
fn random_bytes_go_to_and_fro() {
    let mut random = Random::new(1);
    for round in 0..2_000 {
        let length = random.place(200);
        let bytes: Vec<u8> = (0..length).map(|_| random.byte()).collect();
        goes_to_and_fro(&bytes, &format!("round {round}"));
        // As a text it is taken or has a mistake.
        let _ = make(&bytes);
    }
}

/// Any text is taken or has a mistake; one that is taken is shown in a form
/// that stays.
#[test]
fn random_text_is_taken_or_has_a_mistake() {
    let mut random = Random::new(2);
    let mut taken = 0;
    for _ in 0..40_000 {
        let count = random.place(12);
        let words: Vec<&str> = (0..count)
            .map(|_| WORDS[random.place(WORDS.len())])
            .collect();
        if let Ok(journal) = make(words.join(" ").as_bytes()) {
            goes_to_and_fro(&journal, &words.join(" "));
            taken += usize::from(!journal.is_empty());
        }
    }
    assert!(taken > 100, "{taken}");
}

/// A sound text with some of its bytes changed.
#[test]
fn changed_text_is_taken_or_has_a_mistake() {
    let mut random = Random::new(3);
    for seed in 0..300 {
        let mut text = show(&generate(seed, true), 40).into_bytes();
        for _ in 0..random.between(1, 5) {
            let place = random.place(text.len());
            text[place] = random.byte();
        }
        if let Ok(journal) = make(&text) {
            goes_to_and_fro(&journal, &format!("seed {seed}"));
        }
    }
}
