//! The readable form.

use crate::replay::JOURNAL_LIMIT;
use crate::script::{ask, deliver, drop_copy, journal_of, load, order, rejoin, start, store};
use crate::show::show;

/// The readable form without the comments.
fn events(journal: &[u8]) -> Vec<String> {
    let shown = show(journal, usize::MAX);
    let before_comment = |line: &str| line.split('#').next().unwrap_or("").trim().to_string();
    shown.lines().map(before_comment).collect()
}

#[test]
fn each_record_is_a_line() {
    let journal = journal_of([
        start(2, 1),
        ask(0, 0, 2, 3),
        ask(1, 0, 9, 255),
        store(0, 0, 7),
        drop_copy(1, 0),
        order(),
        rejoin(1),
    ]);
    let expected = [
        "start 2 cards 1 block",
        "ask card 0 block 0 GETX mask 00000011",
        "ask card 1 block 0 kind 9 mask 11111111",
        "store card 0 block 0 value 7",
        "drop card 1 block 0",
        "order",
        "rejoin card 1",
    ];
    assert_eq!(events(&journal), expected);
}

#[test]
fn the_comment_has_place_and_answer() {
    let journal = journal_of([start(1, 1), load(0, 0)]);
    let shown = show(&journal, usize::MAX);
    assert!(shown.ends_with("# 1 at byte 9: refusal 3, the state gives no right to this\n"));
    assert_eq!(show(&journal, 1).lines().count(), 1);
}

/// The paper's own journal, M2, with what each value means.
#[test]
fn the_comment_says_what_the_value_means() {
    let journal = journal_of([
        start(2, 1),
        ask(0, 0, 2, 0),
        order(),
        deliver(0),
        store(0, 0, 7),
        load(1, 0),
        load(0, 0),
        ask(1, 0, 2, 0),
        order(),
    ]);
    let shown = show(&journal, usize::MAX);
    let comments: Vec<&str> = shown
        .lines()
        .filter_map(|line| Some(line.split_once("# ")?.1))
        .collect();
    let expected = [
        "0 at byte 0: the chassis is started",
        "1 at byte 9: done",
        "2 at byte 16: outcome 1, granted",
        "3 at byte 19: outcome 1, taken",
        "4 at byte 23: done",
        "5 at byte 32: refusal 3, the state gives no right to this",
        "6 at byte 37: value 7",
        "7 at byte 42: done",
        "8 at byte 49: outcome 2, too small a mask",
    ];
    assert_eq!(comments, expected);
}

#[test]
fn damage_is_pointed_at() {
    let mut journal = journal_of([start(1, 1)]);
    journal.extend([0x99, 0, 1]);
    let shown = show(&journal, usize::MAX);
    let expected = "# 1 at byte 9: refusal 21, the tag is unknown\n\
                    # from here on nothing is read: 3 bytes\n\
                    bytes 99 00 01\n";
    assert!(shown.ends_with(expected));
}

#[test]
fn records_after_the_run_are_shown_too() {
    let journal = journal_of([order(), order()]);
    let shown = show(&journal, usize::MAX);
    assert!(shown.ends_with("# 1 at byte 3: not run\n"));
    assert!(show(&[], usize::MAX).starts_with("# 0 at byte 0: refusal 23"));
}

/// The limit cuts the last of the stores; both parts of it are shown.
#[test]
fn bytes_past_the_limit_are_shown_too() {
    let mut journal = journal_of([start(1, 1)]);
    journal.extend(journal_of(vec![store(0, 0, 7); 7_281]));
    journal.extend([0xAA; 2]);
    assert_eq!(journal.len(), JOURNAL_LIMIT + 4);
    let expected = "# 7281 at byte 65529: refusal 20, the record is cut short\n\
                    # from here on nothing is read: 7 bytes\n\
                    bytes 11 00 06 00 00 00 00\n\
                    # past byte 65536 nothing is read: 4 bytes\n\
                    bytes 00 07 aa aa\n";
    assert!(show(&journal, usize::MAX).ends_with(expected));
}
