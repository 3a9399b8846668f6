//! The words of a chassis: the places that the engine's Layout gives them.

use super::busy_chassis;
use crate::chassis::Chassis;
use crate::edition::Edition;
use crate::engine::{Engine, Safe};
use crate::layout::{same_words, word_name};
use crate::words::{unused_words, WORDS};

/// Where the header ends, and the length of a block; where the line and the
/// pool begin. All from the layout, not from the program.
const BLOCKS_AT: usize = 6;
const BLOCK: usize = 27;
const LINE_AT: usize = 870;
const POOL_AT: usize = 1190;

#[test]
fn a_fresh_chassis_is_all_0_but_its_edition_sizes_and_owners() {
    let started = Chassis::start(Edition::Mosi, 3, 2);
    let words = started.expect("the sizes fit").words();
    assert_eq!(words.len(), 1510);
    for (at, word) in words.into_iter().enumerate() {
        let is_owner = (BLOCKS_AT..LINE_AT).contains(&at) && (at - BLOCKS_AT) % BLOCK == 1;
        let expected = match at {
            0 => 1,
            1 => 3,
            2 => 2,
            _ if is_owner => 255,
            _ => 0,
        };
        assert_eq!(word, expected, "word {at}");
    }
}

#[test]
fn a_refused_start_leaves_no_cards_and_no_blocks() {
    let started = Chassis::start(Edition::Msi, 8, 32);
    let mut expected = started.expect("the sizes fit").words();
    expected[1] = 0;
    expected[2] = 0;
    assert_eq!(unused_words(), expected);
    for (edition, cards, blocks) in [(0, 9, 1), (1, 0, 1), (1, 1, 33), (2, 1, 1), (255, 8, 32)] {
        let mut words = [u64::MAX; WORDS];
        assert_eq!(Safe.start(&mut words, edition, cards, blocks), (14, 0));
        assert_eq!(words, expected);
    }
}

/// Each part of `busy_chassis` is where the layout puts it, and all the rest
/// is as at the start.
#[test]
fn a_busy_chassis_has_its_parts_in_their_places() {
    let parts: [(usize, &[u64]); 5] = [
        (0, &[0, 3, 2, 1, 1, 3]),
        // Block 0: card 0 owns it with 5, card 1 is in IS_AD.
        (BLOCKS_AT, &[0, 0, 0, 2, 5, 0, 3, 0, 0]),
        // Block 1: card 2 owns it and awaits number 3.
        (BLOCKS_AT + BLOCK, &[0, 2, 0, 0, 0, 0, 0, 0, 0, 7, 0, 3]),
        // The line: card 1, block 0, GETS, mask of card 0, retry 1.
        (LINE_AT, &[1, 0, 1, 1, 1]),
        // The pool: from home to card 2, block 1, value 0, number 3.
        (POOL_AT, &[255, 2, 1, 0, 3]),
    ];
    let started = Chassis::start(Edition::Msi, 3, 2);
    let mut expected = started.expect("the sizes fit").words();
    for (at, part) in parts {
        expected[at..at + part.len()].copy_from_slice(part);
    }
    assert_eq!(busy_chassis().words(), expected);
}

/// The last word of each part, and the first.
#[test]
fn each_word_has_a_name() {
    for (at, name) in [
        (0, "edition"),
        (1, "cards"),
        (BLOCKS_AT - 1, "last order number"),
        (BLOCKS_AT, "memory of block 0"),
        (BLOCKS_AT + 2, "sharers of block 0"),
        (BLOCKS_AT + 3, "state of card 0 for block 0"),
        (
            BLOCKS_AT + BLOCK - 1,
            "awaited number of card 7 for block 0",
        ),
        (BLOCKS_AT + BLOCK + 1, "owner of block 1"),
        (LINE_AT - 1, "awaited number of card 7 for block 31"),
        (LINE_AT, "card of the line's place 0"),
        (LINE_AT + 9, "retry of the line's place 1"),
        (POOL_AT - 2, "mask of the line's place 63"),
        (POOL_AT, "sender of the pool's place 0"),
        (WORDS - 1, "number of the pool's place 63"),
    ] {
        assert_eq!(word_name(at), name, "word {at}");
    }
}

#[test]
fn the_first_word_that_differs_is_told() {
    let words = busy_chassis().words();
    assert_eq!(same_words(&words, &words), Ok(()));
    for at in 0..WORDS {
        let mut other = words;
        other[at..].fill(9);
        let told = format!(
            "word {at}, {}, is 9 in the proved engine and {} in the safe one",
            word_name(at),
            words[at]
        );
        assert_eq!(same_words(&other, &words), Err(told));
    }
}
