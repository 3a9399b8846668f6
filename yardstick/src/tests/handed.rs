//! Words read back into a chassis, and refused where they are those of none.

use super::{busy_chassis, each_journal};
use crate::chassis::Chassis;
use crate::edition::Edition;
use crate::engine::{Engine, Safe};
use crate::handed::{wrong_with, NO_EDITION, TOO_LARGE};
use crate::layout::word_name;
use crate::random::Random;
use crate::refusal::Refusal;
use crate::run::Run;
use crate::script::order;
use crate::states::fabricate::fabricate;
use crate::words::{unused_words, WORDS};

/// Numbers that no field, or no field but an order number, can have.
const LARGE: [u64; 3] = [1 << 32, u64::MAX - 1, u64::MAX];

fn reads_back(chassis: &Chassis) {
    let words = chassis.words();
    assert_eq!(Chassis::of_words(&words).as_ref(), Ok(chassis));
    assert_eq!(Chassis::handed_in(&words).as_ref(), Ok(chassis));
}

#[test]
fn reading_back_undoes_laying_out() {
    for seed in 0..2_000 {
        reads_back(&fabricate(&mut Random::new(seed)));
    }
    each_journal(|journal| {
        let mut run = Run::new(journal);
        while run.see().is_some() {}
        run.chassis().into_iter().for_each(reads_back);
    });
}

/// The edition's word is 0 or 1; all else of the words is the same in both.
#[test]
fn a_word_that_is_no_editions_is_15() {
    let mut words = busy_chassis().words();
    for (edition, word) in [(Edition::Msi, 0), (Edition::Mosi, 1)] {
        words[0] = word;
        let handed_in = Chassis::handed_in(&words);
        assert_eq!(handed_in.map(|chassis| chassis.edition()), Ok(edition));
    }
    for word in [2, 3, 255, 256, 257, 1 << 32, u64::MAX] {
        words[0] = word;
        assert_eq!(Chassis::handed_in(&words), Err(Refusal::IllFormed));
        assert_eq!(wrong_with(&words), [NO_EDITION]);
    }
}

/// But for the last order number, which any number may be.
#[test]
fn each_word_can_be_too_large() {
    for at in 0..WORDS {
        for large in LARGE {
            let mut words = busy_chassis().words();
            words[at] = large;
            let handed_in = Chassis::handed_in(&words);
            if word_name(at) == "last order number" {
                assert_eq!(handed_in.map(|chassis| chassis.last_order.0), Ok(large));
            } else {
                assert_eq!(handed_in, Err(Refusal::IllFormed), "word {at}: {large}");
            }
        }
    }
}

/// A number whose lower bits alone would be in range.
#[test]
fn no_word_is_cut_to_its_field() {
    let words = busy_chassis().words();
    for at in 0..WORDS {
        for added in [1 << 8, 1 << 16, 1 << 32] {
            let mut spoiled = words;
            spoiled[at] += added;
            let handed_in = Chassis::handed_in(&spoiled);
            // Whatever is taken is there whole.
            assert!(handed_in.map_or(true, |chassis| chassis.words() == spoiled));
        }
    }
}

#[test]
fn words_of_no_chassis_are_15_and_are_kept() {
    let mut noise = [u64::MAX; WORDS];
    let mut none = unused_words();
    for words in [&mut noise, &mut none] {
        let before = *words;
        assert_eq!(Safe.run(words, order()), (15, 0));
        assert_eq!(*words, before);
    }
    assert_eq!(wrong_with(&noise), [NO_EDITION]);
    noise[0] = 0;
    assert_eq!(wrong_with(&noise), [TOO_LARGE]);
    assert_eq!(wrong_with(&none), ["number of cards", "number of blocks"]);
}
