//! The paper's marked sequences as journals, M1 apart, with each record's
//! answer as the paper has it; and those of owned copies, M11 to M16.

use crate::edition::Edition;
use crate::journal::Record;
use crate::script::{ask, copy, deliver, journal_of, load, order, rejoin, start, start_of, store};
use crate::table::{GETS, GETX, PUTX};

/// A record with the refusal, or 0, and the value that answer it.
pub type Step = (Record, u8, u32);

/// A named sequence of records with their answers.
pub struct Marked {
    pub name: &'static str,
    pub steps: Vec<Step>,
}

/// M2 to M16.
pub fn marked_sequences() -> Vec<Marked> {
    let marked = |name, steps| Marked { name, steps };
    vec![
        marked("m2", m2()),
        marked("m3", m3()),
        marked("m4", m4()),
        marked("m5", m5()),
        marked("m6", m6()),
        marked("m7", m7()),
        marked("m8", m8()),
        marked("m9", m9()),
        marked("m10", m10()),
        marked("m11", m11()),
        marked("m12", m12()),
        marked("m13", m13()),
        marked("m14", m14()),
        marked("m15", m15()),
        marked("m16", m16()),
    ]
}

impl Marked {
    /// The sequence as a journal.
    pub fn journal(&self) -> Vec<u8> {
        journal_of(self.steps.iter().map(|&(record, _, _)| record))
    }
}

/// The paper's journal.
fn m2() -> Vec<Step> {
    vec![
        (start(2, 1), 0, 0),
        (ask(0, 0, GETX, 0), 0, 0),
        (order(), 0, 1),
        (deliver(0), 0, 1),
        (store(0, 0, 7), 0, 0),
        (load(1, 0), 3, 0),
        (load(0, 0), 0, 7),
    ]
}

/// A mask that is too small, then one that suffices: card 1 gets the 7 that
/// card 0 stored.
fn m3() -> Vec<Step> {
    let mut steps = m2();
    steps.extend([
        (ask(1, 0, GETS, 0), 0, 0),
        (order(), 0, 2),
        (order(), 0, 1),
        (deliver(0), 0, 1),
        (load(1, 0), 0, 7),
    ]);
    steps
}

/// A live message copied: the second delivery is stale.
fn m4() -> Vec<Step> {
    vec![
        (start(1, 1), 0, 0),
        (ask(0, 0, GETS, 0), 0, 0),
        (order(), 0, 1),
        (copy(0), 0, 0),
        (deliver(0), 0, 1),
        (deliver(0), 0, 2),
    ]
}

/// A rejoin while data is on its way: only the new message is taken.
fn m5() -> Vec<Step> {
    vec![
        (start(1, 1), 0, 0),
        (ask(0, 0, GETX, 0), 0, 0),
        (order(), 0, 1),
        (rejoin(0), 0, 0),
        (ask(0, 0, GETX, 0), 0, 0),
        (order(), 0, 1),
        (deliver(0), 0, 2),
        (deliver(0), 0, 1),
    ]
}

/// The owner rejoins and its store is struck.
fn m6() -> Vec<Step> {
    let mut steps = m2();
    steps.extend([
        (rejoin(0), 0, 0),
        (ask(1, 0, GETS, 0), 0, 0),
        (order(), 0, 1),
        (deliver(0), 0, 1),
        (load(1, 0), 0, 0),
    ]);
    steps
}

/// A put that comes too late.
fn m7() -> Vec<Step> {
    let mut steps = m2();
    steps.extend([
        (ask(1, 0, GETX, 1), 0, 0),
        (ask(0, 0, PUTX, 0), 0, 0),
        (order(), 0, 1),
        (order(), 9, 0),
        (deliver(0), 0, 1),
        (order(), 0, 4),
    ]);
    steps
}

/// Cards 0 and 1 in S.
fn two_sharers(cards: u8) -> Vec<Step> {
    let mut steps = vec![(start(cards, 1), 0, 0)];
    for card in 0..2 {
        steps.extend([
            (ask(card, 0, GETS, 0), 0, 0),
            (order(), 0, 1),
            (deliver(0), 0, 1),
        ]);
    }
    steps
}

/// A GETX that misses a sharer still ends the copies that it names.
fn m8() -> Vec<Step> {
    let mut steps = two_sharers(3);
    steps.extend([
        (ask(2, 0, GETX, 1), 0, 0),
        (order(), 0, 2),
        (load(0, 0), 3, 0),
        (load(1, 0), 0, 0),
        (order(), 0, 1),
    ]);
    steps
}

/// Two sharers ask for the block; the second loses its copy.
fn m9() -> Vec<Step> {
    let mut steps = two_sharers(2);
    steps.extend([
        (ask(0, 0, GETX, 2), 0, 0),
        (ask(1, 0, GETX, 1), 0, 0),
        (order(), 0, 1),
        (load(1, 0), 3, 0),
    ]);
    steps
}

/// A full pool.
fn m10() -> Vec<Step> {
    let mut steps = vec![
        (start(1, 1), 0, 0),
        (ask(0, 0, GETX, 0), 0, 0),
        (order(), 0, 1),
    ];
    steps.extend([(copy(0), 0, 0); 63]);
    steps.extend([(copy(0), 10, 0), (deliver(64), 11, 0), (deliver(63), 0, 1)]);
    steps
}

/// A MOSI chassis in which card 0 owns the block in M and has stored 7.
fn owner(cards: u8) -> Vec<Step> {
    vec![
        (start_of(Edition::Mosi, cards, 1), 0, 0),
        (ask(0, 0, GETX, 0), 0, 0),
        (order(), 0, 1),
        (deliver(0), 0, 1),
        (store(0, 0, 7), 0, 0),
    ]
}

/// The same, and each of the other cards has been given a copy by card 0,
/// which is in O.
fn owner_with_sharers(cards: u8) -> Vec<Step> {
    let mut steps = owner(cards);
    for card in 1..cards {
        steps.extend([
            (ask(card, 0, GETS, 1), 0, 0),
            (order(), 0, 1),
            (deliver(0), 0, 1),
        ]);
    }
    steps
}

/// An M owner is asked for a copy and goes to O: both load, and it no longer
/// stores.
fn m11() -> Vec<Step> {
    let mut steps = owner_with_sharers(2);
    steps.extend([
        (load(0, 0), 0, 7),
        (load(1, 0), 0, 7),
        (store(0, 0, 8), 3, 0),
    ]);
    steps
}

/// The O owner upgrades with its two sharers in its mask, not itself, and
/// stores.
fn m12() -> Vec<Step> {
    let mut steps = owner_with_sharers(3);
    steps.extend([
        (ask(0, 0, GETX, 0b110), 0, 0),
        (order(), 0, 1),
        (load(0, 0), 0, 7),
        (load(1, 0), 3, 0),
        (load(2, 0), 3, 0),
        (deliver(0), 0, 1),
        (store(0, 0, 8), 0, 0),
        (load(0, 0), 0, 8),
    ]);
    steps
}

/// An upgrade behind another's GETX: the owner loses the block to it, and gets
/// it back with what the other stored.
fn m13() -> Vec<Step> {
    let mut steps = owner_with_sharers(2);
    steps.extend([
        (ask(1, 0, GETX, 1), 0, 0),
        (ask(0, 0, GETX, 2), 0, 0),
        (load(0, 0), 0, 7),
        (order(), 0, 1),
        (load(0, 0), 3, 0),
        (deliver(0), 0, 1),
        (store(1, 0, 9), 0, 0),
        (order(), 0, 1),
        (deliver(0), 0, 1),
        (load(0, 0), 0, 9),
    ]);
    steps
}

/// A put from OI_A leaves the sharer listed: a later GETX that does not name
/// it has too small a mask.
fn m14() -> Vec<Step> {
    let mut steps = owner_with_sharers(2);
    steps.extend([
        (ask(0, 0, PUTX, 0), 0, 0),
        (load(0, 0), 0, 7),
        (order(), 0, 3),
        (load(0, 0), 3, 0),
        (load(1, 0), 0, 7),
        (ask(0, 0, GETX, 0), 0, 0),
        (order(), 0, 2),
        (order(), 0, 1),
        (load(1, 0), 3, 0),
        (deliver(0), 0, 1),
        (load(0, 0), 0, 7),
    ]);
    steps
}

/// The O owner rejoins: the sharer keeps its copy, and home gives the same
/// value to whoever asks.
fn m15() -> Vec<Step> {
    let mut steps = owner_with_sharers(2);
    steps.extend([
        (rejoin(0), 0, 0),
        (load(0, 0), 3, 0),
        (load(1, 0), 0, 7),
        (ask(0, 0, GETS, 0), 0, 0),
        (order(), 0, 1),
        (deliver(0), 0, 1),
        (load(0, 0), 0, 7),
        (load(1, 0), 0, 7),
    ]);
    steps
}

/// An owner whose put waits is asked for a copy: it goes to OI_A, and its put
/// is taken after all.
fn m16() -> Vec<Step> {
    let mut steps = owner(2);
    steps.extend([
        (ask(1, 0, GETS, 1), 0, 0),
        (ask(0, 0, PUTX, 0), 0, 0),
        (store(0, 0, 8), 0, 0),
        (order(), 0, 1),
        (store(0, 0, 9), 3, 0),
        (load(0, 0), 0, 8),
        (deliver(0), 0, 1),
        (order(), 0, 3),
        (load(0, 0), 3, 0),
        (load(1, 0), 0, 8),
    ]);
    steps
}
