//! Engines that meet on made up states and buffers: one that is right, and
//! ones with something wrong planted, each of which is found.

use crate::chassis::{Chassis, Request, HOME};
use crate::edition::Edition;
use crate::engine::{Answer, Engine, Safe};
use crate::events::Event;
use crate::fields::{Fields, KIND, TAG};
use crate::handed::wrong_with;
use crate::layout::{home_at, pool_at};
use crate::looks::{Look, Seen};
use crate::states::meet;
use crate::states::met::{wrong_names, Met};
use crate::table::{IS_AD, OI_A, OM_AD};
use crate::words::WORDS;

/// How many seeds are tried, and how many so that everything is met often.
const SEEDS: u64 = 4_000;
const ENOUGH_SEEDS: u64 = 40_000;

/// Three words of the header.
const EDITION: usize = 0;
const IN_POOL: usize = 4;
const LAST_ORDER: usize = 5;

/// What a Start or an event leaves: the words and the answer.
type Run = ([u64; WORDS], Answer);

/// What a writing leaves: the buffer, the place and the answer.
type Written = (Vec<u8>, usize, Answer);

/// What a reading leaves: the numbers, the place and the answer.
type Read = (Fields, usize, Answer);

/// What a look leaves: the numbers seen and the answer.
type Looked = (Seen, Answer);

/// What is wrong: it gets what was there before, and changes what is left. A
/// Start is no event.
type WrongRun = fn(&[u64; WORDS], Option<Event>, &mut Run);
type WrongWriting = fn(usize, &mut Written);
type WrongReading = fn(&Fields, usize, &mut Read);
type WrongLook = fn(&Seen, Look, &mut Looked);

/// This program's engine with something wrong.
#[derive(Clone, Copy)]
struct Wrong {
    run: WrongRun,
    write: WrongWriting,
    read: WrongReading,
    look: WrongLook,
}

/// Nothing wrong.
const RIGHT: Wrong = Wrong {
    run: |_, _, _| {},
    write: |_, _| {},
    read: |_, _, _| {},
    look: |_, _, _| {},
};

impl Wrong {
    /// What is left, with the wrong thing done.
    fn after(
        &self,
        words: &mut [u64; WORDS],
        event: Option<Event>,
        run: impl Fn(&mut [u64; WORDS]) -> Answer,
    ) -> Answer {
        let before = *words;
        let answer = run(words);
        let mut left = (*words, answer);
        (self.run)(&before, event, &mut left);
        *words = left.0;
        left.1
    }
}

impl Engine for Wrong {
    fn start(&self, words: &mut [u64; WORDS], edition: u8, cards: u8, blocks: u8) -> Answer {
        self.after(words, None, |words| {
            Safe.start(words, edition, cards, blocks)
        })
    }

    fn apply(&self, words: &mut [u64; WORDS], event: Event) -> Answer {
        self.after(words, Some(event), |words| Safe.apply(words, event))
    }

    fn look(&self, words: &[u64; WORDS], look: Look, seen: &mut Seen) -> Answer {
        let before = *seen;
        let answer = Safe.look(words, look, seen);
        let mut left = (*seen, answer);
        (self.look)(&before, look, &mut left);
        *seen = left.0;
        left.1
    }

    fn read(&self, journal: &[u8], place: &mut usize, fields: &mut Fields) -> Answer {
        let (before, from) = (*fields, *place);
        let answer = Safe.read(journal, place, fields);
        let mut left = (*fields, *place, answer);
        (self.read)(&before, from, &mut left);
        (*fields, *place) = (left.0, left.1);
        left.2
    }

    fn write(&self, buffer: &mut [u8], place: &mut usize, fields: &Fields) -> Answer {
        let from = *place;
        let answer = Safe.write(buffer, place, fields);
        let mut left = (buffer.to_vec(), *place, answer);
        (self.write)(from, &mut left);
        buffer.copy_from_slice(&left.0);
        *place = left.1;
        left.2
    }
}

/// Something wrong, with what is told of it.
type Planted<T> = (&'static str, T);

/// Wrong at a look.
const WRONG_LOOKS: [Planted<WrongLook>; 6] = [
    ("Counts: [0, ", |_, look, left| {
        if look == Look::Counts && left.1 .0 == 0 {
            left.0[0] = 0;
        }
    }),
    ("Counts: [", |_, look, left| {
        if look == Look::Counts && left.1 .0 == 0 {
            left.0.swap(3, 4);
        }
    }),
    ("is seen, and ", |before, _, left| left.0 = *before),
    ("is seen, and ", |_, _, left| {
        // A refusal keeps the numbers.
        if left.1 .0 != 0 {
            left.0[0] = 0;
        }
    }),
    ("Cell { ", |_, look, left| {
        if matches!(look, Look::Cell { .. }) && left.1 == (1, 0) {
            left.1 = (2, 0);
        }
    }),
    ("Request { ", |_, look, left| {
        if matches!(look, Look::Request { .. }) && left.1 == (11, 0) {
            left.1 = (0, 0);
        }
    }),
];

/// Wrong at a Start or an event.
const WRONG_RUNS: [Planted<WrongRun>; 9] = [
    (
        ", edition, is 0 in the proved engine and 1",
        |_, event, left| {
            if event.is_none() {
                left.0[EDITION] = 0;
            }
        },
    ),
    (", last order number, is ", |before, event, left| {
        if event == Some(Event::Order) {
            left.0[LAST_ORDER] = before[LAST_ORDER];
        }
    }),
    (", rejoin card ", |before, event, left| {
        let at = (0..WORDS).find(|at| left.0[*at] != before[*at]);
        if let (Some(Event::Rejoin { .. }), Some(at)) = (event, at) {
            left.0[at] = before[at];
        }
    }),
    (", sender of the pool's place ", |before, event, left| {
        if let (Some(Event::Deliver { .. }), (0, _)) = (event, left.1) {
            let freed = pool_at(left.0[IN_POOL] as usize);
            left.0[freed] = before[freed];
        }
    }),
    (
        "is (13, 0) in the proved engine and (9, 0)",
        |_, _, left| {
            if left.1 == (9, 0) {
                left.1 = (13, 0);
            }
        },
    ),
    (
        "is (11, 1) in the proved engine and (11, 0)",
        |_, _, left| {
            if left.1 == (11, 0) {
                left.1 = (11, 1);
            }
        },
    ),
    (", number of the pool's place ", |_, _, left| {
        if left.1 == (3, 0) {
            left.0[WORDS - 1] ^= 1;
        }
    }),
    (", start ", |before, _, left| {
        if left.1 == (14, 0) {
            left.0 = *before;
        }
    }),
    ("a well formed state, store card ", |before, event, left| {
        if let Some(Event::Store { .. }) = event {
            left.0 = *before;
        }
    }),
];

/// What an Order was granted or taken, if it was: the chassis before it, its
/// head, and the state that the head's card was in.
fn done(before: &[u64; WORDS], event: Option<Event>, left: &Run) -> Option<(Chassis, Request, u8)> {
    let is_done = event == Some(Event::Order) && matches!(left.1, (0, 1 | 3));
    let chassis = Chassis::of_words(before).ok().filter(|_| is_done)?;
    let head = chassis.head()?;
    let state = chassis.cell(head.card, head.block).state;
    Some((chassis, head, state))
}

/// Wrong with owned copies: what a reader of the rules may get wrong.
const WRONG_OWNED: [Planted<WrongRun>; 5] = [
    (", sender of the pool's place ", |before, event, left| {
        // The upgrade's data comes from home, not from its asker.
        if let Some((chassis, head, OM_AD)) = done(before, event, left) {
            left.0[pool_at(chassis.pool.count())] = head.card.into();
        }
    }),
    (", value of the pool's place ", |before, event, left| {
        // It is memory's, not the asker's own.
        if let Some((chassis, head, OM_AD)) = done(before, event, left) {
            let own = chassis.cell(head.card, head.block).value;
            left.0[pool_at(chassis.pool.count()) + 3] = own.into();
        }
    }),
    (", sharers of block ", |before, event, left| {
        // The put of an owned copy leaves its sharers.
        if let Some((_, head, OI_A)) = done(before, event, left) {
            left.0[home_at(head.block.into()) + 2] = 0;
        }
    }),
    (", owner of block ", |before, event, left| {
        // An owner that is asked for a copy stays the owner.
        if let Some((chassis, head, IS_AD)) = done(before, event, left) {
            if chassis.edition == Edition::Mosi {
                left.0[home_at(head.block.into()) + 1] = HOME.into();
            }
        }
    }),
    (", sharers of block ", |before, event, left| {
        // It is not listed as a sharer for that.
        if let Some((chassis, head, IS_AD)) = done(before, event, left) {
            let owner = chassis.owner(head.block);
            if chassis.edition == Edition::Mosi && owner != HOME {
                left.0[home_at(head.block.into()) + 2] |= 1 << owner;
            }
        }
    }),
];

/// Wrong at a writing.
const WRONG_WRITINGS: [Planted<WrongWriting>; 6] = [
    (
        "is (24, 0) in the proved engine and (23, 0)",
        |from, (buffer, _, answer)| {
            if *answer == (23, 0) && from >= buffer.len() {
                *answer = (24, 0);
            }
        },
    ),
    (" bytes: byte ", |_, (buffer, place, answer)| {
        let behind = buffer.get_mut(*place).filter(|_| *answer == (0, 0));
        behind.into_iter().for_each(|byte| *byte ^= 1);
    }),
    (" bytes: byte ", |_, (buffer, _, answer)| {
        let last = buffer.last_mut().filter(|_| *answer == (24, 0));
        last.into_iter().for_each(|byte| *byte ^= 1);
    }),
    (" bytes: the place is ", |_, (buffer, place, answer)| {
        if *answer == (24, 0) {
            *place = buffer.len();
        }
    }),
    (
        "is (24, 0) in the proved engine and (0, 0)",
        |_, (buffer, place, answer)| {
            if *answer == (0, 0) && *place == buffer.len() {
                *answer = (24, 0);
            }
        },
    ),
    (
        "is (24, 0) in the proved engine and (21, 0)",
        |from, (buffer, _, answer)| {
            if *answer == (21, 0) && from > buffer.len() {
                *answer = (24, 0);
            }
        },
    ),
];

/// Wrong at a reading.
const WRONG_READINGS: [Planted<WrongReading>; 5] = [
    (" bytes: number 3 is ", |before, _, (fields, _, answer)| {
        if *answer == (0, 1) && fields[KIND] == 0 {
            fields[KIND] = before[KIND];
        }
    }),
    (" bytes: number 0 is ", |_, _, (fields, _, answer)| {
        if *answer == (0, 0) {
            fields[TAG] = 0;
        }
    }),
    (" bytes: the place is ", |_, _, (_, place, answer)| {
        if answer.0 > 0 {
            *place += 1;
        }
    }),
    (
        "is (22, 0) in the proved engine and (21, 0)",
        |_, _, (_, _, answer)| {
            if *answer == (21, 0) {
                *answer = (22, 0);
            }
        },
    ),
    (
        "is (20, 0) in the proved engine and (0, 0)",
        |_, from, (_, _, answer)| {
            if *answer == (0, 0) && from == usize::MAX {
                *answer = (20, 0);
            }
        },
    ),
];

/// Sees that an engine differs, and that the seed that is told shows it again.
fn differs(engine: &dyn Engine, expected: &str) {
    let told = meet(engine, 0..SEEDS, &mut Met::default()).expect_err(expected);
    assert!(told.contains(expected), "{told} for {expected}");
    let seed = told
        .strip_prefix("seed ")
        .and_then(|told| told.split(':').next());
    let seed: u64 = seed.and_then(|seed| seed.parse().ok()).expect(&told);
    let again = meet(engine, seed..seed + 1, &mut Met::default());
    assert_eq!(again, Err(told));
}

#[test]
fn an_engine_meets_itself() {
    let mut met = Met::default();
    assert_eq!(meet(&Safe, 0..ENOUGH_SEEDS, &mut met), Ok(()));
    assert_eq!(met.complaint(), None);
    assert_eq!(meet(&RIGHT, 0..SEEDS, &mut met), Ok(()));
}

#[test]
fn what_is_wrong_at_an_event_is_found() {
    for (expected, run) in WRONG_RUNS.into_iter().chain(WRONG_OWNED) {
        differs(&Wrong { run, ..RIGHT }, expected);
    }
}

#[test]
fn what_is_wrong_at_a_look_is_found() {
    for (expected, look) in WRONG_LOOKS {
        differs(&Wrong { look, ..RIGHT }, expected);
    }
}

#[test]
fn what_is_wrong_at_a_writing_is_found() {
    for (expected, write) in WRONG_WRITINGS {
        differs(&Wrong { write, ..RIGHT }, expected);
    }
}

#[test]
fn what_is_wrong_at_a_reading_is_found() {
    for (expected, read) in WRONG_READINGS {
        differs(&Wrong { read, ..RIGHT }, expected);
    }
}

/// This program's engine, which does not see one thing that is wrong with a
/// state, and takes it as if nothing was due.
struct Blind(&'static str);

impl Engine for Blind {
    fn start(&self, words: &mut [u64; WORDS], edition: u8, cards: u8, blocks: u8) -> Answer {
        Safe.start(words, edition, cards, blocks)
    }

    fn apply(&self, words: &mut [u64; WORDS], event: Event) -> Answer {
        if wrong_with(words) == [self.0] {
            return (0, 0);
        }
        Safe.apply(words, event)
    }

    fn look(&self, words: &[u64; WORDS], look: Look, seen: &mut Seen) -> Answer {
        Safe.look(words, look, seen)
    }

    fn read(&self, journal: &[u8], place: &mut usize, fields: &mut Fields) -> Answer {
        Safe.read(journal, place, fields)
    }

    fn write(&self, buffer: &mut [u8], place: &mut usize, fields: &Fields) -> Answer {
        Safe.write(buffer, place, fields)
    }
}

#[test]
fn a_clause_of_row_15_that_is_not_tested_is_found() {
    for name in wrong_names() {
        let expected = format!("an ill formed state ({name}), load card ");
        differs(&Blind(name), &expected);
    }
}
