//! Journals picked by a seed.

use crate::characters::{Character, Sizes, CHARACTERS, HITS};
use crate::chassis::{Chassis, LINE_ROOM, MAX_BLOCKS, MAX_CARDS};
use crate::choose::{blind_event, choose_event};
use crate::damage::damage;
use crate::edition::{Edition, EDITIONS};
use crate::journal::{append, Record};
use crate::random::Random;
use crate::replay::JOURNAL_LIMIT;
use crate::script::{journal_of, start_of};

/// Percent of journals whose sizes no chassis can have.
const SIZES_OUT_OF_RANGE: u32 = 3;

/// Percent of stretches of another than the journal's own character.
const OTHER_CHARACTER: u32 = 20;

/// Percent of chassis with few cards or few blocks, and how many are few.
const FEW_CARDS: (u32, u8) = (70, 4);
const FEW_BLOCKS: (u32, u8) = (75, 3);

/// The most blocks of a crowded chassis.
const CROWDED_BLOCKS: u8 = 4;

/// The fewest cards of a wide chassis: two have no more cells than the line.
const WIDE_CARDS: u8 = 3;

/// The shortest and the longest stretch of one character, in events.
const STRETCH: (u32, u32) = (20, 200);

/// How long a journal becomes: both are reached.
struct Goal {
    events: usize,
    bytes: usize,
}

/// The weights of the kinds of length, in a thousand.
const LENGTHS: [(Length, u32); 5] = [
    (Length::Short, 90),
    (Length::Usual, 800),
    (Length::Long, 90),
    (Length::VeryLong, 16),
    (Length::PastTheLimit, 4),
];

/// A kind of length.
#[derive(Clone, Copy)]
enum Length {
    Short,
    Usual,
    Long,
    VeryLong,
    /// More bytes than are read.
    PastTheLimit,
}

/// The journal of a seed. The damaged one is the sound one with damage done.
pub fn generate(seed: u64, damaged: bool) -> Vec<u8> {
    let mut random = Random::new(seed);
    let sound = sound_journal(&mut random);
    if damaged {
        damage(&mut random, sound)
    } else {
        sound
    }
}

/// A journal of one character throughout, on a chassis of an edition and of
/// sizes that the character needs.
pub fn generate_of(edition: Edition, character: &Character, seed: u64, events: usize) -> Vec<u8> {
    let mut random = Random::new(seed);
    let (cards, blocks) = pick_sizes(&mut random, character.sizes);
    let mut growing = Growing::start(edition, cards, blocks);
    for _ in 0..events {
        growing.add(&mut random, character);
    }
    growing.journal
}

/// A journal without damage. Its sizes may be out of range.
pub(crate) fn sound_journal(random: &mut Random) -> Vec<u8> {
    let edition = pick_edition(random);
    let own = pick_character(random);
    let (cards, blocks) = pick_sizes(random, own.sizes);
    let goal = pick_goal(random);
    if random.percent(SIZES_OUT_OF_RANGE) {
        return refused_start(random, edition, cards, blocks);
    }
    let mut growing = Growing::start(edition, cards, blocks);
    while !growing.has_reached(&goal) {
        let character = if random.percent(OTHER_CHARACTER) {
            pick_character(random)
        } else {
            own
        };
        for _ in 0..random.between(STRETCH.0, STRETCH.1) {
            if growing.has_reached(&goal) {
                break;
            }
            growing.add(random, character);
        }
    }
    growing.journal
}

/// A journal that grows event by event, with the state it has reached.
struct Growing {
    journal: Vec<u8>,
    chassis: Chassis,
    events: usize,
}

impl Growing {
    /// A journal that has its opening only.
    fn start(edition: Edition, cards: u8, blocks: u8) -> Growing {
        let started = Chassis::start(edition, cards, blocks);
        Growing {
            journal: journal_of([start_of(edition, cards, blocks)]),
            chassis: started.unwrap_or(Chassis::unused()),
            events: 0,
        }
    }

    /// Adds an event, accepted or not.
    fn add(&mut self, random: &mut Random, character: &Character) {
        let event = choose_event(random, character, &self.chassis);
        append(&mut self.journal, Record::Event(event));
        // The answer is the replay's business; here the state alone counts.
        let _ = self.chassis.apply(event);
        self.events += 1;
    }

    /// Whether the journal is long enough.
    fn has_reached(&self, goal: &Goal) -> bool {
        self.events >= goal.events && self.journal.len() >= goal.bytes
    }
}

/// One of the editions, each as often.
pub(crate) fn pick_edition(random: &mut Random) -> Edition {
    EDITIONS[random.place(EDITIONS.len())]
}

/// One of the characters.
fn pick_character(random: &mut Random) -> &'static Character {
    random.weighted(&CHARACTERS).unwrap_or(&HITS)
}

/// Sizes that a character needs.
fn pick_sizes(random: &mut Random, sizes: Sizes) -> (u8, u8) {
    let most_cards = pick_most(random, FEW_CARDS, MAX_CARDS as u8);
    let most_blocks = pick_most(random, FEW_BLOCKS, MAX_BLOCKS as u8);
    match sizes {
        Sizes::Any => (
            random.byte_between(1, most_cards),
            random.byte_between(1, most_blocks),
        ),
        Sizes::Crowded => (
            random.byte_between(2, most_cards),
            random.byte_between(1, most_blocks.min(CROWDED_BLOCKS)),
        ),
        Sizes::Wide => {
            let cards = random.byte_between(WIDE_CARDS, MAX_CARDS as u8);
            let enough = LINE_ROOM as u8 / cards + 1;
            (cards, random.byte_between(enough, MAX_BLOCKS as u8))
        }
    }
}

/// How many there may be at most: few, so many times in a hundred, or all.
fn pick_most(random: &mut Random, (percent, few): (u32, u8), all: u8) -> u8 {
    if random.percent(percent) {
        few
    } else {
        all
    }
}

/// How long a journal becomes.
fn pick_goal(random: &mut Random) -> Goal {
    let (first, last) = match random.weighted(&LENGTHS) {
        Some(Length::Short) => (0, 10),
        Some(Length::Usual) | None => (20, 400),
        Some(Length::Long) => (400, 1500),
        Some(Length::VeryLong) => (1500, 5000),
        Some(Length::PastTheLimit) => {
            return Goal {
                events: 0,
                bytes: JOURNAL_LIMIT + random.below(3000) as usize,
            };
        }
    };
    Goal {
        events: random.between(first, last) as usize,
        bytes: 0,
    }
}

/// A journal that starts a chassis of sizes out of range and goes on.
fn refused_start(random: &mut Random, edition: Edition, cards: u8, blocks: u8) -> Vec<u8> {
    let too_many_cards = random.byte_between(MAX_CARDS as u8 + 1, u8::MAX);
    let too_many_blocks = random.byte_between(MAX_BLOCKS as u8 + 1, u8::MAX);
    let (cards, blocks) = match random.below(4) {
        0 => (0, blocks),
        1 => (too_many_cards, blocks),
        2 => (cards, 0),
        _ => (cards, too_many_blocks),
    };
    let mut journal = journal_of([start_of(edition, cards, blocks)]);
    for _ in 0..random.below(5) {
        let event = blind_event(random, cards, blocks);
        append(&mut journal, Record::Event(event));
    }
    journal
}
