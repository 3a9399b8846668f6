//! The journals that are measured.

use yardstick::characters::{Character, Choice, Sizes, CONTENTION};
use yardstick::edition::Edition;
use yardstick::generate::generate_of;
use yardstick::random::Random;
use yardstick::script::{ask, deliver, journal_of, load, order, start, store};
use yardstick::table::{GETS, GETX, PUTX};

const CARDS: u8 = 8;
const BLOCKS: u8 = 32;

/// Every event, on a chassis with more cells than the line has room for.
const MIXED: Character = Character {
    events: &[
        (Choice::Load, 25),
        (Choice::Store, 20),
        (Choice::Drop, 4),
        (Choice::Ask, 20),
        (Choice::Order, 18),
        (Choice::Deliver, 16),
        (Choice::Copy, 2),
        (Choice::Rejoin, 1),
    ],
    kinds: &[(GETS, 5), (GETX, 4), (PUTX, 2)],
    sufficing: 70,
    live: 80,
    blind: 3,
    busy_blocks: BLOCKS,
    sizes: Sizes::Wide,
};

/// A journal to be measured, and its name.
pub struct Journal {
    pub name: &'static str,
    pub bytes: Vec<u8>,
}

/// Loads and stores that hit; contention on few blocks; all events mixed: so many events each.
pub fn journals(events: usize) -> Vec<Journal> {
    vec![
        Journal {
            name: "hits",
            bytes: hits(events),
        },
        Journal {
            name: "contention",
            bytes: generate_of(Edition::Msi, &CONTENTION, 1, events),
        },
        Journal {
            name: "mixed",
            bytes: generate_of(Edition::Msi, &MIXED, 1, events),
        },
    ]
}

/// Every block is owned by a card, which then loads and stores it.
fn hits(events: usize) -> Vec<u8> {
    let mut random = Random::new(1);
    let mut records = vec![start(CARDS, BLOCKS)];
    for block in 0..BLOCKS {
        records.extend([ask(block % CARDS, block, GETX, 0), order(), deliver(0)]);
    }
    while records.len() <= events {
        let block = random.byte_below(BLOCKS);
        let card = block % CARDS;
        records.push(if random.percent(50) {
            load(card, block)
        } else {
            store(card, block, records.len() as u32)
        });
    }
    journal_of(records)
}
