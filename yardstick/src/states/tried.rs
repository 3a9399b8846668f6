//! What is tried on a state: a Start and one event of each kind, with
//! arguments that mostly fit.

use std::fmt;

use super::draws::{mask, one_of, value};
use crate::chassis::{Chassis, MAX_BLOCKS, MAX_CARDS};
use crate::edition::EDITIONS;
use crate::engine::{Answer, Engine};
use crate::events::Event;
use crate::random::Random;
use crate::table::{self, GETS, GETX, PUTX};
use crate::words::WORDS;

/// Percent of asks of a kind that the cell's state allows, if it allows one.
const ALLOWED: u32 = 60;

/// Percent of masks of cards that a chassis may have, there or not.
const ANY_CARDS: u32 = 20;

/// What is tried. A Start has a byte for its edition, which may be no
/// edition's.
#[derive(Clone, Copy)]
pub enum Tried {
    Start { edition: u8, cards: u8, blocks: u8 },
    Event(Event),
}

impl Tried {
    /// Tries it by an engine.
    pub fn run(self, engine: &dyn Engine, words: &mut [u64; WORDS]) -> Answer {
        match self {
            Tried::Start {
                edition,
                cards,
                blocks,
            } => engine.start(words, edition, cards, blocks),
            Tried::Event(event) => engine.apply(words, event),
        }
    }
}

impl fmt::Display for Tried {
    /// What is tried, as one line.
    fn fmt(&self, out: &mut fmt::Formatter<'_>) -> fmt::Result {
        match self {
            Tried::Start {
                edition,
                cards,
                blocks,
            } => write!(
                out,
                "start of edition {edition}, cards {cards}, blocks {blocks}"
            ),
            Tried::Event(event) => write!(out, "{event}"),
        }
    }
}

/// A Start, then every event once.
pub fn tried(random: &mut Random, chassis: &Chassis) -> [Tried; 9] {
    [
        start(random),
        Tried::Event(load(random, chassis)),
        Tried::Event(store(random, chassis)),
        Tried::Event(drop_copy(random, chassis)),
        Tried::Event(ask(random, chassis)),
        Tried::Event(Event::Order),
        Tried::Event(deliver(random, chassis)),
        Tried::Event(copy(random, chassis)),
        Tried::Event(rejoin(random, chassis)),
    ]
}

/// A Start, of too many, of none or of no edition now and then.
fn start(random: &mut Random) -> Tried {
    Tried::Start {
        edition: byte(random, EDITIONS.len() as u8),
        cards: byte(random, MAX_CARDS as u8 + 1),
        blocks: byte(random, MAX_BLOCKS as u8 + 1),
    }
}

fn load(random: &mut Random, chassis: &Chassis) -> Event {
    let (card, block) = cell(random, chassis);
    Event::Load { card, block }
}

fn store(random: &mut Random, chassis: &Chassis) -> Event {
    let (card, block) = cell(random, chassis);
    let value = value(random);
    Event::Store { card, block, value }
}

fn drop_copy(random: &mut Random, chassis: &Chassis) -> Event {
    let (card, block) = cell(random, chassis);
    Event::Drop { card, block }
}

fn ask(random: &mut Random, chassis: &Chassis) -> Event {
    let (card, block) = cell(random, chassis);
    let allowed = allowed_kind(random, chassis, card, block);
    let kind = match allowed.filter(|_| random.percent(ALLOWED)) {
        Some(allowed) => allowed,
        None => any_kind(random),
    };
    let cards = if random.percent(ANY_CARDS) {
        MAX_CARDS as u8
    } else {
        chassis.cards
    };
    Event::Ask {
        card,
        block,
        kind,
        mask: mask(random, cards),
    }
}

fn deliver(random: &mut Random, chassis: &Chassis) -> Event {
    let position = position(random, chassis);
    Event::Deliver { position }
}

fn copy(random: &mut Random, chassis: &Chassis) -> Event {
    let position = position(random, chassis);
    Event::Copy { position }
}

fn rejoin(random: &mut Random, chassis: &Chassis) -> Event {
    let card = byte(random, chassis.cards);
    Event::Rejoin { card }
}

/// A kind of ask, or a byte that is none.
fn any_kind(random: &mut Random) -> u8 {
    let any = random.byte();
    one_of(random, [GETS, GETX, PUTX, 0, PUTX + 1, any])
}

/// A kind of ask that a cell's state allows, if there is such a cell and kind.
fn allowed_kind(random: &mut Random, chassis: &Chassis, card: u8, block: u8) -> Option<u8> {
    if card >= chassis.cards || block >= chassis.blocks {
        return None;
    }
    let row = table::row(chassis.cell(card, block).state);
    let allowed = || (GETS..=PUTX).filter(|kind| row.ask(*kind).is_some());
    allowed().nth(random.place(allowed().count()))
}

/// A card and a block.
fn cell(random: &mut Random, chassis: &Chassis) -> (u8, u8) {
    (byte(random, chassis.cards), byte(random, chassis.blocks))
}

/// A position of the pool.
fn position(random: &mut Random, chassis: &Chassis) -> u8 {
    byte(random, chassis.pool.count() as u8)
}

/// A byte mostly below a limit; else the limit, the last byte or any.
fn byte(random: &mut Random, limit: u8) -> u8 {
    match random.below(20) {
        0 => limit,
        1 => u8::MAX,
        2 => random.byte(),
        _ => random.byte_below(limit),
    }
}
