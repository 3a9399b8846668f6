//! Choosing one event: one that the state is likely to accept, or a blind one.

use crate::characters::{Character, Choice};
use crate::chassis::{Chassis, Message};
use crate::events::Event;
use crate::random::Random;
use crate::table::{self, PUTX, S};

/// How often a likely event is looked for before a blind one is taken.
const TRIES: u32 = 3;

/// Percent of stores, drops and asks that are tried in any state that may load.
const TRIED_ANYWAY: u32 = 5;

/// Percent of blind bytes that may be any byte.
const ANY_BYTE: u32 = 15;

/// How far above their limit the other blind bytes may go.
const NEAR: u8 = 2;

/// Positions of blind events are near this number.
const BLIND_POSITIONS: u8 = 8;

/// The next event of a journal of this character, in this state.
pub fn choose_event(random: &mut Random, character: &Character, chassis: &Chassis) -> Event {
    let tries = if random.percent(character.blind) {
        0
    } else {
        TRIES
    };
    (0..tries)
        .find_map(|_| likely_event(random, character, chassis))
        .unwrap_or_else(|| blind_event(random, chassis.cards(), chassis.blocks()))
}

/// An event that the state is likely to accept; none if the event picked
/// would be refused for want of a cell, a request or a message.
fn likely_event(random: &mut Random, character: &Character, chassis: &Chassis) -> Option<Event> {
    let busy_blocks = character.busy_blocks.min(chassis.blocks());
    let choice = random.weighted(character.events)?;
    let anyway = random.percent(TRIED_ANYWAY);
    let mut cell_where = |fits: fn(u8) -> bool| {
        let fits = |state: u8| fits(state) || (anyway && table::row(state).load);
        pick_cell(random, chassis, busy_blocks, fits)
    };
    match choice {
        Choice::Load => {
            let (card, block) = cell_where(|state| table::row(state).load)?;
            Some(Event::Load { card, block })
        }
        Choice::Store => {
            let (card, block) = cell_where(|state| table::row(state).store)?;
            let value = pick_value(random);
            Some(Event::Store { card, block, value })
        }
        Choice::Drop => {
            let (card, block) = cell_where(|state| state == S)?;
            Some(Event::Drop { card, block })
        }
        Choice::Ask => likely_ask(random, character, chassis, anyway),
        Choice::Order => chassis.head().map(|_| Event::Order),
        Choice::Deliver => likely_delivery(random, character, chassis),
        Choice::Copy => {
            let position = pick_position(random, chassis, |_| true)?;
            Some(Event::Copy { position })
        }
        Choice::Rejoin => Some(Event::Rejoin {
            card: random.byte_below(chassis.cards()),
        }),
    }
}

/// An ask that the asker's state allows, or one that is tried anyway.
fn likely_ask(
    random: &mut Random,
    character: &Character,
    chassis: &Chassis,
    anyway: bool,
) -> Option<Event> {
    let busy_blocks = character.busy_blocks.min(chassis.blocks());
    let kind = random.weighted(character.kinds)?;
    let allows = |state: u8| {
        let row = table::row(state);
        row.ask(kind).is_some() || (anyway && row.load)
    };
    let (card, block) = pick_cell(random, chassis, busy_blocks, allows)?;
    let mask = if random.percent(character.sufficing) {
        chassis.holders(block)
    } else {
        random.byte() & random.byte() & chassis.every_card()
    };
    Some(Event::Ask {
        card,
        block,
        kind,
        mask,
    })
}

/// A card and a block below `busy_blocks` whose cell's state fits.
fn pick_cell(
    random: &mut Random,
    chassis: &Chassis,
    busy_blocks: u8,
    fits: impl Fn(u8) -> bool,
) -> Option<(u8, u8)> {
    let all =
        || (0..busy_blocks).flat_map(|block| (0..chassis.cards()).map(move |card| (card, block)));
    let fitting = || all().filter(|&(card, block)| fits(chassis.cell(card, block).state));
    let chosen = random.place(fitting().count());
    fitting().nth(chosen)
}

/// A message to deliver, at times one that is still awaited.
fn likely_delivery(random: &mut Random, character: &Character, chassis: &Chassis) -> Option<Event> {
    let wants_live = random.percent(character.live);
    let live = pick_position(random, chassis, |message| chassis.is_awaited(message));
    let position = match live.filter(|_| wants_live) {
        Some(position) => position,
        None => pick_position(random, chassis, |_| true)?,
    };
    Some(Event::Deliver { position })
}

/// A position of the pool with a message that fits.
fn pick_position(
    random: &mut Random,
    chassis: &Chassis,
    fits: impl Fn(&Message) -> bool,
) -> Option<u8> {
    let fitting = || {
        (0u8..)
            .zip(chassis.pool.items())
            .filter(|(_, message)| fits(message))
    };
    let chosen = random.place(fitting().count());
    fitting().nth(chosen).map(|(position, _)| position)
}

/// A value to store, small or any.
fn pick_value(random: &mut Random) -> u32 {
    if random.percent(50) {
        random.below(100)
    } else {
        random.word()
    }
}

/// An event made without a look at the state, near the sizes or far off.
pub fn blind_event(random: &mut Random, cards: u8, blocks: u8) -> Event {
    let card = blind_byte(random, cards);
    let block = blind_byte(random, blocks);
    let position = blind_byte(random, BLIND_POSITIONS);
    match random.below(8) {
        0 => Event::Load { card, block },
        1 => Event::Store {
            card,
            block,
            value: pick_value(random),
        },
        2 => Event::Drop { card, block },
        3 | 4 => blind_ask(random, card, block),
        5 => Event::Order,
        6 => Event::Deliver { position },
        _ if random.percent(50) => Event::Copy { position },
        _ => Event::Rejoin { card },
    }
}

/// An ask of any kind, now and then one that is none, with any mask.
fn blind_ask(random: &mut Random, card: u8, block: u8) -> Event {
    let kind = random.byte_below(PUTX + 2);
    let mask = random.byte() >> random.below(8);
    Event::Ask {
        card,
        block,
        kind,
        mask,
    }
}

/// A byte mostly below a limit, now and then a little above or any byte.
fn blind_byte(random: &mut Random, limit: u8) -> u8 {
    if random.percent(ANY_BYTE) {
        random.byte()
    } else {
        random.byte_below(limit.saturating_add(NEAR))
    }
}
