//! States made by row 15 of the paper alone, each field by itself: nearly all
//! of them are such as no journal reaches.

use super::aim::aim;
use super::draws::{card_or_home, count, given_number, last_number, mask, one_of, size, value};
use crate::chassis::{
    Cell, Chassis, HomeBlock, Message, OrderNumber, Request, Retry, LAST_RETRY, LINE_ROOM,
    MAX_BLOCKS, MAX_CARDS, POOL_ROOM,
};
use crate::edition::EDITIONS;
use crate::random::Random;
use crate::table::{self, GETS, I, PUTX};

/// Percent of blocks whose cards may await data. Where all may, a block with
/// many cards is nearly always held.
const MAY_AWAIT: u32 = 50;

/// Percent of messages to a cell that awaits data, if there is one; and of
/// these, the percent that carry the number awaited.
const TO_AWAITING: u32 = 60;
const LIVE: u32 = 70;

/// Percent of states whose head is made to fit.
const AIMED: u32 = 75;

/// A well formed chassis. Every one that row 15 allows may be drawn.
pub fn fabricate(random: &mut Random) -> Chassis {
    let mut chassis = Chassis {
        edition: one_of(random, EDITIONS),
        cards: size(random, MAX_CARDS),
        blocks: size(random, MAX_BLOCKS),
        last_order: last_number(random),
        ..Chassis::unused()
    };
    for block in 0..chassis.blocks {
        fill_block(random, &mut chassis, block);
    }
    for _ in 0..count(random, LINE_ROOM) {
        let request = request(random, &chassis);
        chassis.line.push(request);
    }
    fill_pool(random, &mut chassis);
    if random.percent(AIMED) {
        aim(random, &mut chassis);
    }
    chassis
}

/// Anything in home's part of a block and in its cells.
fn fill_block(random: &mut Random, chassis: &mut Chassis, block: u8) {
    chassis.home[usize::from(block)] = HomeBlock {
        memory: value(random),
        owner: card_or_home(random, chassis.cards),
        sharers: mask(random, chassis.cards),
    };
    let states = (0u8..).take_while(|state| table::has_state(chassis.edition, *state));
    let states = states.count() as u8;
    let last = chassis.last_order;
    let may_await = last != OrderNumber(0) && random.percent(MAY_AWAIT);
    for card in 0..chassis.cards {
        let state = random.byte_below(states);
        let fits = may_await || !table::awaits_data(state);
        *chassis.cell_mut(card, block) = cell(random, if fits { state } else { I }, last);
    }
}

/// A cell in this state, with anything that the state allows.
pub(super) fn cell(random: &mut Random, state: u8, last: OrderNumber) -> Cell {
    let has_value = table::row(state).load;
    let awaits = table::awaits_data(state);
    Cell {
        state,
        value: if has_value { value(random) } else { 0 },
        awaited: if awaits {
            given_number(random, last)
        } else {
            OrderNumber(0)
        },
    }
}

/// Any request. The last retry asks every card.
fn request(random: &mut Random, chassis: &Chassis) -> Request {
    let retry = Retry(random.byte_between(0, LAST_RETRY.0));
    Request {
        card: random.byte_below(chassis.cards),
        block: random.byte_below(chassis.blocks),
        kind: random.byte_between(GETS, PUTX),
        mask: if retry == LAST_RETRY {
            chassis.every_card()
        } else {
            mask(random, chassis.cards)
        },
        retry,
    }
}

/// Any messages, if an order number has been given.
fn fill_pool(random: &mut Random, chassis: &mut Chassis) {
    if chassis.last_order == OrderNumber(0) {
        return;
    }
    let awaiting = awaiting_cells(chassis);
    for _ in 0..count(random, POOL_ROOM) {
        let chosen = awaiting.get(random.place(awaiting.len())).copied();
        let to_awaiting = chosen.filter(|_| random.percent(TO_AWAITING));
        let message = message(random, chassis, to_awaiting);
        chassis.pool.push(message);
    }
}

/// The cards and blocks of the cells that await data.
pub(super) fn awaiting_cells(chassis: &Chassis) -> Vec<(u8, u8)> {
    let cards = 0..chassis.cards;
    (0..chassis.blocks)
        .flat_map(|block| cards.clone().map(move |card| (card, block)))
        .filter(|&(card, block)| table::awaits_data(chassis.cell(card, block).state))
        .collect()
}

/// Any message, or one to a cell that awaits data.
fn message(random: &mut Random, chassis: &Chassis, to_awaiting: Option<(u8, u8)>) -> Message {
    let (receiver, block) = to_awaiting.unwrap_or((
        random.byte_below(chassis.cards),
        random.byte_below(chassis.blocks),
    ));
    let is_live = to_awaiting.is_some() && random.percent(LIVE);
    Message {
        sender: card_or_home(random, chassis.cards),
        receiver,
        block,
        value: value(random),
        number: if is_live {
            chassis.cell(receiver, block).awaited
        } else {
            given_number(random, chassis.last_order)
        },
    }
}
