//! The head of the line made to fit its block: drawn by itself it is nearly
//! always impossible (13) or of a held block (9).

use super::draws::{card_or_home, one_of};
use super::fabricate::cell;
use crate::chassis::{card_bit, Chassis, Request, CELL_AT_START, HOME, LAST_RETRY};
use crate::random::Random;
use crate::table::{self, GETS, GETX, II_A, IM_AD, IS_AD, M, MI_A, O, OI_A, OM_AD, SM_AD};

/// Percent of each thing that is made to fit. One that does not is what is
/// wrong alone.
const FITS: u32 = 85;

/// Makes the block of the head not held, and its asker, its owner and its mask
/// such as an order needs, each of them mostly.
pub(super) fn aim(random: &mut Random, chassis: &mut Chassis) {
    let Some(head) = chassis.head() else {
        return;
    };
    for step in [free_block, move_asker, place_owner, widen_mask] {
        if random.percent(FITS) {
            step(random, chassis, &head);
        }
    }
}

/// No card awaits data of the head's block.
fn free_block(_: &mut Random, chassis: &mut Chassis, head: &Request) {
    for cell in &mut chassis.cells[usize::from(head.block)] {
        if table::awaits_data(cell.state) {
            *cell = CELL_AT_START;
        }
    }
}

/// The asker is in a state that the head comes from.
fn move_asker(random: &mut Random, chassis: &mut Chassis, head: &Request) {
    let states: &[u8] = match head.kind {
        GETS => &[IS_AD],
        GETX => &[IM_AD, SM_AD, OM_AD],
        _ => &[MI_A, II_A, OI_A],
    };
    move_cell(random, chassis, (head.card, head.block), states);
}

/// A card's cell for a block is in one of the states that the edition has.
fn move_cell(random: &mut Random, chassis: &mut Chassis, (card, block): (u8, u8), states: &[u8]) {
    let edition = chassis.edition;
    let fitting = || {
        states
            .iter()
            .filter(|state| table::has_state(edition, **state))
    };
    let chosen = random.place(fitting().count());
    if let Some(state) = fitting().nth(chosen) {
        *chassis.cell_mut(card, block) = cell(random, *state, chassis.last_order);
    }
}

/// The owner can give the block away, or a put stands or lapses by it.
fn place_owner(random: &mut Random, chassis: &mut Chassis, head: &Request) {
    let drawn = card_or_home(random, chassis.cards);
    let other = if drawn == head.card { HOME } else { drawn };
    let is_get = matches!(head.kind, GETS | GETX);
    if is_get && other != HOME {
        move_cell(
            random,
            chassis,
            (other, head.block),
            &[M, MI_A, O, OM_AD, OI_A],
        );
    }
    let asker = chassis.cell(head.card, head.block).state;
    let stays = match head.kind {
        GETS => false,
        GETX => asker == OM_AD,
        _ => matches!(asker, MI_A | OI_A),
    };
    chassis.home[usize::from(head.block)].owner = if stays { head.card } else { other };
}

/// The mask has all that is needed, or all but one card, or is as drawn.
fn widen_mask(random: &mut Random, chassis: &mut Chassis, head: &Request) {
    if head.retry == LAST_RETRY {
        return;
    }
    let needed = chassis.holders(head.block);
    let owner = chassis.owner(head.block);
    let sharer = pick_sharer(random, chassis, head.block).unwrap_or(owner);
    let one = card_bit(one_of(random, [owner, sharer]));
    let masks = [head.mask | needed, needed & !one, head.mask];
    chassis.line.places[0].mask = one_of(random, masks);
}

/// One of a block's sharers beside its owner, if there is one.
fn pick_sharer(random: &mut Random, chassis: &Chassis, block: u8) -> Option<u8> {
    let sharers = chassis.home[usize::from(block)].sharers & !card_bit(chassis.owner(block));
    let listed = || (0..chassis.cards).filter(|card| sharers & card_bit(*card) != 0);
    listed().nth(random.place(listed().count()))
}
