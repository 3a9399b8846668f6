//! Damage planted in a state is seen, clause by clause.

use std::collections::BTreeSet;

use super::busy_chassis;
use crate::chassis::{Chassis, OrderNumber, Retry, HOME};
use crate::edition::Edition;
use crate::formed::clause_names;

/// Damage to `busy_chassis`, with the clause that sees it, and no other does.
type Planted = (&'static str, fn(&mut Chassis));

/// A number that `busy_chassis` has not given.
const NOT_GIVEN: OrderNumber = OrderNumber(4);

#[rustfmt::skip]
const RANGES: [Planted; 23] = [
    ("number of cards", |chassis| chassis.cards = 0),
    ("number of cards", |chassis| chassis.cards = 9),
    ("number of blocks", |chassis| chassis.blocks = 0),
    ("number of blocks", |chassis| chassis.blocks = 33),
    ("count of the line", |chassis| chassis.line.count = 65),
    ("count of the pool", |chassis| chassis.pool.count = 65),
    ("code of a state", |chassis| chassis.cells[0][1].state = 14),
    ("state of MOSI in MSI", |chassis| chassis.cells[0][0].state = 11),
    ("state of MOSI in MSI", |chassis| chassis.cells[0][0].state = 12),
    ("state of MOSI in MSI", |chassis| chassis.cells[0][0].state = 13),
    ("code of a kind", |chassis| chassis.line.places[0].kind = 0),
    ("code of a kind", |chassis| chassis.line.places[0].kind = 4),
    ("card that owns", |chassis| chassis.home[0].owner = 3),
    ("card that asks", |chassis| chassis.line.places[0].card = 3),
    ("card that sends", |chassis| chassis.pool.places[0].sender = 3),
    ("card that receives", |chassis| chassis.pool.places[0].receiver = 3),
    ("card that receives", |chassis| chassis.pool.places[0].receiver = HOME),
    ("block of a request", |chassis| chassis.line.places[0].block = 2),
    ("block of a message", |chassis| chassis.pool.places[0].block = 2),
    ("mask of sharers", |chassis| chassis.home[0].sharers = 8),
    ("mask of a request", |chassis| chassis.line.places[0].mask = 8),
    ("retry", |chassis| chassis.line.places[0].retry = Retry(4)),
    ("last retry's mask", |chassis| chassis.line.places[0].retry = Retry(3)),
];

#[rustfmt::skip]
const NUMBERS_AND_CELLS: [Planted; 7] = [
    ("awaited, not given", |chassis| chassis.cells[1][2].awaited = NOT_GIVEN),
    ("sent, not given", |chassis| chassis.pool.places[0].number = NOT_GIVEN),
    ("sent number 0", |chassis| chassis.pool.places[0].number = OrderNumber(0)),
    ("awaited number 0", |chassis| chassis.cells[1][2].awaited = OrderNumber(0)),
    ("value without Load", |chassis| chassis.cells[1][0].value = 1),
    ("value without Load", |chassis| chassis.cells[1][2].value = 1),
    ("awaited, not due", |chassis| chassis.cells[0][0].awaited = OrderNumber(1)),
];

#[rustfmt::skip]
const UNUSED: [Planted; 10] = [
    ("unused cell", |chassis| chassis.cells[0][3].state = 1),
    ("unused block's cell", |chassis| chassis.cells[2][0].value = 1),
    ("unused block's cell", |chassis| chassis.cells[31][7].awaited = OrderNumber(1)),
    ("unused block", |chassis| chassis.home[2].memory = 1),
    ("unused block", |chassis| chassis.home[31].owner = 0),
    ("unused block", |chassis| chassis.home[2].sharers = 1),
    ("unused line place", |chassis| chassis.line.places[1].mask = 1),
    ("unused line place", |chassis| chassis.line.places[63].retry = Retry(1)),
    ("unused pool place", |chassis| chassis.pool.places[1].sender = HOME),
    ("unused pool place", |chassis| chassis.pool.places[63].value = 1),
];

#[test]
fn planted_damage_is_seen() {
    assert!(busy_chassis().well_formed());
    assert!(busy_chassis().broken_clauses().is_empty());
    let mut planted = BTreeSet::new();
    for (clause, plant) in RANGES.iter().chain(&NUMBERS_AND_CELLS).chain(&UNUSED) {
        let mut chassis = busy_chassis();
        plant(&mut chassis);
        assert!(!chassis.well_formed(), "{clause}");
        assert_eq!(chassis.broken_clauses(), [*clause]);
        planted.insert(*clause);
    }
    assert_eq!(planted, clause_names().collect());
}

/// States 11 to 13 are well formed in MOSI, and no state above them is.
#[test]
fn the_states_of_mosi_are_well_formed_in_mosi() {
    for (state, is_well_formed) in [(11, true), (12, true), (13, true), (14, false)] {
        let mut chassis = busy_chassis();
        chassis.cells[0][0].state = state;
        assert!(!chassis.well_formed(), "{state}");
        chassis.edition = Edition::Mosi;
        assert_eq!(chassis.well_formed(), is_well_formed, "{state}");
    }
}

/// The number that card 2 awaits, and its message has, is above it.
#[test]
fn a_last_number_below_the_given_is_seen() {
    let mut chassis = busy_chassis();
    chassis.last_order = OrderNumber(2);
    assert!(!chassis.well_formed());
    assert_eq!(
        chassis.broken_clauses(),
        ["awaited, not given", "sent, not given"]
    );
}

#[test]
fn the_last_retry_with_every_card_is_well_formed() {
    let mut chassis = busy_chassis();
    chassis.line.places[0].retry = Retry(3);
    chassis.line.places[0].mask = 0b111;
    assert!(chassis.well_formed());
}
