//! Refusals of Order and Ask that need a state made for them, and their order.

use super::busy_chassis;
use crate::chassis::{Chassis, OrderNumber, HOME, HOME_BLOCK_AT_START, LINE_ROOM};
use crate::edition::Edition;
use crate::events::{Delivered, Event, Ordered};
use crate::refusal::Refusal;
use crate::table::{GETS, GETX, I, II_A, IM_AD, IM_D, M, MI_A, PUTX, S, SM_AD, SM_D};

/// A chassis whose only request is card 0's GETX for the only block.
fn asked() -> Chassis {
    let mut chassis = Chassis::start(Edition::Msi, 2, 1).expect("the sizes fit");
    assert_eq!(chassis.ask(0, 0, GETX, 3), Ok(()));
    chassis
}

/// What Order refuses with; the state is kept.
fn refused(mut chassis: Chassis) -> Option<Refusal> {
    let before = chassis.clone();
    let refusal = chassis.order().err();
    assert!(refusal.is_none() || chassis == before);
    refusal
}

#[test]
fn the_65th_waiting_ask_is_7() {
    let mut chassis = Chassis::start(Edition::Msi, 3, 32).expect("the sizes fit");
    for number in 0..LINE_ROOM as u8 {
        assert_eq!(chassis.ask(number / 32, number % 32, GETX, 0), Ok(()));
    }
    let before = chassis.clone();
    assert_eq!(chassis.ask(2, 0, GETX, 0), Err(Refusal::LineFull));
    assert_eq!(chassis.ask(2, 0, PUTX, 0), Err(Refusal::AskNotAllowed));
    assert_eq!(chassis, before);
}

#[test]
fn order_number_2_64_less_1_is_the_last() {
    let mut chassis = asked();
    chassis.last_order = OrderNumber(u64::MAX - 1);
    assert_eq!(chassis.order(), Ok(Ordered::Granted));
    assert_eq!(chassis.last_order, OrderNumber(u64::MAX));
    assert_eq!(chassis.cell(0, 0).awaited, OrderNumber(u64::MAX));
    assert_eq!(chassis.order(), Err(Refusal::LineEmpty));
    assert_eq!(chassis.ask(1, 0, GETS, 0), Ok(()));
    // 12 comes before 9.
    assert_eq!(refused(chassis), Some(Refusal::OrderNumbersSpent));
}

#[test]
fn a_request_from_a_state_that_does_not_fit_is_13() {
    for (kind, states) in [(GETS, [I, IM_AD]), (GETX, [I, S]), (PUTX, [I, M])] {
        for state in states {
            let mut chassis = asked();
            chassis.line.places[0].kind = kind;
            chassis.cell_mut(0, 0).state = state;
            assert_eq!(refused(chassis), Some(Refusal::Impossible));
        }
    }
}

#[test]
fn an_owner_that_does_not_fit_is_13() {
    for (kind, state, owner) in [
        (GETX, IM_AD, 0),
        (GETX, SM_AD, 1),
        (PUTX, MI_A, 1),
        (PUTX, MI_A, HOME),
        (PUTX, II_A, 0),
    ] {
        let mut chassis = asked();
        chassis.line.places[0].kind = kind;
        chassis.cell_mut(0, 0).state = state;
        chassis.home[0].owner = owner;
        assert_eq!(refused(chassis), Some(Refusal::Impossible));
    }
}

#[test]
fn nine_comes_before_13_and_13_before_10() {
    let mut chassis = asked();
    chassis.home[0].owner = 1;
    chassis.pool.count = chassis.pool.places.len();
    assert_eq!(refused(chassis.clone()), Some(Refusal::Impossible));
    chassis.cell_mut(1, 0).state = IM_D;
    assert_eq!(refused(chassis.clone()), Some(Refusal::BlockHeld));
    chassis.cell_mut(1, 0).state = M;
    assert_eq!(refused(chassis.clone()), Some(Refusal::PoolFull));
    // A mask that is too small does not help.
    chassis.line.places[0].mask = 0;
    assert_eq!(refused(chassis), Some(Refusal::PoolFull));
}

#[test]
fn a_rejoin_takes_what_is_the_cards_and_no_more() {
    let before = busy_chassis();
    let mut chassis = before.clone();
    assert_eq!(chassis.apply(Event::Rejoin { card: 1 }), Ok(0));
    assert_eq!(chassis.line.count(), 0);
    assert!(chassis.well_formed());
    assert_eq!(chassis.apply(Event::Rejoin { card: 2 }), Ok(0));
    assert_eq!(chassis.home[1], HOME_BLOCK_AT_START);
    assert_eq!(chassis.home[0], before.home[0]);
    assert_eq!(chassis.pool, before.pool);
    assert_eq!(chassis.last_order, before.last_order);
    assert!(chassis.well_formed());
}

#[test]
fn a_rejoin_leaves_the_sharers() {
    let mut chassis = Chassis::start(Edition::Msi, 2, 1).expect("the sizes fit");
    for card in 0..2 {
        assert_eq!(chassis.ask(card, 0, GETS, 0), Ok(()));
        assert_eq!(chassis.order(), Ok(Ordered::Granted));
        assert_eq!(chassis.deliver(0), Ok(Delivered::Taken));
    }
    assert_eq!(chassis.home[0].sharers, 0b11);
    assert_eq!(chassis.rejoin(0), Ok(()));
    assert_eq!(chassis.home[0].sharers, 0b10);
    // A drop is not told to home.
    assert_eq!(chassis.drop_copy(1, 0), Ok(()));
    assert_eq!(chassis.home[0].sharers, 0b10);
}

#[test]
fn an_asker_in_its_own_mask_keeps_its_copy() {
    let mut chassis = Chassis::start(Edition::Msi, 1, 1).expect("the sizes fit");
    assert_eq!(chassis.ask(0, 0, GETS, 0), Ok(()));
    assert_eq!(chassis.order(), Ok(Ordered::Granted));
    assert_eq!(chassis.deliver(0), Ok(Delivered::Taken));
    assert_eq!(chassis.ask(0, 0, GETX, 1), Ok(()));
    assert_eq!(chassis.order(), Ok(Ordered::Granted));
    assert_eq!(chassis.cell(0, 0).state, SM_D);
    assert_eq!(chassis.load(0, 0), Ok(0));
    assert_eq!(chassis.store(0, 0, 1), Err(Refusal::NoRight));
}
