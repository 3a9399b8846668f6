//! Owned copies: what the MOSI edition does, state by state, and what of it
//! MSI does not.

use crate::chassis::{Cell, Chassis, HomeBlock, Message, OrderNumber, Request, Retry, HOME};
use crate::edition::{Edition, EDITIONS};
use crate::events::Ordered;
use crate::refusal::Refusal;
use crate::table::{
    self, GETS, GETX, I, II_A, IM_AD, IS_AD, IS_D, M, MI_A, O, OI_A, OM_AD, PUTX, S, SM_AD, SM_D,
    STATES,
};

/// What the owner's copy has, and what memory has, if they differ.
const OWNED: u32 = 7;
const OLD: u32 = 5;

/// A chassis of 4 cards and a block: each card in a state, an owner, sharers,
/// and a head with its mask. The owner's value is not memory's.
fn made(
    edition: Edition,
    states: [u8; 4],
    (owner, sharers): (u8, u8),
    (card, kind, mask): (u8, u8, u8),
) -> Chassis {
    let mut chassis = Chassis::start(edition, 4, 1).expect("the sizes fit");
    for (card, state) in (0u8..).zip(states) {
        *chassis.cell_mut(card, 0) = Cell {
            state,
            value: if table::row(state).load { OWNED } else { 0 },
            awaited: OrderNumber(0),
        };
    }
    chassis.home[0] = HomeBlock {
        memory: OLD,
        owner,
        sharers,
    };
    chassis.line.push(Request {
        card,
        block: 0,
        kind,
        mask,
        retry: Retry(0),
    });
    assert!(chassis.well_formed());
    chassis
}

/// The states of the cells of block 0.
fn states(chassis: &Chassis) -> Vec<u8> {
    chassis.cells_of(0).iter().map(|cell| cell.state).collect()
}

/// The sender and the value of the last message.
fn sent(chassis: &Chassis) -> Option<(u8, u32)> {
    let last = chassis.pool.items().last();
    last.map(|message: &Message| (message.sender, message.value))
}

/// The rows of the table that owned copies add: load, store, asks, and what a
/// seen request does.
#[test]
fn the_rows_of_owned_copies() {
    for (state, getx, putx, seen) in [
        (O, Some(OM_AD), Some(OI_A), I),
        (OM_AD, None, None, IM_AD),
        (OI_A, None, None, II_A),
    ] {
        let row = table::row(state);
        assert_eq!((row.load, row.store), (true, false));
        assert_eq!(
            [GETS, GETX, PUTX].map(|kind| row.ask(kind)),
            [None, getx, putx]
        );
        assert_eq!(row.sees_getx, Some(seen));
    }
    assert_eq!((O, OM_AD, OI_A, STATES), (11, 12, 13, 14));
}

/// Only M and MI_A move at a GETS, each to another state by the edition.
#[test]
fn only_two_moves_are_by_the_edition() {
    for state in 0..STATES as u8 {
        let moves = EDITIONS.map(|edition| table::row(state).sees_gets_as_owner(edition));
        let due = match state {
            M => [Some(S), Some(O)],
            MI_A => [Some(II_A), Some(OI_A)],
            _ => [None, None],
        };
        assert_eq!(moves, due, "state {state}");
    }
}

/// The owner keeps the block, memory gets its value, and nobody but the asker
/// joins the sharers.
#[test]
fn a_gets_leaves_the_block_with_its_owner() {
    for (state, after) in [(M, O), (MI_A, OI_A), (O, O), (OM_AD, OM_AD), (OI_A, OI_A)] {
        let (cells, head) = ([state, IS_AD, S, I], (1, GETS, 0b0001));
        let mut chassis = made(Edition::Mosi, cells, (0, 0b0100), head);
        assert_eq!(chassis.order(), Ok(Ordered::Granted));
        assert_eq!(states(&chassis), [after, IS_D, S, I]);
        assert_eq!(chassis.cell(0, 0).value, OWNED);
        let kept = HomeBlock {
            memory: OWNED,
            owner: 0,
            sharers: 0b0110,
        };
        assert_eq!(chassis.home[0], kept);
        assert_eq!(sent(&chassis), Some((0, OWNED)));
    }
}

/// In MSI home takes the block, and the old sharers are forgotten.
#[test]
fn a_gets_takes_the_block_home_in_msi() {
    for (state, after) in [(M, S), (MI_A, II_A)] {
        let (cells, head) = ([state, IS_AD, S, I], (1, GETS, 0b0001));
        let mut chassis = made(Edition::Msi, cells, (0, 0b0100), head);
        assert_eq!(chassis.order(), Ok(Ordered::Granted));
        assert_eq!(states(&chassis), [after, IS_D, S, I]);
        let home = chassis.home[0];
        assert_eq!((home.owner, home.sharers), (HOME, 0b0011));
    }
}

/// A GETS needs the owner in its mask, whatever state it owns in.
#[test]
fn a_gets_without_the_owner_in_its_mask_goes_back() {
    for state in [M, MI_A, O, OM_AD, OI_A] {
        let (cells, head) = ([state, IS_AD, S, I], (1, GETS, 0b1110));
        let mut chassis = made(Edition::Mosi, cells, (0, 0b0100), head);
        assert_eq!(chassis.order(), Ok(Ordered::MaskTooSmall));
        assert_eq!(states(&chassis), [state, IS_AD, S, I]);
        assert_eq!(chassis.head().map(|head| head.mask), Some(0b0101));
    }
}

#[test]
fn anothers_getx_ends_an_owned_copy() {
    for (state, after) in [(O, I), (OM_AD, IM_AD), (OI_A, II_A)] {
        let (cells, head) = ([state, IM_AD, S, SM_AD], (1, GETX, 0b1101));
        let mut chassis = made(Edition::Mosi, cells, (0, 0b1100), head);
        assert_eq!(chassis.order(), Ok(Ordered::Granted));
        assert_eq!(states(&chassis)[0], after);
        assert_eq!(states(&chassis)[2..], [I, IM_AD]);
        let home = chassis.home[0];
        assert_eq!((home.memory, home.owner, home.sharers), (OWNED, 1, 0));
        assert_eq!(sent(&chassis), Some((0, OWNED)));
    }
}

/// One that misses a sharer moves those in S and SM_AD that it names, and no
/// owner.
#[test]
fn a_getx_not_granted_moves_no_owner() {
    for state in [O, OM_AD, OI_A] {
        let (cells, head) = ([state, IM_AD, S, SM_AD], (1, GETX, 0b1001));
        let mut chassis = made(Edition::Mosi, cells, (0, 0b1100), head);
        assert_eq!(chassis.order(), Ok(Ordered::MaskTooSmall));
        assert_eq!(states(&chassis), [state, IM_AD, S, IM_AD]);
        assert_eq!(chassis.home[0].memory, OLD);
        assert_eq!(chassis.head().map(|head| head.mask), Some(0b1101));
    }
}

/// Only the owner moves: a card in the mask that is in O and owns nothing, in
/// a state that no event makes, stays.
#[test]
fn a_getx_moves_no_card_in_o_that_owns_nothing() {
    for state in [O, OM_AD, OI_A, M, MI_A] {
        let (cells, head) = ([state, IM_AD, I, I], (1, GETX, 0b0001));
        let mut chassis = made(Edition::Mosi, cells, (HOME, 0), head);
        assert_eq!(chassis.order(), Ok(Ordered::Granted));
        assert_eq!(states(&chassis)[0], state);
        assert_eq!(sent(&chassis), Some((HOME, OLD)));
    }
}

/// An upgrade's data is memory's, and home sends it: its asker need not be in
/// its own mask.
#[test]
fn an_upgrade_is_granted_by_home() {
    for mask in [0b1100, 0b1101] {
        let (cells, head) = ([OM_AD, I, S, SM_AD], (0, GETX, mask));
        let mut chassis = made(Edition::Mosi, cells, (0, 0b1100), head);
        assert_eq!(chassis.order(), Ok(Ordered::Granted));
        assert_eq!(states(&chassis), [SM_D, I, I, IM_AD]);
        assert_eq!(chassis.cell(0, 0).value, OWNED);
        assert_eq!(chassis.cell(0, 0).awaited, chassis.last_order);
        let home = chassis.home[0];
        assert_eq!((home.memory, home.owner, home.sharers), (OLD, 0, 0));
        assert_eq!(sent(&chassis), Some((HOME, OLD)));
    }
}

/// The owner is in the mask that home makes, as the paper has it.
#[test]
fn an_upgrade_that_misses_a_sharer_goes_back() {
    let (cells, head) = ([OM_AD, I, S, S], (0, GETX, 0b1001));
    let mut chassis = made(Edition::Mosi, cells, (0, 0b1100), head);
    assert_eq!(chassis.order(), Ok(Ordered::MaskTooSmall));
    assert_eq!(states(&chassis), [OM_AD, I, S, I]);
    let head = chassis.head().expect("it came back");
    assert_eq!((head.retry, head.mask), (Retry(1), 0b1101));
    assert_eq!(chassis.order(), Ok(Ordered::Granted));
    assert_eq!(states(&chassis), [SM_D, I, I, I]);
}

#[test]
fn a_put_of_an_owned_copy_leaves_the_sharers() {
    for (state, sharers) in [(OI_A, 0b0110), (MI_A, 0)] {
        let (cells, head) = ([state, S, S, I], (0, PUTX, 0));
        let mut chassis = made(Edition::Mosi, cells, (0, 0b0110), head);
        assert_eq!(chassis.order(), Ok(Ordered::PutTaken));
        assert_eq!(states(&chassis), [I, S, S, I]);
        let given_back = HomeBlock {
            memory: OWNED,
            owner: HOME,
            sharers,
        };
        assert_eq!(chassis.home[0], given_back);
    }
}

#[test]
fn a_rejoin_of_an_owner_leaves_the_other_sharers() {
    for state in [O, OM_AD, OI_A] {
        let (cells, head) = ([state, S, S, IS_AD], (3, GETS, 0b0001));
        let mut chassis = made(Edition::Mosi, cells, (0, 0b0111), head);
        assert_eq!(chassis.rejoin(0), Ok(()));
        assert_eq!(states(&chassis), [I, S, S, IS_AD]);
        let home = chassis.home[0];
        assert_eq!((home.memory, home.owner, home.sharers), (OLD, HOME, 0b0110));
    }
}

#[test]
fn an_owned_copy_is_loaded_but_neither_stored_nor_dropped() {
    for state in [O, OM_AD, OI_A] {
        let (cells, head) = ([state, IS_AD, I, I], (1, GETS, 0b0001));
        let mut chassis = made(Edition::Mosi, cells, (0, 0), head);
        assert_eq!(chassis.load(0, 0), Ok(OWNED));
        assert_eq!(chassis.store(0, 0, 1), Err(Refusal::NoRight));
        assert_eq!(chassis.drop_copy(0, 0), Err(Refusal::NoRight));
        assert_eq!(chassis.ask(0, 0, GETS, 0), Err(Refusal::AskNotAllowed));
        assert_eq!(chassis.cell(0, 0).value, OWNED);
    }
}

/// What Order of card 0's request says with card 1 in a state, or with home,
/// as the owner.
fn answer(kind: u8, asker: u8, owner: u8, other: u8) -> Result<Ordered, Refusal> {
    let cells = [asker, other, I, I];
    made(Edition::Mosi, cells, (owner, 0), (0, kind, 0b0010)).order()
}

/// Refusal 13, as owned copies amend it: an upgrade and a put from OI_A only
/// with the asker as owner, and no other request of an owner.
#[test]
fn what_does_not_fit_the_owner_is_13() {
    for (kind, asker) in [(GETX, OM_AD), (PUTX, OI_A)] {
        for (owner, other) in [(HOME, I), (1, M), (1, O), (1, S)] {
            assert_eq!(answer(kind, asker, owner, other), Err(Refusal::Impossible));
        }
        assert!(answer(kind, asker, 0, I).is_ok());
    }
    for (kind, asker) in [(GETS, IS_AD), (GETX, IM_AD), (GETX, SM_AD), (PUTX, II_A)] {
        assert_eq!(answer(kind, asker, 0, I), Err(Refusal::Impossible));
    }
    for (kind, asker) in [
        (GETS, OM_AD),
        (GETX, OI_A),
        (PUTX, OM_AD),
        (GETX, O),
        (PUTX, O),
    ] {
        assert_eq!(answer(kind, asker, 0, I), Err(Refusal::Impossible));
    }
}

/// The owner gives from 2, 9, 11, 12 and 13, and from no other state.
#[test]
fn the_states_that_an_owner_gives_from() {
    for state in (0..STATES as u8).filter(|state| !table::awaits_data(*state)) {
        let gives = [2, 9, 11, 12, 13].contains(&state);
        for (kind, asker) in [(GETS, IS_AD), (GETX, IM_AD), (GETX, SM_AD)] {
            let answer = answer(kind, asker, 1, state);
            let due = if gives {
                Ok(Ordered::Granted)
            } else {
                Err(Refusal::Impossible)
            };
            assert_eq!(answer, due, "state {state}");
        }
    }
}
