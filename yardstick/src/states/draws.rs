//! Numbers for states, with their extremes drawn often.

use crate::chassis::{card_bit, Mask, OrderNumber, HOME};
use crate::random::Random;

/// Percent of owners and senders that are home.
const FROM_HOME: u32 = 35;

/// Percent of cards that are in a mask, a mask with each of these as often.
const IN_A_MASK: [u32; 5] = [0, 25, 50, 75, 100];

/// How far a number near an extreme is from it at most.
const NEAR: u64 = 3;

/// One of the options, each as often.
pub(super) fn one_of<T: Copy, const OPTIONS: usize>(
    random: &mut Random,
    options: [T; OPTIONS],
) -> T {
    options[random.place(OPTIONS)]
}

/// A number of cards or blocks, from 1 to the most.
pub(super) fn size(random: &mut Random, most: usize) -> u8 {
    let most = most as u8;
    match random.below(4) {
        0 => 1,
        1 => most,
        _ => random.byte_between(1, most),
    }
}

/// How many places of a room are in use.
pub(super) fn count(random: &mut Random, room: usize) -> usize {
    match random.below(6) {
        0 => 0,
        1 => 1,
        2 => room - 1,
        3 => room,
        _ => random.place(room + 1),
    }
}

/// The last order number given. 0 is the one before the first.
pub(super) fn last_number(random: &mut Random) -> OrderNumber {
    let near = random.bits() % NEAR;
    OrderNumber(match random.below(6) {
        0 => near,
        1 => u64::MAX - near,
        2 => u64::MAX,
        3 => u64::from(u32::MAX) + near,
        4 => random.bits() >> random.below(u64::BITS),
        _ => random.bits(),
    })
}

/// A number that has been given; 0 if none has.
pub(super) fn given_number(random: &mut Random, last: OrderNumber) -> OrderNumber {
    if last == OrderNumber(0) {
        return last;
    }
    OrderNumber(match random.below(4) {
        0 => 1,
        1 => last.0,
        2 => last.0 - random.bits() % last.0.min(NEAR),
        _ => 1 + random.bits() % last.0,
    })
}

/// A block's value.
pub(super) fn value(random: &mut Random) -> u32 {
    match random.below(6) {
        0 => 0,
        1 => 1,
        2 => u32::MAX,
        3 => 1 << random.below(u32::BITS),
        _ => random.word(),
    }
}

/// A mask of cards below a limit: none, some or all.
pub(super) fn mask(random: &mut Random, cards: u8) -> Mask {
    let percent = one_of(random, IN_A_MASK);
    (0..cards)
        .filter(|_| random.percent(percent))
        .fold(0, |mask, card| mask | card_bit(card))
}

/// A card or home.
pub(super) fn card_or_home(random: &mut Random, cards: u8) -> u8 {
    if random.percent(FROM_HOME) {
        HOME
    } else {
        random.byte_below(cards)
    }
}
