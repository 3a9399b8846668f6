//! What stretches of a journal are like: which events come how often.

use crate::table::{GETS, GETX, PUTX};

/// An event to be made, its arguments still open.
#[derive(Clone, Copy, PartialEq, Eq, Debug)]
pub enum Choice {
    Load,
    Store,
    Ask,
    Drop,
    Order,
    Deliver,
    Copy,
    Rejoin,
}

/// The sizes that a character needs.
#[derive(Clone, Copy, PartialEq, Eq, Debug)]
pub enum Sizes {
    /// Any, small ones more often.
    Any,
    /// At least two cards and few blocks.
    Crowded,
    /// More cells than the line has room for.
    Wide,
}

/// What a stretch of a journal is like. Lists of weights name what is used.
pub struct Character {
    pub events: &'static [(Choice, u32)],
    pub kinds: &'static [(u8, u32)],
    /// Percent of asks with a mask that would suffice if ordered at once.
    pub sufficing: u32,
    /// Percent of deliveries that are of a message still awaited.
    pub live: u32,
    /// Percent of events that are made without a look at the state.
    pub blind: u32,
    /// Chosen cells are in the blocks below this number.
    pub busy_blocks: u8,
    pub sizes: Sizes,
}

/// Several cards after one or two blocks.
pub const CONTENTION: Character = Character {
    events: &[
        (Choice::Load, 15),
        (Choice::Store, 12),
        (Choice::Drop, 2),
        (Choice::Ask, 30),
        (Choice::Order, 25),
        (Choice::Deliver, 22),
        (Choice::Copy, 1),
    ],
    kinds: &[(GETS, 4), (GETX, 4), (PUTX, 1)],
    sufficing: 60,
    live: 60,
    blind: 4,
    busy_blocks: 2,
    sizes: Sizes::Crowded,
};

/// Cards that rejoin while data is on its way, and old messages after that.
pub const REJOINS: Character = Character {
    events: &[
        (Choice::Load, 10),
        (Choice::Store, 10),
        (Choice::Ask, 25),
        (Choice::Order, 25),
        (Choice::Deliver, 14),
        (Choice::Copy, 6),
        (Choice::Rejoin, 10),
    ],
    kinds: &[(GETS, 3), (GETX, 5), (PUTX, 2)],
    sufficing: 85,
    live: 30,
    blind: 3,
    busy_blocks: 5,
    sizes: Sizes::Any,
};

/// Copies until the pool is full, then more orders and copies.
pub const FULL_POOL: Character = Character {
    events: &[
        (Choice::Load, 2),
        (Choice::Store, 3),
        (Choice::Ask, 20),
        (Choice::Order, 25),
        (Choice::Deliver, 15),
        (Choice::Copy, 35),
    ],
    kinds: &[(GETS, 4), (GETX, 6), (PUTX, 1)],
    sufficing: 15,
    live: 80,
    blind: 3,
    busy_blocks: 3,
    sizes: Sizes::Crowded,
};

/// Asks until the line is full, then more asks.
pub const FULL_LINE: Character = Character {
    events: &[
        (Choice::Load, 2),
        (Choice::Ask, 90),
        (Choice::Order, 6),
        (Choice::Deliver, 6),
    ],
    kinds: &[(GETS, 5), (GETX, 5), (PUTX, 3)],
    sufficing: 50,
    live: 50,
    blind: 3,
    busy_blocks: u8::MAX,
    sizes: Sizes::Wide,
};

/// Loads and stores that mostly hit.
pub const HITS: Character = Character {
    events: &[
        (Choice::Load, 45),
        (Choice::Store, 25),
        (Choice::Drop, 3),
        (Choice::Ask, 12),
        (Choice::Order, 12),
        (Choice::Deliver, 12),
    ],
    kinds: &[(GETS, 4), (GETX, 4), (PUTX, 1)],
    sufficing: 90,
    live: 50,
    blind: 2,
    busy_blocks: u8::MAX,
    sizes: Sizes::Any,
};

/// Masks that do not suffice, up to the last retry.
pub const SMALL_MASKS: Character = Character {
    events: &[
        (Choice::Load, 5),
        (Choice::Store, 5),
        (Choice::Ask, 40),
        (Choice::Order, 35),
        (Choice::Deliver, 30),
        (Choice::Copy, 1),
    ],
    kinds: &[(GETS, 4), (GETX, 8), (PUTX, 1)],
    sufficing: 5,
    live: 70,
    blind: 2,
    busy_blocks: 1,
    sizes: Sizes::Crowded,
};

/// Copies that are put back, in time and too late.
pub const PUTS: Character = Character {
    events: &[
        (Choice::Load, 6),
        (Choice::Store, 14),
        (Choice::Ask, 30),
        (Choice::Order, 22),
        (Choice::Deliver, 22),
        (Choice::Rejoin, 1),
    ],
    kinds: &[(GETS, 2), (GETX, 4), (PUTX, 8)],
    sufficing: 80,
    live: 60,
    blind: 3,
    busy_blocks: 2,
    sizes: Sizes::Crowded,
};

/// Owners that are asked for copies, then want to store again or put the block
/// back, and events that an owned copy gives no right to.
pub const OWNERS: Character = Character {
    events: &[
        (Choice::Load, 12),
        (Choice::Store, 8),
        (Choice::Drop, 2),
        (Choice::Ask, 30),
        (Choice::Order, 24),
        (Choice::Deliver, 22),
        (Choice::Rejoin, 2),
    ],
    kinds: &[(GETS, 8), (GETX, 4), (PUTX, 2)],
    sufficing: 80,
    live: 80,
    blind: 15,
    busy_blocks: 1,
    sizes: Sizes::Crowded,
};

/// Events made without a look at the state.
pub const BLIND: Character = Character {
    events: &[],
    kinds: &[],
    sufficing: 0,
    live: 0,
    blind: 100,
    busy_blocks: 0,
    sizes: Sizes::Any,
};

/// The characters with their weights in a journal.
pub const CHARACTERS: [(&Character, u32); 9] = [
    (&CONTENTION, 5),
    (&REJOINS, 4),
    (&FULL_POOL, 3),
    (&FULL_LINE, 2),
    (&HITS, 4),
    (&SMALL_MASKS, 4),
    (&PUTS, 3),
    (&OWNERS, 3),
    (&BLIND, 1),
];
