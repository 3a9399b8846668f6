//! The state of one chassis: cells, home, line, pool and the last order number.

use crate::edition::Edition;
use crate::queue::Queue;
use crate::refusal::Refusal;
use crate::table::{self, I};

/// The most cards and blocks that a chassis has.
pub const MAX_CARDS: usize = 8;
pub const MAX_BLOCKS: usize = 32;

/// A set of cards: bit k is card k.
pub type Mask = u8;

/// The room of the line and of the pool.
pub const LINE_ROOM: usize = 64;
pub const POOL_ROOM: usize = 64;

/// Home, written where a card number would stand.
pub const HOME: u8 = 255;

/// The retry that asks every card.
pub const LAST_RETRY: Retry = Retry(3);

/// The number that an accepted Order takes. 0 stands for none.
#[derive(Clone, Copy, PartialEq, Eq, PartialOrd, Ord, Debug, Default)]
pub struct OrderNumber(pub u64);

impl OrderNumber {
    /// The number after this one; none after 2^64 - 1.
    pub fn next(self) -> Option<OrderNumber> {
        self.0.checked_add(1).map(OrderNumber)
    }
}

/// How often a request went back to the line's tail.
#[derive(Clone, Copy, PartialEq, Eq, PartialOrd, Ord, Debug, Default)]
pub struct Retry(pub u8);

impl Retry {
    /// One retry higher.
    pub fn next(self) -> Retry {
        Retry(self.0.saturating_add(1))
    }
}

/// What a card has for a block.
#[derive(Clone, Copy, PartialEq, Eq, Debug)]
pub struct Cell {
    pub state: u8,
    pub value: u32,
    pub awaited: OrderNumber,
}

/// What a card has for a block at the start.
pub const CELL_AT_START: Cell = Cell {
    state: I,
    value: 0,
    awaited: OrderNumber(0),
};

impl Cell {
    /// Moves to a state, awaiting nothing. The value is kept only if the new
    /// state may load it.
    pub(crate) fn go_to(&mut self, state: u8) {
        if !table::row(state).load {
            self.value = 0;
        }
        self.state = state;
        self.awaited = OrderNumber(0);
    }
}

/// What home has for a block.
#[derive(Clone, Copy, PartialEq, Eq, Debug)]
pub struct HomeBlock {
    pub memory: u32,
    pub owner: u8,
    pub sharers: Mask,
}

/// What home has for a block at the start.
pub const HOME_BLOCK_AT_START: HomeBlock = HomeBlock {
    memory: 0,
    owner: HOME,
    sharers: 0,
};

/// A request in the line.
#[derive(Clone, Copy, PartialEq, Eq, Debug, Default)]
pub struct Request {
    pub card: u8,
    pub block: u8,
    pub kind: u8,
    pub mask: Mask,
    pub retry: Retry,
}

/// A data message in the pool.
#[derive(Clone, Copy, PartialEq, Eq, Debug, Default)]
pub struct Message {
    pub sender: u8,
    pub receiver: u8,
    pub block: u8,
    pub value: u32,
    pub number: OrderNumber,
}

/// One chassis. Only this crate sees the fields, so that from outside a
/// chassis comes from `start` and is changed by the events alone.
#[derive(Clone, PartialEq, Eq, Debug)]
pub struct Chassis {
    pub(crate) edition: Edition,
    pub(crate) cards: u8,
    pub(crate) blocks: u8,
    /// By block, then by card: an order looks at all cells of one block.
    pub(crate) cells: [[Cell; MAX_CARDS]; MAX_BLOCKS],
    pub(crate) home: [HomeBlock; MAX_BLOCKS],
    pub(crate) line: Queue<Request, LINE_ROOM>,
    pub(crate) pool: Queue<Message, POOL_ROOM>,
    pub(crate) last_order: OrderNumber,
}

/// The mask with this card's bit alone. Home has no bit.
pub(crate) fn card_bit(card: u8) -> Mask {
    Mask::from(1u8).checked_shl(u32::from(card)).unwrap_or(0)
}

impl Chassis {
    /// The state of 0 cards and 0 blocks, all places unused.
    pub(crate) fn unused() -> Chassis {
        Chassis {
            edition: Edition::default(),
            cards: 0,
            blocks: 0,
            cells: [[CELL_AT_START; MAX_CARDS]; MAX_BLOCKS],
            home: [HOME_BLOCK_AT_START; MAX_BLOCKS],
            line: Queue::empty(),
            pool: Queue::empty(),
            last_order: OrderNumber(0),
        }
    }

    /// **Start**: a chassis with every cell in I and all the rest empty.
    pub fn start(edition: Edition, cards: u8, blocks: u8) -> Result<Chassis, Refusal> {
        if !sizes_fit(cards, blocks) {
            return Err(Refusal::SizeOutOfRange);
        }
        Ok(Chassis {
            edition,
            cards,
            blocks,
            ..Chassis::unused()
        })
    }

    /// The edition.
    pub fn edition(&self) -> Edition {
        self.edition
    }

    /// The number of cards.
    pub fn cards(&self) -> u8 {
        self.cards
    }

    /// The number of blocks.
    pub fn blocks(&self) -> u8 {
        self.blocks
    }

    /// The request at the head of the line, if any.
    pub fn head(&self) -> Option<Request> {
        self.line.get(0)
    }

    /// The mask of every card.
    pub(crate) fn every_card(&self) -> Mask {
        let above = Mask::MAX.checked_shl(u32::from(self.cards)).unwrap_or(0);
        !above
    }

    /// The mask of a block's owner, if a card, and its sharers.
    pub(crate) fn holders(&self, block: u8) -> Mask {
        let home = &self.home[usize::from(block)];
        card_bit(home.owner) | home.sharers
    }

    /// A card's cell for a block.
    pub(crate) fn cell(&self, card: u8, block: u8) -> &Cell {
        &self.cells[usize::from(block)][usize::from(card)]
    }

    /// A card's cell for a block, to be changed.
    pub(crate) fn cell_mut(&mut self, card: u8, block: u8) -> &mut Cell {
        &mut self.cells[usize::from(block)][usize::from(card)]
    }

    /// The cells of a block, of the cards that are there.
    pub(crate) fn cells_of(&self, block: u8) -> &[Cell] {
        &self.cells[usize::from(block)][..usize::from(self.cards)]
    }
}

/// Whether a chassis may have these sizes.
pub(crate) fn sizes_fit(cards: u8, blocks: u8) -> bool {
    (1..=MAX_CARDS).contains(&usize::from(cards)) && (1..=MAX_BLOCKS).contains(&usize::from(blocks))
}
