//! The stores of a run that are not settled yet. A store is settled by the
//! first later Order for its block with outcome 1 or 3; an accepted Rejoin
//! strikes that card's unsettled stores.

use std::fmt;

use crate::amounts::Many;
use crate::chassis::{Chassis, MAX_BLOCKS};
use crate::events::{Event, Ordered};

/// An accepted store.
struct Store {
    card: u8,
    value: u32,
}

/// The unsettled stores of each block, in their order.
#[derive(Default)]
pub struct Unsettled {
    by_block: [Vec<Store>; MAX_BLOCKS],
}

/// What a Rejoin strikes in a block.
#[derive(Clone, Copy, PartialEq, Eq, Debug)]
pub struct Struck {
    pub card: u8,
    pub block: u8,
    /// How many stores, and the value of the last of them.
    pub stores: usize,
    pub last: u32,
}

impl Unsettled {
    /// Takes in an accepted event with its value, and says what it strikes.
    pub fn accept(&mut self, before: &Chassis, event: Event, value: u32) -> Vec<Struck> {
        match event {
            Event::Store { card, block, value } => {
                self.by_block[usize::from(block)].push(Store { card, value });
            }
            Event::Order if settles(value) => {
                if let Some(head) = before.head() {
                    self.by_block[usize::from(head.block)].clear();
                }
            }
            Event::Rejoin { card } => return self.strike(card),
            _ => {}
        }
        Vec::new()
    }

    /// Takes out a card's stores, block by block.
    fn strike(&mut self, card: u8) -> Vec<Struck> {
        let mut struck = Vec::new();
        for (block, stores) in (0u8..).zip(&mut self.by_block) {
            let its_own = || stores.iter().filter(|store| store.card == card);
            if let Some(last) = its_own().next_back() {
                struck.push(Struck {
                    card,
                    block,
                    stores: its_own().count(),
                    last: last.value,
                });
            }
            stores.retain(|store| store.card != card);
        }
        struck
    }
}

/// Whether an Order with this outcome settles the stores to its block.
fn settles(outcome: u32) -> bool {
    outcome == Ordered::Granted as u32 || outcome == Ordered::PutTaken as u32
}

impl fmt::Display for Struck {
    /// As `block 0: 2 stores of card 1, the last of value 7`.
    fn fmt(&self, out: &mut fmt::Formatter<'_>) -> fmt::Result {
        let Struck {
            card, block, last, ..
        } = self;
        let stores = Many(self.stores, "store");
        let which = match self.stores {
            1 => "",
            _ => "the last ",
        };
        write!(
            out,
            "block {block}: {stores} of card {card}, {which}of value {last}"
        )
    }
}
