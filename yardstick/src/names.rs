//! What the chassis has, in the paper's names beside its numbers.

use std::fmt;

use crate::chassis::{card_bit, Cell, Message, OrderNumber, Request, HOME, MAX_CARDS};
use crate::table::{GETS, GETX, NAMES, PUTX};

/// A state by its name. A code outside the table has none.
pub struct State(pub u8);

impl fmt::Display for State {
    fn fmt(&self, out: &mut fmt::Formatter<'_>) -> fmt::Result {
        let name = NAMES.get(usize::from(self.0)).unwrap_or(&"no state");
        write!(out, "{name}")
    }
}

/// A kind of request by its name, or by its number if it has none.
pub struct Kind(pub u8);

impl fmt::Display for Kind {
    fn fmt(&self, out: &mut fmt::Formatter<'_>) -> fmt::Result {
        match self.0 {
            GETS => write!(out, "GETS"),
            GETX => write!(out, "GETX"),
            PUTX => write!(out, "PUTX"),
            unknown => write!(out, "kind {unknown}"),
        }
    }
}

/// A card, or home where a card number would stand.
pub struct Holder(pub u8);

impl fmt::Display for Holder {
    fn fmt(&self, out: &mut fmt::Formatter<'_>) -> fmt::Result {
        match self.0 {
            HOME => write!(out, "home ({HOME})"),
            card => write!(out, "card {card}"),
        }
    }
}

/// The cards that a mask names.
pub struct Cards(pub u8);

impl fmt::Display for Cards {
    fn fmt(&self, out: &mut fmt::Formatter<'_>) -> fmt::Result {
        let is_named = |card: &u8| self.0 & card_bit(*card) != 0;
        let named: Vec<String> = (0..MAX_CARDS as u8)
            .filter(is_named)
            .map(|card| card.to_string())
            .collect();
        match named.as_slice() {
            [] => write!(out, "none"),
            [card] => write!(out, "card {card}"),
            [cards @ .., last] => write!(out, "cards {} and {last}", cards.join(", ")),
        }
    }
}

/// A card with the state that it is in.
pub struct Standing(pub u8, pub u8);

impl fmt::Display for Standing {
    fn fmt(&self, out: &mut fmt::Formatter<'_>) -> fmt::Result {
        let Standing(card, state) = *self;
        write!(out, "{} is in {} ({state})", Holder(card), State(state))
    }
}

/// A card with the state that it is in and the order number that it awaits.
pub struct Awaiting<'a>(pub u8, pub &'a Cell);

impl fmt::Display for Awaiting<'_> {
    fn fmt(&self, out: &mut fmt::Formatter<'_>) -> fmt::Result {
        let Awaiting(card, cell) = self;
        let standing = Standing(*card, cell.state);
        match cell.awaited {
            OrderNumber(0) => write!(out, "{standing} and awaits nothing"),
            OrderNumber(number) => write!(out, "{standing} and awaits number {number}"),
        }
    }
}

/// Who asks what: the part of a request that a retry keeps.
pub struct Asked<'a>(pub &'a Request);

impl fmt::Display for Asked<'_> {
    fn fmt(&self, out: &mut fmt::Formatter<'_>) -> fmt::Result {
        let Request {
            card, block, kind, ..
        } = self.0;
        write!(out, "card {card} block {block} {} ({kind})", Kind(*kind))
    }
}

impl fmt::Display for Request {
    fn fmt(&self, out: &mut fmt::Formatter<'_>) -> fmt::Result {
        let (mask, retry) = (self.mask, self.retry.0);
        write!(out, "{} mask {mask:08b} retry {retry}", Asked(self))
    }
}

impl fmt::Display for Message {
    fn fmt(&self, out: &mut fmt::Formatter<'_>) -> fmt::Result {
        write!(
            out,
            "{} to {}, block {}, value {}, order number {}",
            Holder(self.sender),
            Holder(self.receiver),
            self.block,
            self.value,
            self.number.0
        )
    }
}
