//! The events of a chassis, but for Order, each with its refusals in the
//! paper's order. A refused event leaves the chassis as it was.

use crate::chassis::{card_bit, Chassis, Mask, Message, Request, Retry, CELL_AT_START, HOME};
use crate::refusal::Refusal;
use crate::table::{self, GETS, I, PUTX, S};

/// An event with its arguments, as a journal gives it.
#[derive(Clone, Copy, PartialEq, Eq, Debug)]
pub enum Event {
    Load {
        card: u8,
        block: u8,
    },
    Store {
        card: u8,
        block: u8,
        value: u32,
    },
    Ask {
        card: u8,
        block: u8,
        kind: u8,
        mask: Mask,
    },
    Drop {
        card: u8,
        block: u8,
    },
    Order,
    Deliver {
        position: u8,
    },
    Copy {
        position: u8,
    },
    Rejoin {
        card: u8,
    },
}

/// What became of an ordered request, by the paper's outcome.
#[derive(Clone, Copy, PartialEq, Eq, Debug)]
pub enum Ordered {
    Granted = 1,
    MaskTooSmall = 2,
    PutTaken = 3,
    PutLapsed = 4,
}

/// What became of a delivered message, by the paper's outcome.
#[derive(Clone, Copy, PartialEq, Eq, Debug)]
pub enum Delivered {
    Taken = 1,
    Stale = 2,
}

impl Chassis {
    /// Runs an event. The value is a load's, an outcome, else 0.
    pub fn apply(&mut self, event: Event) -> Result<u32, Refusal> {
        match event {
            Event::Load { card, block } => self.load(card, block),
            Event::Store { card, block, value } => self.store(card, block, value).map(|()| 0),
            Event::Ask {
                card,
                block,
                kind,
                mask,
            } => self.ask(card, block, kind, mask).map(|()| 0),
            Event::Drop { card, block } => self.drop_copy(card, block).map(|()| 0),
            Event::Order => self.order().map(|outcome| outcome as u32),
            Event::Deliver { position } => self.deliver(position).map(|outcome| outcome as u32),
            Event::Copy { position } => self.copy(position).map(|()| 0),
            Event::Rejoin { card } => self.rejoin(card).map(|()| 0),
        }
    }

    /// **Load**: the value of a card's copy.
    pub fn load(&self, card: u8, block: u8) -> Result<u32, Refusal> {
        self.test_cell(card, block)?;
        let cell = self.cell(card, block);
        if !table::row(cell.state).load {
            return Err(Refusal::NoRight);
        }
        Ok(cell.value)
    }

    /// **Store**: a new value for a card's copy.
    pub fn store(&mut self, card: u8, block: u8, value: u32) -> Result<(), Refusal> {
        self.test_cell(card, block)?;
        let cell = self.cell_mut(card, block);
        if !table::row(cell.state).store {
            return Err(Refusal::NoRight);
        }
        cell.value = value;
        Ok(())
    }

    /// **Drop**: a card in S gives up its copy. Home is not told.
    pub fn drop_copy(&mut self, card: u8, block: u8) -> Result<(), Refusal> {
        self.test_cell(card, block)?;
        let cell = self.cell_mut(card, block);
        if cell.state != S {
            return Err(Refusal::NoRight);
        }
        cell.go_to(I);
        Ok(())
    }

    /// **Ask**: a request joins the line's tail with retry 0.
    pub fn ask(&mut self, card: u8, block: u8, kind: u8, mask: Mask) -> Result<(), Refusal> {
        self.test_cell(card, block)?;
        if !(GETS..=PUTX).contains(&kind) {
            return Err(Refusal::NoSuchKind);
        }
        if mask & !self.every_card() != 0 {
            return Err(Refusal::MaskTooWide);
        }
        let row = table::row(self.cell(card, block).state);
        let state = row.ask(kind).ok_or(Refusal::AskNotAllowed)?;
        if self.line.is_full() {
            return Err(Refusal::LineFull);
        }
        self.cell_mut(card, block).go_to(state);
        self.line.push(Request {
            card,
            block,
            kind,
            mask,
            retry: Retry(0),
        });
        Ok(())
    }

    /// **Deliver**: a message leaves the pool, and its receiver takes the
    /// value if it awaits this very message's order number.
    pub fn deliver(&mut self, position: u8) -> Result<Delivered, Refusal> {
        let position = usize::from(position);
        let message = self.pool.get(position).ok_or(Refusal::NoSuchPosition)?;
        self.pool.remove(position);
        if !self.is_awaited(&message) {
            return Ok(Delivered::Stale);
        }
        let cell = self.cell_mut(message.receiver, message.block);
        if let Some(state) = table::when_data_comes(cell.state) {
            cell.go_to(state);
            cell.value = message.value;
        }
        Ok(Delivered::Taken)
    }

    /// Whether a message's receiver awaits data for that block under this
    /// message's order number.
    pub(crate) fn is_awaited(&self, message: &Message) -> bool {
        let cell = self.cell(message.receiver, message.block);
        table::awaits_data(cell.state) && cell.awaited == message.number
    }

    /// **Copy**: a message once more, at the pool's tail.
    pub fn copy(&mut self, position: u8) -> Result<(), Refusal> {
        let found = self.pool.get(usize::from(position));
        let message = found.ok_or(Refusal::NoSuchPosition)?;
        if self.pool.is_full() {
            return Err(Refusal::PoolFull);
        }
        self.pool.push(message);
        Ok(())
    }

    /// **Rejoin**: a card comes back with nothing. Memory, pool and order
    /// number stay.
    pub fn rejoin(&mut self, card: u8) -> Result<(), Refusal> {
        self.test_card(card)?;
        for (cells, home) in self.cells.iter_mut().zip(&mut self.home) {
            cells[usize::from(card)] = CELL_AT_START;
            home.sharers &= !card_bit(card);
            if home.owner == card {
                home.owner = HOME;
            }
        }
        self.line.retain(|request| request.card != card);
        Ok(())
    }

    /// Refusal 1.
    fn test_card(&self, card: u8) -> Result<(), Refusal> {
        if card < self.cards {
            Ok(())
        } else {
            Err(Refusal::NoSuchCard)
        }
    }

    /// Refusals 1 and 2.
    fn test_cell(&self, card: u8, block: u8) -> Result<(), Refusal> {
        self.test_card(card)?;
        if block < self.blocks {
            Ok(())
        } else {
            Err(Refusal::NoSuchBlock)
        }
    }
}
