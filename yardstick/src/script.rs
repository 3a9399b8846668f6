//! Short names for the records of journals written by hand.

use crate::edition::Edition;
use crate::events::Event;
use crate::journal::{append, Record};

/// The journal of a list of records.
pub fn journal_of(records: impl IntoIterator<Item = Record>) -> Vec<u8> {
    let mut journal = Vec::new();
    for record in records {
        append(&mut journal, record);
    }
    journal
}

/// The start of an MSI chassis.
pub fn start(cards: u8, blocks: u8) -> Record {
    start_of(Edition::Msi, cards, blocks)
}

pub fn start_of(edition: Edition, cards: u8, blocks: u8) -> Record {
    Record::Opening {
        edition,
        cards,
        blocks,
    }
}

pub fn load(card: u8, block: u8) -> Record {
    Record::Event(Event::Load { card, block })
}

pub fn store(card: u8, block: u8, value: u32) -> Record {
    Record::Event(Event::Store { card, block, value })
}

pub fn drop_copy(card: u8, block: u8) -> Record {
    Record::Event(Event::Drop { card, block })
}

pub fn ask(card: u8, block: u8, kind: u8, mask: u8) -> Record {
    Record::Event(Event::Ask {
        card,
        block,
        kind,
        mask,
    })
}

pub fn order() -> Record {
    Record::Event(Event::Order)
}

pub fn deliver(position: u8) -> Record {
    Record::Event(Event::Deliver { position })
}

pub fn copy(position: u8) -> Record {
    Record::Event(Event::Copy { position })
}

pub fn rejoin(card: u8) -> Record {
    Record::Event(Event::Rejoin { card })
}
