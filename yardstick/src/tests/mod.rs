//! Tests that look inside the engine.

mod buffers;
mod ended;
mod explain;
mod formed;
mod generated;
mod handed;
mod hints;
mod history;
mod journal;
mod looks;
mod make;
mod marked;
mod meet;
mod met;
mod order;
mod owned;
mod picked;
mod picture;
mod reasons;
mod replay;
mod show;
mod states;
mod stores;
mod told;
mod usage;
mod words;

use crate::chassis::Chassis;
use crate::edition::Edition;
use crate::events::Event;
use crate::generate::generate;
use crate::journal::{Reader, Record};
use crate::picked::picked_journals;

/// How many seeds are drawn, sound and damaged.
const SEEDS: u64 = 250;

/// Checks the journals of many seeds, sound and damaged, and the stored ones.
fn each_journal(check: impl Fn(&[u8])) {
    for seed in 0..SEEDS {
        check(&generate(seed, false));
        check(&generate(seed, true));
    }
    for picked in picked_journals() {
        check(&picked.journal);
    }
}

/// The records of a journal up to its end or its damage.
fn records(journal: &[u8]) -> Vec<Record> {
    let mut reader = Reader::new(journal);
    let mut records = Vec::new();
    while let Ok(Some(record)) = reader.read() {
        records.push(record);
    }
    records
}

/// The chassis that an undamaged journal starts, if it starts one, and the
/// events after the opening.
fn started(journal: &[u8]) -> Option<(Chassis, Vec<Event>)> {
    let mut events = Vec::new();
    let mut chassis = None;
    for record in records(journal) {
        match record {
            Record::Opening {
                edition,
                cards,
                blocks,
            } => chassis = Chassis::start(edition, cards, blocks).ok(),
            Record::Event(event) => events.push(event),
        }
    }
    chassis.map(|chassis| (chassis, events))
}

/// A chassis of 3 cards and 2 blocks with something everywhere: card 0 in M
/// and card 1 with a GETS at retry 1 for block 0, and for block 1 card 2 in
/// IM_D and a message on its way to it.
fn busy_chassis() -> Chassis {
    use crate::table::{GETS, GETX};
    let ask = |card, block, kind| Event::Ask {
        card,
        block,
        kind,
        mask: 0,
    };
    let store = Event::Store {
        card: 0,
        block: 0,
        value: 5,
    };
    let events = [
        ask(0, 0, GETX),
        Event::Order,
        Event::Deliver { position: 0 },
        store,
        ask(1, 0, GETS),
        ask(2, 1, GETX),
        Event::Order,
        Event::Order,
    ];
    let mut chassis = Chassis::start(Edition::Msi, 3, 2).expect("the sizes fit");
    for event in events {
        assert!(chassis.apply(event).is_ok(), "{event}");
    }
    chassis
}
