//! The picture of a journal: each record with its answer and with what it
//! changed in the chassis, as the engine did it, and the page that draws them.

mod numbers;
mod page;
pub(crate) mod words;

pub use page::page;

use crate::changes::Change;
use crate::edition::Edition;
use crate::events::Event;
use crate::journal::Record;
use crate::refusal::Refusal;
use crate::replay::{counted, Line};
use crate::run::{Run, Seen};

/// What the page needs to know of a journal.
pub struct Picture {
    /// How many bytes the journal has.
    pub(crate) length: usize,
    /// How many of them are read.
    pub(crate) bytes: usize,
    /// The edition, cards and blocks of the chassis; none if it was never
    /// started.
    pub(crate) started: Option<(Edition, u8, u8)>,
    pub(crate) steps: Vec<Step>,
}

/// A record with what became of it.
pub(crate) struct Step {
    pub(crate) line: Line,
    pub(crate) kind: Kind,
    /// The block and the card in which the record is marked, if any.
    pub(crate) block: Option<u8>,
    pub(crate) card: Option<u8>,
    /// The record, or the bytes that are none.
    pub(crate) text: String,
    /// The record in a word or two, for a narrow place.
    pub(crate) mark: String,
    /// The answer in words.
    pub(crate) words: String,
    pub(crate) changes: Vec<Change>,
}

/// What a step is, by the number that the page knows it by.
#[derive(Clone, Copy, PartialEq, Eq, Debug)]
pub(crate) enum Kind {
    Start = 0,
    Load = 1,
    Store = 2,
    Ask = 3,
    Drop = 4,
    Order = 5,
    Deliver = 6,
    Copy = 7,
    Rejoin = 8,
    /// Bytes that are no record.
    Damage = 9,
}

impl Picture {
    /// Runs a journal and keeps what each record changed.
    pub fn of(journal: &[u8]) -> Picture {
        let mut run = Run::new(journal);
        let mut steps = Vec::new();
        while let Some(seen) = run.see() {
            steps.push(step(&seen));
        }
        let mut picture = Picture {
            length: journal.len(),
            bytes: counted(journal).len(),
            started: (run.chassis()).map(|last| (last.edition, last.cards, last.blocks)),
            steps,
        };
        picture.mark_cut();
        picture
    }

    /// Marks the record that is cut short by the limit as that, and not as
    /// damage.
    fn mark_cut(&mut self) {
        if self.cut_by_limit().is_none() {
            return;
        }
        if let Some(last) = self.steps.last_mut() {
            last.mark = "cut short".to_string();
        }
    }

    /// Whether bytes follow that are not read.
    pub(crate) fn has_unread(&self) -> bool {
        self.length > self.bytes
    }

    /// The record that is cut short since the journal is read only so far.
    pub(crate) fn cut_by_limit(&self) -> Option<&Step> {
        let last = self.steps.last()?;
        let is_cut = last.line.answer == Err(Refusal::CutShort);
        (self.has_unread() && is_cut).then_some(last)
    }

    /// Whether the last record ended the run before the journal's end.
    pub(crate) fn ends(&self) -> bool {
        let last = self.steps.last().map(|step| step.line.answer);
        last.is_some_and(|answer| answer.is_err_and(Refusal::ends_the_run))
    }
}

/// The step that the page is given.
fn step(seen: &Seen) -> Step {
    let (block, card) = concerns(seen);
    Step {
        line: seen.line,
        kind: kind(seen),
        block: block.filter(|block| *block < seen.after.blocks),
        card: card.filter(|card| *card < seen.after.cards),
        text: words::text(seen),
        mark: words::mark(seen),
        words: words::answer(seen),
        changes: seen.changes(),
    }
}

/// What the record is.
fn kind(seen: &Seen) -> Kind {
    match seen.record {
        None => Kind::Damage,
        Some(Record::Opening { .. }) => Kind::Start,
        Some(Record::Event(event)) => match event {
            Event::Load { .. } => Kind::Load,
            Event::Store { .. } => Kind::Store,
            Event::Ask { .. } => Kind::Ask,
            Event::Drop { .. } => Kind::Drop,
            Event::Order => Kind::Order,
            Event::Deliver { .. } => Kind::Deliver,
            Event::Copy { .. } => Kind::Copy,
            Event::Rejoin { .. } => Kind::Rejoin,
        },
    }
}

/// The block and the card that the record is about: for an Order those of
/// the head, for Deliver and Copy those that the message goes to.
fn concerns(seen: &Seen) -> (Option<u8>, Option<u8>) {
    match seen.event() {
        Some(
            Event::Load { card, block }
            | Event::Store { card, block, .. }
            | Event::Ask { card, block, .. }
            | Event::Drop { card, block },
        ) => (Some(block), Some(card)),
        Some(Event::Order) => {
            let head = seen.before.head();
            (head.map(|head| head.block), head.map(|head| head.card))
        }
        Some(Event::Deliver { position } | Event::Copy { position }) => {
            let message = seen.before.pool.get(usize::from(position));
            let receiver = message.map(|message| message.receiver);
            (message.map(|message| message.block), receiver)
        }
        Some(Event::Rejoin { card }) => (None, Some(card)),
        None => (None, None),
    }
}
