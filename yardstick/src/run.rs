//! The run of a journal, record by record, with the states that each record
//! stands between.

use std::mem;

use crate::changes::{changes, Change};
use crate::chassis::Chassis;
use crate::events::Event;
use crate::journal::{read_record, Record};
use crate::replay::{counted, unread_count, Line, Replay};
use crate::stores::{Struck, Unsettled};

/// The run of a journal.
pub struct Run<'a> {
    journal: &'a [u8],
    has_unread: bool,
    replay: Replay<'a>,
    /// The chassis before the record and after it: before any Start, the
    /// one of 0 cards and 0 blocks.
    before: Chassis,
    after: Chassis,
    unsettled: Unsettled,
    /// What the record strikes.
    struck: Vec<Struck>,
}

/// A record with its answer and the states that it stands between.
#[derive(Clone, Copy)]
pub struct Seen<'a> {
    pub line: Line,
    /// None if the bytes are no record.
    pub record: Option<Record>,
    /// The bytes from the record's place on that are read.
    pub rest: &'a [u8],
    /// Whether the journal goes on behind them.
    pub has_unread: bool,
    pub before: &'a Chassis,
    pub after: &'a Chassis,
    /// The stores that the record strikes, by block.
    pub struck: &'a [Struck],
}

impl<'a> Run<'a> {
    /// The run of a journal, before its first record.
    pub fn new(journal: &'a [u8]) -> Run<'a> {
        Run {
            journal: counted(journal),
            has_unread: unread_count(journal) > 0,
            replay: Replay::new(journal),
            before: Chassis::unused(),
            after: Chassis::unused(),
            unsettled: Unsettled::default(),
            struck: Vec::new(),
        }
    }

    /// The chassis reached, once there is one.
    pub fn chassis(&self) -> Option<&Chassis> {
        self.replay.chassis()
    }

    /// The next record, run. None at the end of the run.
    pub fn see(&mut self) -> Option<Seen<'_>> {
        let line = self.replay.next()?;
        if let Some(chassis) = self.replay.chassis() {
            self.before = mem::replace(&mut self.after, chassis.clone());
        }
        // What cannot be read has its refusal in the line.
        let read = read_record(self.journal, line.place).unwrap_or(None);
        let record = read.map(|(record, _)| record);
        self.struck = match (record, line.answer) {
            (Some(Record::Event(event)), Ok(value)) => {
                self.unsettled.accept(&self.before, event, value)
            }
            _ => Vec::new(),
        };
        Some(Seen {
            line,
            record,
            rest: self.journal.get(line.place..).unwrap_or(&[]),
            has_unread: self.has_unread,
            before: &self.before,
            after: &self.after,
            struck: &self.struck,
        })
    }
}

impl Seen<'_> {
    /// The event, if the record is one.
    pub fn event(&self) -> Option<Event> {
        match self.record {
            Some(Record::Event(event)) => Some(event),
            _ => None,
        }
    }

    /// What the record changed, if it is an event.
    pub fn changes(&self) -> Vec<Change> {
        match self.event() {
            Some(event) => changes(self.before, self.after, event),
            None => Vec::new(),
        }
    }
}
