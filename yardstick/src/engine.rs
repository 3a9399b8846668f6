//! An engine that keeps a state as words and a record as numbers, as the proved
//! engine's library does; and this program's own engine as one of these.

use crate::chassis::Chassis;
use crate::edition::Edition;
use crate::events::Event;
use crate::fields::{fields_of, record_of, Fields};
use crate::journal::{read_record, write_record, Record};
use crate::looks::{Look, Seen};
use crate::refusal::Refusal;
use crate::words::{unused_words, WORDS};

/// An answer: the refusal's number or 0, and the value.
pub type Answer = (u32, u32);

/// The value of a reading that found a record; at the end it is 0.
const A_RECORD: u32 = 1;

/// What an engine does with the words, bytes and numbers that are lent to it.
/// A refusal changes nothing of them, but for Start, which leaves the words of
/// no chassis.
pub trait Engine {
    /// Start, on any words, of an edition's number or of a byte that is none.
    fn start(&self, words: &mut [u64; WORDS], edition: u8, cards: u8, blocks: u8) -> Answer;

    /// An event on the words of a state.
    fn apply(&self, words: &mut [u64; WORDS], event: Event) -> Answer;

    /// Start or an event.
    fn run(&self, words: &mut [u64; WORDS], record: Record) -> Answer {
        match record {
            Record::Opening {
                edition,
                cards,
                blocks,
            } => self.start(words, edition.number(), cards, blocks),
            Record::Event(event) => self.apply(words, event),
        }
    }

    /// Looks at the words of a state and sets the numbers seen.
    fn look(&self, words: &[u64; WORDS], look: Look, seen: &mut Seen) -> Answer;

    /// Reads the record at a place, sets its numbers and moves the place behind
    /// it.
    fn read(&self, journal: &[u8], place: &mut usize, fields: &mut Fields) -> Answer;

    /// Writes the record of these numbers at a place and moves the place behind
    /// it.
    fn write(&self, buffer: &mut [u8], place: &mut usize, fields: &Fields) -> Answer;
}

/// This program's own engine.
pub struct Safe;

impl Engine for Safe {
    fn start(&self, words: &mut [u64; WORDS], edition: u8, cards: u8, blocks: u8) -> Answer {
        let edition = Edition::of(edition.into()).ok_or(Refusal::SizeOutOfRange);
        let made = edition.and_then(|edition| Chassis::start(edition, cards, blocks));
        *words = made
            .as_ref()
            .map_or_else(|_| unused_words(), Chassis::words);
        answer(made.map(|_| 0))
    }

    fn apply(&self, words: &mut [u64; WORDS], event: Event) -> Answer {
        answer(Chassis::handed_in(words).and_then(|mut chassis| {
            let value = chassis.apply(event)?;
            *words = chassis.words();
            Ok(value)
        }))
    }

    fn look(&self, words: &[u64; WORDS], look: Look, seen: &mut Seen) -> Answer {
        answer(Chassis::handed_in(words).and_then(|chassis| {
            *seen = chassis.look(look)?;
            Ok(0)
        }))
    }

    fn read(&self, journal: &[u8], place: &mut usize, fields: &mut Fields) -> Answer {
        answer(read_record(journal, *place).map(|found| match found {
            Some((record, after)) => {
                *place = after;
                *fields = fields_of(record);
                A_RECORD
            }
            None => 0,
        }))
    }

    fn write(&self, buffer: &mut [u8], place: &mut usize, fields: &Fields) -> Answer {
        answer(record_of(fields).and_then(|record| {
            *place = write_record(buffer, *place, record)?;
            Ok(0)
        }))
    }
}

/// A value, or a refusal's number with value 0.
fn answer(result: Result<u32, Refusal>) -> Answer {
    match result {
        Ok(value) => (0, value),
        Err(refusal) => (u32::from(refusal.number()), 0),
    }
}
