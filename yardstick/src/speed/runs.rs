//! The same run over a journal, from memory into memory, by each engine: once with no test of well-formedness at an event, once with one
//! at every event. The text has room for all lines, so no side waits for memory.

use yardstick::chassis::Chassis;
use yardstick::events::Event;
use yardstick::journal::{Reader, Record};
use yardstick::refusal::Refusal;
use yardstick::words::WORDS;

use crate::firmware;
use crate::lines::push_line;

/// Refusals by the paper's numbers.
const ILL_FORMED: u32 = Refusal::IllFormed.number() as u32;
const WRONG_OPENING: u32 = Refusal::WrongOpening.number() as u32;

/// What is lent to a run: the proved engine's words, and the text.
pub struct Lent {
    pub state: Box<[u64; WORDS]>,
    pub text: Vec<u8>,
    /// How many bytes of the text are written.
    pub count: usize,
}

/// The proved engine's own run; it tests once, at its start.
#[inline(never)]
pub fn proved_untested(journal: &[u8], lent: &mut Lent) {
    let mut count = 0;
    firmware::run(&mut lent.state, journal, &mut lent.text, |piece| {
        count += piece.len()
    });
    lent.count = count;
}

/// The safe engine's run.
#[inline(never)]
pub fn safe_untested(journal: &[u8], lent: &mut Lent) {
    lent.count = safe_run(journal, &mut lent.text, |chassis, event| {
        chassis.apply(event).map_err(number_of)
    });
}

/// The safe engine's run, each event behind a test of 15.
#[inline(never)]
pub fn safe_tested(journal: &[u8], lent: &mut Lent) {
    lent.count = safe_run(journal, &mut lent.text, |chassis, event| {
        if !chassis.well_formed() {
            return Err(ILL_FORMED);
        }
        chassis.apply(event).map_err(number_of)
    });
}

/// The proved engine, record by record and event by event: each event tests 15 first.
#[inline(never)]
pub fn proved_tested(journal: &[u8], lent: &mut Lent) {
    let (state, text) = (&mut *lent.state, &mut lent.text);
    let (mut count, mut number, mut place) = (0, 0, 0);
    while let Some(told) = firmware::step(state, journal, &mut place, number) {
        count = push_line(text, count, number, told.refusal, told.value);
        number += 1;
        if told.is_last {
            break;
        }
    }
    lent.count = count;
}

/// A refusal's number.
fn number_of(refusal: Refusal) -> u32 {
    u32::from(refusal.number())
}

/// The safe engine over a journal: how many bytes of text it wrote.
fn safe_run(
    journal: &[u8],
    text: &mut [u8],
    apply: impl Fn(&mut Chassis, Event) -> Result<u32, u32>,
) -> usize {
    let mut reader = Reader::new(journal);
    let mut chassis = None;
    let (mut count, mut number) = (0, 0);
    loop {
        let at = reader.place() as u64;
        let (refusal, value, ends) = match (reader.read(), &mut chassis) {
            (Ok(None), Some(_)) => return count,
            (
                Ok(Some(Record::Opening {
                    edition,
                    cards,
                    blocks,
                })),
                None,
            ) => match Chassis::start(edition, cards, blocks) {
                Ok(made) => {
                    chassis = Some(made);
                    (0, 0, false)
                }
                Err(refusal) => (number_of(refusal), at, true),
            },
            (Ok(Some(Record::Event(event))), Some(chassis)) => match apply(chassis, event) {
                Ok(value) => (0, u64::from(value), false),
                Err(refusal) => (refusal, 0, false),
            },
            (Err(refusal), _) => (number_of(refusal), at, true),
            _ => (WRONG_OPENING, at, true),
        };
        count = push_line(text, count, number, refusal, value);
        number += 1;
        if ends {
            return count;
        }
    }
}
