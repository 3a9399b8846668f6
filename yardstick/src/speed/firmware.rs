//! The proved engine, through its static library. The declarations follow include/coherence.h; each wrapper lends whole slices.
//! The binaries `speed` and `agree` both have this file as a module.

use yardstick::chassis::Mask;
use yardstick::engine::{Answer, Engine};
use yardstick::events::Event;
use yardstick::fields::{
    record_of, Fields, BLOCK, CARD, FIELDS, KIND, MASK, POSITION, STORED, TAG,
};
use yardstick::journal::Record;
use yardstick::looks::{Look, Seen};
use yardstick::refusal::Refusal;
use yardstick::words::WORDS;

/// A refusal by the paper's number.
const WRONG_OPENING: u32 = Refusal::WrongOpening.number() as u32;

const STANDING: usize = 3;

#[link(name = "firmware", kind = "static")]
extern "C" {
    fn coherence_start(state: *mut u64, edition: u8, cards: u8, blocks: u8) -> u64;
    fn coherence_load(state: *const u64, card: u8, block: u8) -> u64;
    fn coherence_store(state: *mut u64, card: u8, block: u8, value: u32) -> u64;
    fn coherence_drop(state: *mut u64, card: u8, block: u8) -> u64;
    fn coherence_ask(state: *mut u64, card: u8, block: u8, kind: u8, mask: Mask) -> u64;
    fn coherence_order(state: *mut u64) -> u64;
    fn coherence_deliver(state: *mut u64, position: u8) -> u64;
    fn coherence_copy(state: *mut u64, position: u8) -> u64;
    fn coherence_rejoin(state: *mut u64, card: u8) -> u64;
    fn coherence_counts(state: *const u64, seen: *mut u64) -> u64;
    fn coherence_message(state: *const u64, position: u8, seen: *mut u64) -> u64;
    fn coherence_request(state: *const u64, position: u8, seen: *mut u64) -> u64;
    fn coherence_cell(state: *const u64, card: u8, block: u8, seen: *mut u64) -> u64;
    fn coherence_home(state: *const u64, block: u8, seen: *mut u64) -> u64;
    fn coherence_read(journal: *const u8, size: usize, place: *mut usize, fields: *mut u64) -> u64;
    fn coherence_write(
        buffer: *mut u8,
        size: usize,
        place: *mut usize,
        tag: u8,
        card: u8,
        block: u8,
        kind: u8,
        mask: Mask,
        value: u32,
        position: u8,
    ) -> u64;
    fn coherence_run(
        state: *mut u64,
        journal: *const u8,
        size: usize,
        standing: *mut u64,
        text: *mut u8,
        text_size: usize,
    ) -> u64;
}

fn halves(answer: u64) -> Answer {
    ((answer >> 32) as u32, answer as u32)
}

/// The proved engine.
pub struct Firmware;

impl Engine for Firmware {
    fn start(&self, words: &mut [u64; WORDS], edition: u8, cards: u8, blocks: u8) -> Answer {
        // SAFETY: the state has as many words as the header names, here and below.
        halves(unsafe { coherence_start(words.as_mut_ptr(), edition, cards, blocks) })
    }

    fn apply(&self, words: &mut [u64; WORDS], event: Event) -> Answer {
        let state = words.as_mut_ptr();
        halves(unsafe {
            match event {
                Event::Load { card, block } => coherence_load(state, card, block),
                Event::Store { card, block, value } => coherence_store(state, card, block, value),
                Event::Ask {
                    card,
                    block,
                    kind,
                    mask,
                } => coherence_ask(state, card, block, kind, mask),
                Event::Drop { card, block } => coherence_drop(state, card, block),
                Event::Order => coherence_order(state),
                Event::Deliver { position } => coherence_deliver(state, position),
                Event::Copy { position } => coherence_copy(state, position),
                Event::Rejoin { card } => coherence_rejoin(state, card),
            }
        })
    }

    fn look(&self, words: &[u64; WORDS], look: Look, seen: &mut Seen) -> Answer {
        let (state, seen) = (words.as_ptr(), seen.as_mut_ptr());
        // SAFETY: the state and the numbers seen are of the sizes that the header names.
        halves(unsafe {
            match look {
                Look::Counts => coherence_counts(state, seen),
                Look::Message { position } => coherence_message(state, position, seen),
                Look::Request { position } => coherence_request(state, position, seen),
                Look::Cell { card, block } => coherence_cell(state, card, block, seen),
                Look::Home { block } => coherence_home(state, block, seen),
            }
        })
    }

    fn read(&self, journal: &[u8], place: &mut usize, fields: &mut Fields) -> Answer {
        let (bytes, size) = (journal.as_ptr(), journal.len());
        // SAFETY: the slice's pointer goes with its length, and the other two are of the sizes that the header names.
        halves(unsafe { coherence_read(bytes, size, place, fields.as_mut_ptr()) })
    }

    fn write(&self, buffer: &mut [u8], place: &mut usize, fields: &Fields) -> Answer {
        let byte = |at: usize| fields[at] as u8;
        // SAFETY: the slice's pointer goes with its length.
        halves(unsafe {
            coherence_write(
                buffer.as_mut_ptr(),
                buffer.len(),
                place,
                byte(TAG),
                byte(CARD),
                byte(BLOCK),
                byte(KIND),
                fields[MASK] as Mask,
                fields[STORED] as u32,
                byte(POSITION),
            )
        })
    }
}

/// Reads the record at a place and moves the place behind it: the record, none at the end, or the refusal.
fn read(journal: &[u8], place: &mut usize) -> Result<Option<Record>, u32> {
    let mut fields = [0; FIELDS];
    match Firmware.read(journal, place, &mut fields) {
        (0, 0) => Ok(None),
        (0, _) => record_of(&fields).map(Some).map_err(number_of),
        (refusal, _) => Err(refusal),
    }
}

/// A refusal's number.
fn number_of(refusal: Refusal) -> u32 {
    u32::from(refusal.number())
}

/// A record's line of text, but for its number: the refusal or 0, and the value; and whether no line follows.
pub struct Told {
    pub refusal: u32,
    pub value: u64,
    pub is_last: bool,
}

/// Reads the record of this number at a place and runs it. Nothing is told at the end of a journal that has an opening.
#[inline]
pub fn step(
    state: &mut [u64; WORDS],
    journal: &[u8],
    place: &mut usize,
    number: u64,
) -> Option<Told> {
    let at = *place as u64;
    let ends = |refusal| Told {
        refusal,
        value: at,
        is_last: true,
    };
    let goes_on = |(refusal, value): Answer| Told {
        refusal,
        value: u64::from(value),
        is_last: false,
    };
    Some(match read(journal, place) {
        Ok(None) if number > 0 => return None,
        Ok(Some(opening @ Record::Opening { .. })) if number == 0 => {
            match Firmware.run(state, opening) {
                made @ (0, _) => goes_on(made),
                (refusal, _) => ends(refusal),
            }
        }
        Ok(Some(Record::Event(event))) if number > 0 => goes_on(Firmware.apply(state, event)),
        Err(refusal) => ends(refusal),
        _ => ends(WRONG_OPENING),
    })
}

/// A run over a journal, in pieces of what the text takes; the text's bytes of each piece go to `piece`.
pub fn run(
    state: &mut [u64; WORDS],
    journal: &[u8],
    text: &mut [u8],
    mut piece: impl FnMut(&[u8]),
) {
    let mut standing = [0u64; STANDING];
    loop {
        // SAFETY: each slice's pointer goes with its length, and the others are of the sizes that the header names.
        let answer = unsafe {
            coherence_run(
                state.as_mut_ptr(),
                journal.as_ptr(),
                journal.len(),
                standing.as_mut_ptr(),
                text.as_mut_ptr(),
                text.len(),
            )
        };
        piece(&text[..standing[2] as usize]);
        if halves(answer) != (0, 1) {
            return;
        }
    }
}
