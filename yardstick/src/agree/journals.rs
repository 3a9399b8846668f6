//! Whether both engines agree on the journals of seeds, every second one damaged: the chassis that the changes told by `explain` and
//! `picture` lead to is after every record what the proved engine's words are, with the same answer. Also whether `make` gives again the
//! journal that `show` shows, and whether the proved engine's own run writes what a replay writes.

use std::ops::Range;

use yardstick::cases::Subject;
use yardstick::chassis::Chassis;
use yardstick::generate::generate;
use yardstick::journal::Record;
use yardstick::layout::same_words;
use yardstick::looks::Look;
use yardstick::make::make;
use yardstick::random::Random;
use yardstick::replay::{counted, replay, Line};
use yardstick::run::{Run, Seen};
use yardstick::show::show;
use yardstick::states::same_look;
use yardstick::words::{unused_words, WORDS};

use crate::firmware::{self, Firmware};

/// What stands in every word before the first Start: it takes any words.
const ANY_WORD: u64 = 0xDEAD_BEEF_DEAD_BEEF;

/// The room for text that the proved engine's run is lent: a few lines, so that it takes many pieces.
const TEXT_ROOM: usize = 500;

/// How many records the journals of these seeds have, if all agree.
pub fn agree(seeds: Range<u64>) -> Result<u64, String> {
    let mut records = 0;
    for seed in seeds {
        let journal = generate(seed, seed % 2 == 1);
        records += check(&journal).map_err(|what| format!("seed {seed}: {what}"))?;
    }
    Ok(records)
}

/// How many records a journal has, if all agrees.
fn check(journal: &[u8]) -> Result<u64, String> {
    if make(show(journal, usize::MAX).as_bytes()).as_deref() != Ok(journal) {
        return Err("make does not give again what show shows".to_string());
    }
    let text = proved_text(counted(journal));
    if text != replay(journal).as_bytes() {
        return Err("the proved engine's run writes another text".to_string());
    }
    check_words(journal)
}

/// The text of the proved engine's own run.
fn proved_text(journal: &[u8]) -> Vec<u8> {
    let mut whole = Vec::new();
    let (mut state, mut text) = ([ANY_WORD; WORDS], [0; TEXT_ROOM]);
    firmware::run(&mut state, journal, &mut text, |piece| {
        whole.extend_from_slice(piece)
    });
    whole
}

/// Runs a journal by both engines, record by record, and compares the answers and the words. The words due are not the second program's
/// own, but those of a chassis to which nothing is done but the changes that `explain` and `picture` tell.
fn check_words(journal: &[u8]) -> Result<u64, String> {
    let mut run = Run::new(journal);
    let mut state = [ANY_WORD; WORDS];
    let mut told = None;
    let (mut number, mut place) = (0, 0);
    while let Some(seen) = run.see() {
        let answer = firmware::step(&mut state, counted(journal), &mut place, number)
            .ok_or_else(|| format!("record {number}: the proved engine sees the end"))?;
        let (refusal, value) = seen.line.numbers();
        let due = (u32::from(refusal), value as u64, seen.line.is_last());
        if (answer.refusal, answer.value, answer.is_last) != due {
            return Err(format!("record {number}: the answers differ"));
        }
        tell(&mut told, &seen);
        same_words(&state, &words_after(told.as_ref(), &seen.line))
            .and_then(|()| same_looks(&state, told.as_ref(), number))
            .map_err(|what| format!("record {number}: {what}"))?;
        number += 1;
        if seen.line.is_last() {
            return Ok(number);
        }
    }
    match firmware::step(&mut state, counted(journal), &mut place, number) {
        Some(_) => Err(format!("record {number}: the safe engine sees the end")),
        None => Ok(number),
    }
}

/// Looks at the words by both engines: a few things of the chassis, others after each record.
fn same_looks(state: &[u64; WORDS], told: Option<&Chassis>, number: u64) -> Result<(), String> {
    let Some(chassis) = told else {
        return same_look(&Firmware, state, Look::Counts);
    };
    let mut random = Random::new(number);
    chassis.looks(&mut random).into_iter().try_for_each(|look| {
        same_look(&Firmware, state, look).map_err(|what| format!("{look:?}: {what}"))
    })
}

/// Makes the changes told of a record: the whole chassis at Start, which has no other record before it.
fn tell(told: &mut Option<Chassis>, seen: &Seen<'_>) {
    match (told, seen.record) {
        (Some(told), _) => seen.changes().iter().for_each(|change| change.make(told)),
        (
            told,
            Some(Record::Opening {
                edition,
                cards,
                blocks,
            }),
        ) => *told = Chassis::start(edition, cards, blocks).ok(),
        _ => {}
    }
}

/// The words due after a line: the chassis's, those of a refused Start, or, before any Start, those that were there.
fn words_after(told: Option<&Chassis>, line: &Line) -> [u64; WORDS] {
    match told {
        Some(chassis) => chassis.words(),
        None if line.subject == Subject::Start => unused_words(),
        None => [ANY_WORD; WORDS],
    }
}
