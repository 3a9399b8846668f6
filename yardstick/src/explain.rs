//! A journal's run explained: after each record its answer, why it has that
//! answer, and what changed.

use std::fmt::{self, Write};

use crate::amounts::Many;
use crate::journal::Record;
use crate::reasons::reason;
use crate::replay::{counted, unread_count, Line, JOURNAL_LIMIT};
use crate::run::{Run, Seen};
use crate::told::{accepted, text, told, Told};

/// What an accepted Start makes, whatever the edition.
const FRESH: &str = "cells I (0), values 0, memory 0, owners home (255), no sharers, line and \
    pool empty, last order number 0";

/// How the text looks: plain, or with the colours of a terminal.
#[derive(Clone, Copy, PartialEq, Eq, Debug)]
pub enum Look {
    Plain,
    Coloured,
}

/// The colours, as a terminal takes them.
const BOLD: &str = "1";
const RED: &str = "31";
const DIM: &str = "2";

impl Look {
    /// The words in a colour, where there are colours.
    fn paint(self, colour: &str, words: impl fmt::Display) -> String {
        match self {
            Look::Plain => words.to_string(),
            Look::Coloured => format!("\u{1b}[{colour}m{words}\u{1b}[0m"),
        }
    }
}

/// The run of a journal, record by record, with what each changed.
pub fn explain(journal: &[u8], look: Look) -> String {
    let mut text = String::new();
    // Writing to a string cannot fail.
    let _ = write_run(&mut text, journal, look);
    text
}

/// Writes what `explain` answers.
fn write_run(out: &mut String, journal: &[u8], look: Look) -> fmt::Result {
    let mut run = Run::new(journal);
    let mut last = None;
    while let Some(seen) = run.see() {
        write_seen(out, &seen, look)?;
        last = Some(seen.line);
    }
    write_end(out, journal, last)
}

/// What a record changed, in words, and the stores that it struck.
fn changed(seen: &Seen) -> Vec<Told> {
    let mut changed = match (seen.record, seen.line.answer) {
        (Some(Record::Event(event)), answer) => told(seen.before, event, answer, &seen.changes()),
        (Some(Record::Opening { edition, .. }), Ok(_)) => vec![Told {
            part: "all",
            how: format!("edition {} ({}), {FRESH}", edition.name(), edition.number()),
        }],
        _ => Vec::new(),
    };
    changed.extend(seen.struck.iter().map(|struck| Told {
        part: "struck",
        how: struck.to_string(),
    }));
    changed
}

/// Writes a record with its answer, the reason and what it changed.
fn write_seen(out: &mut String, seen: &Seen, look: Look) -> fmt::Result {
    let head = format!("{} {}", seen.line.number, text(seen));
    let place = format!("# at byte {}", seen.line.place);
    writeln!(
        out,
        "{} {}",
        look.paint(BOLD, format!("{head:<46}")),
        look.paint(DIM, place)
    )?;
    write_answer(out, seen, look)?;
    if let Some(why) = reason(seen) {
        writeln!(out, "  why    {why}")?;
    }
    let changed = changed(seen);
    for change in &changed {
        writeln!(out, "  {:<6} {}", change.part, change.how)?;
    }
    if changed.is_empty() {
        writeln!(out, "  {}", look.paint(DIM, "nothing changed"))?;
    }
    writeln!(out)
}

/// Writes the answer in numbers, as a replay has them, and in words.
fn write_answer(out: &mut String, seen: &Seen, look: Look) -> fmt::Result {
    let (refusal, value) = seen.line.numbers();
    let words = match seen.line.answer {
        Ok(value) => seen
            .record
            .map_or("", |record| accepted(record, value))
            .to_string(),
        Err(refusal) => look.paint(RED, refusal),
    };
    writeln!(out, "  answer {refusal} {value}: {words}")
}

/// Writes where the run ends and how many bytes it leaves, or that the journal
/// ends with it.
fn write_end(out: &mut String, journal: &[u8], last: Option<Line>) -> fmt::Result {
    let ended = last.filter(Line::is_last).map(|line| line.place);
    let unread = unread_count(journal);
    let end = ended.unwrap_or(counted(journal).len());
    if ended.is_none() && unread == 0 {
        return writeln!(out, "The journal ends at byte {end}.");
    }
    let left = Many(journal.len() - end, "byte");
    writeln!(out, "The run ends at byte {end}, with {left} left.")?;
    if unread > 0 {
        let unread = Many(unread, "byte");
        writeln!(out, "Past byte {JOURNAL_LIMIT} nothing is read: {unread}.")?;
    }
    Ok(())
}
