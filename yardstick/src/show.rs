//! A journal in a readable form: an event a line, with what became of it in a
//! comment after `#`. Bytes that are no record, and those past the limit, stand
//! after the word `bytes`: `make` gives every byte of the journal again.

use std::fmt::{self, Write};

use crate::amounts::Many;
use crate::edition::Edition;
use crate::ended::unread;
use crate::events::Event;
use crate::journal::{Reader, Record};
use crate::names::Kind;
use crate::refusal::Refusal;
use crate::replay::{counted, Line, Replay, JOURNAL_LIMIT};
use crate::told::accepted;

/// How many bytes that are no record stand on a line.
const BYTES_A_LINE: usize = 16;

/// The journal's first records, up to `records` of them, and the damage, if
/// it comes within them.
pub fn show(journal: &[u8], records: usize) -> String {
    let mut text = String::new();
    // Writing to a string cannot fail.
    let _ = write_journal(&mut text, journal, records);
    text
}

/// Writes what `show` answers.
fn write_journal(out: &mut String, journal: &[u8], records: usize) -> fmt::Result {
    let read = counted(journal);
    let mut reader = Reader::new(read);
    let mut replay = Replay::new(read);
    for number in 0..records {
        let place = reader.place();
        let line = replay.next();
        match reader.read() {
            Ok(Some(record)) => write_record(out, record, number, place, line)?,
            Ok(None) => return write_end(out, journal, line),
            Err(refusal) => {
                let rest = read.get(place..).unwrap_or(&[]);
                writeln!(out, "# {number} at byte {place}: {refusal}")?;
                writeln!(
                    out,
                    "# from here on nothing is read: {}",
                    Many(rest.len(), "byte")
                )?;
                write_bytes(out, rest)?;
                return write_end(out, journal, None);
            }
        }
    }
    Ok(())
}

/// Writes a record with its number, its byte place and its answer.
fn write_record(
    out: &mut String,
    record: Record,
    number: usize,
    place: usize,
    line: Option<Line>,
) -> fmt::Result {
    let text = record.to_string();
    write!(out, "{text:<44} # {number} at byte {place}: ")?;
    match line.map(|line| line.answer) {
        Some(Ok(value)) if is_load(record) => writeln!(out, "value {value}"),
        Some(Ok(value)) => writeln!(out, "{}", accepted(record, value)),
        Some(Err(refusal)) => writeln!(out, "{refusal}"),
        None => writeln!(out, "not run"),
    }
}

/// Whether the value of an accepted record is what was loaded.
fn is_load(record: Record) -> bool {
    matches!(record, Record::Event(Event::Load { .. }))
}

/// Writes what there is to say at the journal's end.
fn write_end(out: &mut String, journal: &[u8], line: Option<Line>) -> fmt::Result {
    if let Some(Err(refusal)) = line.map(|line| line.answer) {
        writeln!(out, "# 0 at byte 0: {refusal}")?;
    }
    if let Some(words) = unread(journal) {
        writeln!(out, "# {words}")?;
    }
    write_bytes(out, journal.get(JOURNAL_LIMIT..).unwrap_or(&[]))
}

/// Writes bytes that are no record.
fn write_bytes(out: &mut String, bytes: &[u8]) -> fmt::Result {
    for some in bytes.chunks(BYTES_A_LINE) {
        write!(out, "bytes")?;
        for byte in some {
            write!(out, " {byte:02x}")?;
        }
        writeln!(out)?;
    }
    Ok(())
}

impl fmt::Display for Refusal {
    /// The number and the words.
    fn fmt(&self, out: &mut fmt::Formatter<'_>) -> fmt::Result {
        write!(out, "refusal {}, {}", self.number(), self.words())
    }
}

impl fmt::Display for Record {
    /// The record as one line, without its end.
    fn fmt(&self, out: &mut fmt::Formatter<'_>) -> fmt::Result {
        match self {
            Record::Opening {
                edition,
                cards,
                blocks,
            } => {
                write!(
                    out,
                    "start {}{} {}",
                    named(*edition),
                    Many(usize::from(*cards), "card"),
                    Many(usize::from(*blocks), "block")
                )
            }
            Record::Event(event) => write!(out, "{event}"),
        }
    }
}

/// How a start names its edition. MSI is what it is of if it names none.
fn named(edition: Edition) -> &'static str {
    match edition {
        Edition::Msi => "",
        Edition::Mosi => "MOSI ",
    }
}

impl fmt::Display for Event {
    /// The event as one line, without its end.
    fn fmt(&self, out: &mut fmt::Formatter<'_>) -> fmt::Result {
        match self {
            Event::Load { card, block } => write!(out, "load card {card} block {block}"),
            Event::Store { card, block, value } => {
                write!(out, "store card {card} block {block} value {value}")
            }
            Event::Ask {
                card,
                block,
                kind,
                mask,
            } => {
                let kind = Kind(*kind);
                write!(out, "ask card {card} block {block} {kind} mask {mask:08b}")
            }
            Event::Drop { card, block } => write!(out, "drop card {card} block {block}"),
            Event::Order => write!(out, "order"),
            Event::Deliver { position } => write!(out, "deliver {position}"),
            Event::Copy { position } => write!(out, "copy {position}"),
            Event::Rejoin { card } => write!(out, "rejoin card {card}"),
        }
    }
}
