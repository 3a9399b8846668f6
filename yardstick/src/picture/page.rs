//! Writing the page: one HTML file that needs nothing else.

use std::collections::HashMap;
use std::fmt::Write;

use super::numbers::numbers;
use super::words::MEANINGS;
use super::{Kind, Picture, Step};
use crate::amounts::{Grouped, Many};
use crate::edition::Edition;
use crate::refusal::Refusal;
use crate::table;

/// The page, with names in double braces where something is to be put.
const PAGE: &str = include_str!("page/page.html");
const STYLE: &str = include_str!("page/page.css");

/// The scripts, in the order in which each finds what it uses, as one whose
/// names are its own.
const SCRIPT: &str = concat!(
    "\"use strict\";\n(() => {\n",
    include_str!("page/state.js"),
    include_str!("page/tracks.js"),
    include_str!("page/colours.js"),
    include_str!("page/places.js"),
    include_str!("page/rows.js"),
    include_str!("page/marks.js"),
    include_str!("page/messages.js"),
    include_str!("page/frame.js"),
    include_str!("page/panel.js"),
    include_str!("page/moving.js"),
    include_str!("page/begin.js"),
    "})();"
);

/// The page of a journal, under the name that its reader knows it by.
pub fn page(name: &str, picture: &Picture) -> String {
    let mut page = String::new();
    for part in PAGE.split("{{") {
        match part.split_once("}}") {
            Some((place, after)) => {
                page.push_str(&filling(place, name, picture));
                page.push_str(after);
            }
            None => page.push_str(part),
        }
    }
    page
}

/// What is put at a place of the page.
fn filling(place: &str, name: &str, picture: &Picture) -> String {
    match place {
        "name" => escaped(name),
        "summary" => escaped(&summary(picture)),
        "notices" => notices(picture),
        "style" => STYLE.to_string(),
        "script" => SCRIPT.to_string(),
        "data" => data(picture),
        _ => String::new(),
    }
}

/// Text for a page, with the signs that mean something there written out.
pub(crate) fn escaped(text: &str) -> String {
    let mut out = String::new();
    for sign in text.chars() {
        match sign {
            '&' => out.push_str("&amp;"),
            '<' => out.push_str("&lt;"),
            '>' => out.push_str("&gt;"),
            '"' => out.push_str("&quot;"),
            '\'' => out.push_str("&#39;"),
            other => out.push(other),
        }
    }
    out
}

/// The journal in a line. Bytes that are no record are refused, too.
fn summary(picture: &Picture) -> String {
    let steps = || picture.steps.iter();
    let records = steps().filter(|step| step.kind != Kind::Damage);
    let refused = steps().filter(|step| step.line.answer.is_err());
    let counts = format!(
        "{}, {}, {}",
        Many(records.count(), "record"),
        Many(refused.count(), "refusal"),
        Many(picture.length, "byte"),
    );
    let Some((edition, cards, blocks)) = picture.started else {
        return format!("no chassis, {counts}");
    };
    let cards = Many(usize::from(cards), "card");
    let blocks = Many(usize::from(blocks), "block");
    format!("{}, {cards}, {blocks}, {counts}", edition.name())
}

/// What a reader should know first: the damage, and bytes that are not read.
fn notices(picture: &Picture) -> String {
    let mut out = String::new();
    let last = picture.steps.last();
    if let Some(words) = last.and_then(|step| end_words(picture, step)) {
        // Writing to a string cannot fail.
        let _ = writeln!(out, "<p class=\"notice bad\">{}</p>", escaped(&words));
    }
    if picture.has_unread() {
        let _ = writeln!(out, "<p class=\"notice\">{}</p>", unread_words(picture));
    }
    out
}

/// How much of the journal is read, and which record that cuts short, if any.
fn unread_words(picture: &Picture) -> String {
    let (read, length) = (Grouped(picture.bytes), Grouped(picture.length));
    let cut = picture.cut_by_limit().map_or(String::new(), |step| {
        let place = Grouped(step.line.place);
        format!("; the record at byte {place} is cut short by that")
    });
    format!("Only the first {read} of {length} bytes are read{cut}.")
}

/// Why the run ended before what is read of the journal did, if so.
fn end_words(picture: &Picture, step: &Step) -> Option<String> {
    if picture.cut_by_limit().is_some() {
        return None;
    }
    let refusal = step.line.answer.err().filter(|no| no.ends_the_run())?;
    let (number, place) = (Grouped(step.line.number), Grouped(step.line.place));
    let text = &step.text;
    let unrun = Many(picture.bytes.saturating_sub(step.line.place), "byte");
    Some(match (refusal, step.kind) {
        _ if picture.bytes == 0 => {
            format!("The journal is empty: it has no opening record ({refusal}).")
        }
        (Refusal::SizeOutOfRange, _) => {
            format!("The start is refused, so nothing runs: {refusal} ({text}).")
        }
        (_, Kind::Damage) => format!(
            "The journal is damaged at byte {place}, where record {number} should begin: \
             {refusal}. Not run from there on: {unrun}."
        ),
        _ => format!(
            "The run ends at byte {place}, record {number} ({text}): \
             {refusal}. Not run from there on: {unrun}."
        ),
    })
}

/// The data of the page as JSON. It has a line for each record, so that it
/// can be read by people too.
fn data(picture: &Picture) -> String {
    let mut texts = Texts::default();
    let lines: Vec<String> = picture
        .steps
        .iter()
        .map(|step| step_data(step, &mut texts))
        .collect();
    let (edition, cards, blocks) = picture.started.unwrap_or_default();
    let ends = picture.ends();
    let texts: Vec<String> = texts.all.iter().map(|text| quoted(text)).collect();
    format!(
        "{{\"cards\":{cards},\"blocks\":{blocks},\"ends\":{ends},\"states\":[{}],\
         \"texts\":[{}],\"records\":[\n{}\n]}}",
        states(edition).join(","),
        texts.join(","),
        lines.join(",\n"),
    )
}

/// The states of an edition for the data: name, meaning, and 1 if the state may
/// load.
fn states(edition: Edition) -> Vec<String> {
    let named = table::NAMES.into_iter().zip(MEANINGS);
    (0u8..)
        .zip(named)
        .filter(|(state, _)| table::has_state(edition, *state))
        .map(|(state, (name, meaning))| {
            let load = u8::from(table::row(state).load);
            format!("[{},{},{load}]", quoted(name), quoted(meaning))
        })
        .collect()
}

/// One record of the data: its kind, byte place, three texts, refusal, value,
/// block and card (or -1), then its changes.
fn step_data(step: &Step, texts: &mut Texts) -> String {
    let (refusal, value) = match step.line.answer {
        Ok(value) => (0, value),
        Err(refusal) => (refusal.number(), 0),
    };
    let changes: Vec<String> = step
        .changes
        .iter()
        .map(|change| format!("[{}]", joined(&numbers(change))))
        .collect();
    format!(
        "[{},{},{},{},{},{refusal},{value},{},{},[{}]]",
        step.kind as u8,
        step.line.place,
        texts.number(&step.text),
        texts.number(&step.mark),
        texts.number(&step.words),
        step.block.map_or(-1, i32::from),
        step.card.map_or(-1, i32::from),
        changes.join(","),
    )
}

/// Numbers with commas between them.
fn joined(numbers: &[u64]) -> String {
    let words: Vec<String> = numbers.iter().map(u64::to_string).collect();
    words.join(",")
}

/// The texts of the records, each kept once.
#[derive(Default)]
struct Texts {
    all: Vec<String>,
    numbers: HashMap<String, usize>,
}

impl Texts {
    /// The number that a text is known by.
    fn number(&mut self, text: &str) -> usize {
        if let Some(number) = self.numbers.get(text) {
            return *number;
        }
        let number = self.all.len();
        self.all.push(text.to_string());
        self.numbers.insert(text.to_string(), number);
        number
    }
}

/// A text as JSON that can stand inside a page: no sign of it can end the
/// element around it.
pub(crate) fn quoted(text: &str) -> String {
    let mut out = String::from("\"");
    for sign in text.chars() {
        match sign {
            '"' | '\\' | '<' | '>' | '&' | '\u{2028}' | '\u{2029}' | '\0'..='\u{1f}' => {
                // Writing to a string cannot fail. None of these is above 4 digits.
                let _ = write!(out, "\\u{:04x}", u32::from(sign));
            }
            other => out.push(other),
        }
    }
    out.push('"');
    out
}
