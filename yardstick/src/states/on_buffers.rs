//! Both engines on a buffer: a record written and a record read, the answers,
//! the places, the bytes and the numbers.

use super::buffers::{draw_reading, draw_writing, Reading, Writing};
use super::met::Met;
use super::{same, same_items};
use crate::cases::Subject;
use crate::engine::{Engine, Safe};
use crate::fields::{record_of, Fields, KIND, TAG};
use crate::journal::MAX_RECORD_LENGTH;
use crate::random::Random;

/// A writing by both engines: the answer, the place and every byte.
pub(super) fn meet_at_writing(
    proved: &dyn Engine,
    random: &mut Random,
    met: &mut Met,
) -> Result<(), String> {
    let Writing {
        buffer,
        place,
        fields,
    } = draw_writing(random);
    let write = |engine: &dyn Engine| {
        let (mut buffer, mut place) = (buffer.clone(), place);
        let answer = engine.write(&mut buffer, &mut place, &fields);
        (answer, place, buffer)
    };
    let (one, other) = (write(proved), write(&Safe));
    let compared = same("the answer", one.0, other.0)
        .and_then(|()| same("the place", one.1, other.1))
        .and_then(|()| same_items("byte", &one.2, &other.2));
    compared.map_err(|what| {
        let (record, size) = (written(&fields), buffer.len());
        format!("writing {record} at place {place} of {size} bytes: {what}")
    })?;
    met.add_answer(Subject::Writing, other.0);
    Ok(())
}

/// What is written, for a message.
fn written(fields: &Fields) -> String {
    match record_of(fields) {
        Ok(record) => record.to_string(),
        Err(_) => format!("the tag {:02x} and kind {:02x}", fields[TAG], fields[KIND]),
    }
}

/// A reading by both engines: the answer, the place and every number.
pub(super) fn meet_at_reading(
    proved: &dyn Engine,
    random: &mut Random,
    met: &mut Met,
) -> Result<(), String> {
    let Reading {
        journal,
        place,
        fields,
    } = draw_reading(random);
    let read = |engine: &dyn Engine| {
        let (mut fields, mut place) = (fields, place);
        let answer = engine.read(&journal, &mut place, &mut fields);
        (answer, place, fields)
    };
    let (one, other) = (read(proved), read(&Safe));
    let compared = same("the answer", one.0, other.0)
        .and_then(|()| same("the place", one.1, other.1))
        .and_then(|()| same_items("number", &one.2, &other.2));
    compared.map_err(|what| {
        let (bytes, size) = (front(&journal, place), journal.len());
        format!("reading {bytes:02x?} at place {place} of {size} bytes: {what}")
    })?;
    let subject = match other.0 {
        (0, 0) => Subject::ReadingTheEnd,
        _ => Subject::Reading,
    };
    met.add_answer(subject, other.0);
    Ok(())
}

/// The first bytes of what is left of a journal, for a message.
fn front(journal: &[u8], place: usize) -> &[u8] {
    let rest = journal.get(place..).unwrap_or(&[]);
    rest.get(..MAX_RECORD_LENGTH).unwrap_or(rest)
}
