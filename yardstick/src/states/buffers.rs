//! Records to be written and read at any place of any buffer.

use super::draws::{one_of, value};
use crate::chassis::Mask;
use crate::edition::EDITIONS;
use crate::fields::{record_of, Fields, BLOCK, CARD, FIELDS, KIND, MASK, POSITION, STORED, TAG};
use crate::journal::{append, value_length, HEAD_LENGTH, MAX_RECORD_LENGTH, TAGS};
use crate::random::Random;
use crate::replay::JOURNAL_LIMIT;

/// Percent of tags that may be of no record.
const ANY_TAG: u32 = 15;

/// Percent of kinds that an opening takes for an edition.
const AN_EDITION: u32 = 70;

/// Most buffers have no more bytes than this, so that a record often just fits.
const SHORT: usize = 3 * MAX_RECORD_LENGTH;

/// One buffer in so many is longer than a journal that the program reads.
const ONE_LONG_IN: u32 = 100;

/// Percent of readings at the record's own place.
const AT_THE_RECORD: u32 = 80;

/// How far past the end, or before the last place of all, a place is.
const NEAR: usize = 2 * MAX_RECORD_LENGTH;

/// A record's numbers, to be written at a place of a buffer.
pub struct Writing {
    pub buffer: Vec<u8>,
    pub place: usize,
    pub fields: Fields,
}

/// A place of a journal to be read, and what stands in the numbers before.
pub struct Reading {
    pub journal: Vec<u8>,
    pub place: usize,
    pub fields: Fields,
}

/// A record to be written.
pub fn draw_writing(random: &mut Random) -> Writing {
    let buffer = buffer(random);
    let fields = fields(random);
    let place = place(random, buffer.len(), length_of(&fields));
    Writing {
        buffer,
        place,
        fields,
    }
}

/// A record to be read behind bytes that mean nothing, whole or damaged, or
/// another place to be read.
pub fn draw_reading(random: &mut Random) -> Reading {
    let mut journal = buffer(random);
    let (at, fields) = (journal.len(), fields(random));
    if let Ok(record) = record_of(&fields) {
        append(&mut journal, record);
    }
    for _ in 0..random.below(3) {
        damage_from(random, &mut journal, at);
    }
    let place = if random.percent(AT_THE_RECORD) {
        at
    } else {
        place(random, journal.len(), length_of(&fields))
    };
    Reading {
        journal,
        place,
        fields: [(); FIELDS].map(|()| random.bits()),
    }
}

/// Numbers of a record. Those that it has not are there, too.
fn fields(random: &mut Random) -> Fields {
    let mut fields = [0; FIELDS];
    for at in [CARD, BLOCK, KIND, POSITION] {
        fields[at] = random.byte().into();
    }
    if random.percent(AN_EDITION) {
        fields[KIND] = one_of(random, EDITIONS).number().into();
    }
    fields[MASK] = (random.bits() as Mask).into();
    fields[STORED] = value(random).into();
    fields[TAG] = if random.percent(ANY_TAG) {
        random.byte().into()
    } else {
        one_of(random, TAGS).into()
    };
    fields
}

/// How long the record of these numbers is; a head, if there is none.
fn length_of(fields: &Fields) -> usize {
    HEAD_LENGTH + value_length(fields[TAG] as u8).unwrap_or(0)
}

/// Bytes that mean nothing, or none.
fn buffer(random: &mut Random) -> Vec<u8> {
    let length = if random.below(ONE_LONG_IN) == 0 {
        JOURNAL_LIMIT + random.place(SHORT)
    } else {
        random.place(SHORT + 1)
    };
    let mut buffer = vec![0; length];
    buffer.fill_with(|| random.byte());
    buffer
}

/// A place of a buffer: any, the last one where a record just fits and those
/// beside it, the end, one past it, or one of the last numbers of all.
fn place(random: &mut Random, size: usize, length: usize) -> usize {
    let any = random.place(size + 1);
    let fits = size.wrapping_sub(length);
    let past = size + random.place(NEAR);
    let last = usize::MAX - random.place(NEAR);
    let (before, after) = (fits.wrapping_sub(1), fits.wrapping_add(1));
    one_of(random, [0, any, fits, before, after, size, past, last])
}

/// Changes the record from a place on: it is cut, or a byte is replaced, or
/// bytes follow it.
fn damage_from(random: &mut Random, journal: &mut Vec<u8>, at: usize) {
    let within = at + random.place(journal.len() - at);
    let in_head = at + random.place(HEAD_LENGTH);
    match random.below(4) {
        0 => journal.truncate(within),
        1 => replace(journal, within, random.byte()),
        2 => replace(journal, in_head, random.byte()),
        _ => journal.extend(buffer(random)),
    }
}

/// Replaces the byte at a place, if there is one.
fn replace(journal: &mut [u8], at: usize, by: u8) {
    if let Some(byte) = journal.get_mut(at) {
        *byte = by;
    }
}
