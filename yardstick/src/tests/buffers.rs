//! The buffers, places and records that are made up: every kind is drawn.

use crate::fields::{fields_of, record_of, Fields, FIELDS, KIND, TAG};
use crate::journal::{value_length, HEAD_LENGTH, TAGS, TAG_OPENING};
use crate::random::Random;
use crate::refusal::Refusal;
use crate::replay::JOURNAL_LIMIT;
use crate::states::buffers::{draw_reading, draw_writing, Writing};

/// How many seeds are drawn.
const SEEDS: u64 = 4_000;

/// How many of them are of each kind at least.
const OF_A_KIND: usize = 4;

/// How many are of each kind that is at the edge between yes and no.
const AT_THE_EDGE: usize = 250;

/// A kind of writing, how many there are at least, and whether one is such, by
/// the buffer's size, the place and the record's length; none if no record has
/// the tag.
type Kind = (&'static str, usize, fn(usize, usize, Option<usize>) -> bool);

#[rustfmt::skip]
const WRITINGS: [Kind; 11] = [
    ("empty buffer", OF_A_KIND, |size, place, _| size == 0 && place == 0),
    ("past an empty buffer", OF_A_KIND, |size, place, _| size == 0 && place > 0),
    ("buffer too short", OF_A_KIND, |size, place, length| place == 0 && length.is_some_and(|length| size < length)),
    ("just fits", AT_THE_EDGE, |size, place, length| length.is_some_and(|length| size.checked_sub(length) == Some(place))),
    ("one byte short", AT_THE_EDGE, |size, place, length| length.is_some_and(|length| place < size && place + length == size + 1)),
    ("fits with room left", OF_A_KIND, |size, place, length| length.is_some_and(|length| place < size && place + length < size)),
    ("at the end", AT_THE_EDGE, |size, place, _| size > 0 && place == size),
    ("past the end", OF_A_KIND, |size, place, length| place == size + 1 && length.is_some()),
    ("the last place of all", OF_A_KIND, |_, place, length| place == usize::MAX && length.is_some()),
    ("behind the last place of all", AT_THE_EDGE, |_, place, length| length.is_some_and(|length| place.checked_add(length).is_none())),
    ("a long buffer", OF_A_KIND, |size, place, _| size >= JOURNAL_LIMIT && place < size),
];

#[test]
fn every_kind_of_writing_is_drawn() {
    let drawn = |seed| {
        let Writing {
            buffer,
            place,
            fields,
        } = draw_writing(&mut Random::new(seed));
        let length = value_length(fields[TAG] as u8).map(|length| HEAD_LENGTH + length);
        (buffer.len(), place, length)
    };
    let all: Vec<_> = (0..SEEDS).map(drawn).collect();
    for (name, least, is) in WRITINGS {
        let count = all
            .iter()
            .filter(|drawn| is(drawn.0, drawn.1, drawn.2))
            .count();
        assert!(count >= least, "{name}: {count}");
    }
    for tag in TAGS.map(value_length) {
        let length = tag.map(|length| HEAD_LENGTH + length);
        assert!(all.iter().any(|drawn| drawn.2 == length));
    }
    assert!(all.iter().any(|drawn| drawn.2.is_none()));
}

/// The places of a reading, and the numbers that stand there before.
#[test]
fn every_kind_of_reading_is_drawn() {
    let all: Vec<_> = (0..SEEDS)
        .map(|seed| draw_reading(&mut Random::new(seed)))
        .collect();
    let count = |is: fn(usize, usize) -> bool| {
        all.iter()
            .filter(|drawn| is(drawn.journal.len(), drawn.place))
            .count()
    };
    assert!(count(|size, place| size == 0 && place == 0) >= OF_A_KIND);
    assert!(count(|size, place| place < size && size - place < HEAD_LENGTH) >= OF_A_KIND);
    assert!(count(|size, place| place > size) >= OF_A_KIND);
    assert!(count(|_, place| place == usize::MAX) >= OF_A_KIND);
    assert!(count(|size, place| place < size && place > JOURNAL_LIMIT) >= OF_A_KIND);
    assert!(all.iter().all(|drawn| drawn.fields != [0; FIELDS]));
}

/// What numbers are refused with: 21 if no record has the tag, then 23 if an
/// opening's kind is no edition's number.
fn refusal_due(fields: &Fields) -> Option<Refusal> {
    let tag = fields[TAG] as u8;
    if !TAGS.contains(&tag) {
        Some(Refusal::UnknownTag)
    } else if tag == TAG_OPENING && fields[KIND] > 1 {
        Some(Refusal::WrongOpening)
    } else {
        None
    }
}

/// The numbers of a record give it again, and those of none are refused.
#[test]
fn numbers_and_records_undo_each_other() {
    for seed in 0..SEEDS {
        let fields = draw_writing(&mut Random::new(seed)).fields;
        let record = record_of(&fields);
        assert_eq!(record.err(), refusal_due(&fields));
        if let Ok(record) = record {
            let own = fields_of(record);
            assert_eq!(record_of(&own), Ok(record));
            // What it has is as it was, and what it has not is 0.
            assert!(own
                .iter()
                .zip(fields)
                .all(|(own, field)| *own == field || *own == 0));
        }
    }
}
