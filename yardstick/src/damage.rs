//! Damage to journals, of many kinds.

use crate::generate::{pick_edition, sound_journal};
use crate::journal::{append, value_length, Reader, Record, HEAD_LENGTH, OPENING_LENGTH};
use crate::random::Random;

/// The longest journal of bytes that mean nothing.
const LONGEST_NOISE: u32 = 300;

/// Percent of wrong openings that are nearly right, and what those say.
const NEARLY_RIGHT: u32 = 40;
const NEAR_OPENINGS: [[u8; OPENING_LENGTH]; 8] = [
    *b"coh2", *b"moh2", *b"coh0", *b"moh0", *b"COH1", *b"MOH1", *b"msi1", *b"mosi",
];

/// A kind of damage.
#[derive(Clone, Copy)]
enum Damage {
    FlipBits,
    Cut,
    WrongTag,
    WrongLength,
    WrongOpening,
    SecondOpening,
    NoOpening,
    Noise,
    InsertBytes,
    RemoveBytes,
    Glue,
    Empty,
}

/// The kinds of damage with their weights.
const KINDS: [(Damage, u32); 12] = [
    (Damage::FlipBits, 8),
    (Damage::Cut, 5),
    (Damage::WrongTag, 4),
    (Damage::WrongLength, 4),
    (Damage::WrongOpening, 3),
    (Damage::SecondOpening, 3),
    (Damage::NoOpening, 3),
    (Damage::Noise, 3),
    (Damage::InsertBytes, 3),
    (Damage::RemoveBytes, 3),
    (Damage::Glue, 2),
    (Damage::Empty, 1),
];

/// The journal with damage of one kind done.
pub fn damage(random: &mut Random, mut journal: Vec<u8>) -> Vec<u8> {
    match random.weighted(&KINDS) {
        Some(Damage::FlipBits) => flip_bits(random, &mut journal),
        Some(Damage::Cut) => journal.truncate(random.place(journal.len())),
        Some(Damage::WrongTag) => change_tag(random, &mut journal),
        Some(Damage::WrongLength) => change_length(random, &mut journal),
        Some(Damage::WrongOpening) => change_opening(random, &mut journal),
        Some(Damage::SecondOpening) => insert_opening(random, &mut journal),
        Some(Damage::NoOpening) => remove_opening(random, &mut journal),
        Some(Damage::Noise) => journal = noise(random, LONGEST_NOISE),
        Some(Damage::InsertBytes) => insert_bytes(random, &mut journal),
        Some(Damage::RemoveBytes) => remove_bytes(random, &mut journal),
        Some(Damage::Glue) => journal.extend(sound_journal(random)),
        Some(Damage::Empty) | None => journal.clear(),
    }
    journal
}

/// Flips one bit in each of one to three bytes.
fn flip_bits(random: &mut Random, journal: &mut [u8]) {
    for _ in 0..random.between(1, 3) {
        let flipped = 1 << random.below(u8::BITS);
        let place = random.place(journal.len());
        change(journal, place, |byte| byte ^ flipped);
    }
}

/// Gives a record a tag that is unknown, or now and then that of another.
fn change_tag(random: &mut Random, journal: &mut [u8]) {
    let place = pick_record(random, journal);
    let mut tag = random.byte();
    while value_length(tag).is_some() && random.percent(80) {
        tag = random.byte();
    }
    change(journal, place, |_| tag);
}

/// Changes the high or the low byte of a record's length.
fn change_length(random: &mut Random, journal: &mut [u8]) {
    let place = pick_record(random, journal);
    let which = random.place(2);
    let added = random.byte_between(1, 7);
    change(journal, place + 1 + which, |byte| byte.wrapping_add(added));
}

/// Changes one of the opening's four bytes, or makes all four nearly right.
fn change_opening(random: &mut Random, journal: &mut [u8]) {
    if random.percent(NEARLY_RIGHT) {
        let opening = NEAR_OPENINGS[random.place(NEAR_OPENINGS.len())];
        for (which, byte) in opening.into_iter().enumerate() {
            change(journal, HEAD_LENGTH + which, |_| byte);
        }
        return;
    }
    let which = random.place(OPENING_LENGTH);
    let added = random.byte_between(1, u8::MAX);
    change(journal, HEAD_LENGTH + which, |byte| {
        byte.wrapping_add(added)
    });
}

/// Puts an opening before one of the records.
fn insert_opening(random: &mut Random, journal: &mut Vec<u8>) {
    let opening = Record::Opening {
        edition: pick_edition(random),
        cards: random.byte_below(10),
        blocks: random.byte_below(34),
    };
    let place = pick_record(random, journal);
    let rest = journal.split_off(place.min(journal.len()));
    append(journal, opening);
    journal.extend(rest);
}

/// Takes the first records away, at least the opening.
fn remove_opening(random: &mut Random, journal: &mut Vec<u8>) {
    let mut reader = Reader::new(journal);
    for _ in 0..random.between(1, 4) {
        // At the end the place stays, and the whole journal goes.
        let _ = reader.read();
    }
    let kept_from = reader.place();
    journal.drain(..kept_from);
}

/// Puts one to four bytes in anywhere.
fn insert_bytes(random: &mut Random, journal: &mut Vec<u8>) {
    let place = random.place(journal.len());
    let added = noise(random, 4);
    journal.splice(place..place, added);
}

/// Takes one to four bytes out anywhere.
fn remove_bytes(random: &mut Random, journal: &mut Vec<u8>) {
    let first = random.place(journal.len());
    let after = first + random.between(1, 4) as usize;
    journal.drain(first..after.min(journal.len()));
}

/// Bytes that mean nothing, at least one.
fn noise(random: &mut Random, longest: u32) -> Vec<u8> {
    (0..random.between(1, longest))
        .map(|_| random.byte())
        .collect()
}

/// Changes the byte at a place, if there is one.
fn change(journal: &mut [u8], place: usize, to: impl Fn(u8) -> u8) {
    if let Some(byte) = journal.get_mut(place) {
        *byte = to(*byte);
    }
}

/// The place of one of the journal's records.
fn pick_record(random: &mut Random, journal: &[u8]) -> usize {
    let mut reader = Reader::new(journal);
    let mut places = vec![reader.place()];
    while let Ok(Some(_)) = reader.read() {
        places.push(reader.place());
    }
    places.pop();
    let chosen = random.place(places.len());
    places.get(chosen).copied().unwrap_or(0)
}
