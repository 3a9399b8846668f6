//! Reading and writing one record.

use super::records;
use crate::edition::{Edition, EDITIONS};
use crate::generate::generate;
use crate::journal::{append, read_record, write_record, Reader, Record};
use crate::refusal::Refusal;
use crate::script::{journal_of, order, start, start_of, store};

/// What reading the first record of these bytes refuses with.
fn refused(bytes: &[u8]) -> Option<Refusal> {
    let mut reader = Reader::new(bytes);
    let refusal = reader.read().err();
    assert_eq!(reader.place(), 0, "a refusal keeps the place");
    refusal
}

#[test]
fn under_three_bytes_left_is_20() {
    assert_eq!(refused(&[0x14]), Some(Refusal::CutShort));
    assert_eq!(refused(&[0x99, 0]), Some(Refusal::CutShort));
}

#[test]
fn unknown_tag_is_21() {
    for tag in (0..=255).filter(|tag| ![1, 16, 17, 18, 19, 20, 21, 22, 23].contains(tag)) {
        assert_eq!(refused(&[tag, 255, 255]), Some(Refusal::UnknownTag));
    }
}

#[test]
fn wrong_length_is_22() {
    assert_eq!(refused(&[0x14, 0, 1]), Some(Refusal::WrongLength));
    assert_eq!(refused(&[0x14, 1, 0, 0]), Some(Refusal::WrongLength));
    assert_eq!(refused(&[0x11, 0, 5, 0, 0]), Some(Refusal::WrongLength));
}

#[test]
fn value_cut_short_is_20() {
    let whole = journal_of([store(1, 2, 3)]);
    for length in 1..whole.len() {
        assert_eq!(refused(&whole[..length]), Some(Refusal::CutShort));
    }
    let opening = journal_of([start(1, 1)]);
    assert_eq!(refused(&opening[..8]), Some(Refusal::CutShort));
}

#[test]
fn wrong_opening_bytes_are_23() {
    for edition in EDITIONS {
        for place in 3..7 {
            let mut opening = journal_of([start_of(edition, 1, 1)]);
            opening[place] ^= 1;
            assert_eq!(refused(&opening), Some(Refusal::WrongOpening));
        }
    }
    for bytes in [b"moh2", b"coh2", b"MOH1", b"mosi", b"1hom", b"\0\0\0\x01"] {
        let opening = [&[1, 0, 6], &bytes[..], &[2, 1]].concat();
        assert_eq!(refused(&opening), Some(Refusal::WrongOpening), "{bytes:?}");
    }
}

/// The bytes of an opening of each edition, by the paper.
#[test]
fn the_opening_says_the_edition() {
    for (edition, bytes) in [
        (Edition::Msi, b"\x01\x00\x06coh1\x02\x01"),
        (Edition::Mosi, b"\x01\x00\x06moh1\x02\x01"),
    ] {
        let opening = start_of(edition, 2, 1);
        assert_eq!(journal_of([opening]), bytes);
        assert_eq!(read_record(bytes, 0), Ok(Some((opening, 9))));
    }
}

#[test]
fn the_end_keeps_the_place() {
    let journal = journal_of([order()]);
    let mut reader = Reader::new(&journal);
    assert_eq!(reader.read(), Ok(Some(order())));
    for _ in 0..2 {
        assert_eq!(reader.read(), Ok(None));
        assert_eq!(reader.place(), journal.len());
    }
    for past in [4, 5, usize::MAX] {
        assert_eq!(read_record(&journal, past), Ok(None));
    }
}

#[test]
fn reader_and_writer_undo_each_other() {
    for seed in 0..50 {
        let journal = generate(seed, false);
        let mut again = Vec::new();
        for record in records(&journal) {
            append(&mut again, record);
        }
        assert_eq!(again, journal, "seed {seed}");
    }
}

#[test]
fn writing_touches_its_own_bytes_only_or_refuses_with_24() {
    for record in [
        start(2, 3),
        start_of(Edition::Mosi, 2, 3),
        store(4, 5, 6),
        order(),
    ] {
        let bytes = journal_of([record]);
        for length in 0..16 {
            for place in 0..20 {
                write_and_check(record, &bytes, length, place);
            }
            write_and_check(record, &bytes, length, usize::MAX);
        }
    }
}

/// Writes a record into a buffer of this length at this place.
fn write_and_check(record: Record, bytes: &[u8], length: usize, place: usize) {
    let mut buffer = vec![0xEE; length];
    let mut expected = buffer.clone();
    let answer = write_record(&mut buffer, place, record);
    if length.saturating_sub(place) < bytes.len() {
        assert_eq!(answer, Err(Refusal::NoRoom));
    } else {
        assert_eq!(answer, Ok(place + bytes.len()));
        expected[place..place + bytes.len()].copy_from_slice(bytes);
    }
    assert_eq!(buffer, expected);
}
