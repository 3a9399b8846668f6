//! The journals of seeds: always the same, and wide enough.

use crate::counts::Counts;
use crate::generate::generate;
use crate::replay::JOURNAL_LIMIT;

/// The checksum of the journals of the first seeds.
const CHECKSUM: u64 = 0x0E87_F4BB_DEB7_1C6D;

/// How many seeds are summed.
const SUMMED: u64 = 100;

/// FNV-1a over bytes, from a sum so far.
fn add(sum: u64, bytes: &[u8]) -> u64 {
    bytes.iter().fold(sum, |sum, byte| {
        (sum ^ u64::from(*byte)).wrapping_mul(0x0000_0100_0000_01B3)
    })
}

#[test]
fn a_seed_gives_the_same_journal_always() {
    let mut sum = 0xCBF2_9CE4_8422_2325;
    for seed in 0..SUMMED {
        sum = add(sum, &generate(seed, false));
        sum = add(sum, &generate(seed, true));
    }
    assert_eq!(sum, CHECKSUM);
}

#[test]
fn every_case_is_reached() {
    assert_eq!(Counts::of_seeds(2_000).complaint(), None);
}

#[test]
fn what_is_missing_is_named() {
    let complaint = Counts::default().complaint();
    let complaint = complaint.expect("all is missing");
    for missing in [
        "not reached: MSI, deliver: outcome 2",
        "not reached: MOSI, deliver: outcome 2",
        "not reached: reading: refusal 21",
        "not reached: MOSI, GETS granted, owner in OI_A",
    ] {
        assert!(complaint.lines().any(|line| line == missing), "{missing}");
    }
}

/// Whether a journal begins with these four bytes in its opening.
fn opens_with(journal: &[u8], bytes: &[u8; 4]) -> bool {
    journal.get(3..7) == Some(bytes)
}

#[test]
fn half_of_the_journals_are_of_mosi() {
    let journals: Vec<_> = (0..1_000).map(|seed| generate(seed, false)).collect();
    let [msi, mosi] = [b"coh1", b"moh1"].map(|bytes| {
        let of_edition = journals.iter().filter(|journal| opens_with(journal, bytes));
        of_edition.count()
    });
    assert_eq!(msi + mosi, 1_000);
    assert!((450..550).contains(&mosi), "{mosi}");
}

#[test]
fn some_openings_are_nearly_right() {
    for bytes in [b"coh2", b"moh2", b"MOH1", b"mosi"] {
        let mut journals = (0..2_000).map(|seed| generate(seed, true));
        assert!(
            journals.any(|journal| opens_with(&journal, bytes)),
            "{bytes:?}"
        );
    }
}

#[test]
fn some_journals_are_empty_and_some_are_past_the_limit() {
    let lengths: Vec<usize> = (0..600)
        .map(|seed| generate(seed, seed % 2 == 1).len())
        .collect();
    assert!(lengths.contains(&0));
    assert!(lengths.iter().any(|length| *length > JOURNAL_LIMIT));
}
