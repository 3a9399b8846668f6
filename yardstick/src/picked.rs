//! The fixed set of journals that are stored: the marked sequences, journals
//! written by hand, damaged ones, and a few of fixed seeds. Together they
//! reach every case that a journal can reach, in both editions.

use crate::by_hand::{
    full_line, full_pool, full_pool_upgrade, last_retry, longer_than_read, owned_copies, owned_put,
    plain_refusals,
};
use crate::characters::{CONTENTION, OWNERS, REJOINS};
use crate::edition::Edition;
use crate::generate::generate_of;
use crate::journal::HEAD_LENGTH;
use crate::marked::marked_sequences;
use crate::script::{ask, journal_of, order, start, start_of, store};
use crate::table::{GETS, GETX};

/// How many events a stored journal of a fixed seed has.
const EVENTS: usize = 1_000;

/// A journal named by what it shows.
pub struct Picked {
    pub name: String,
    pub journal: Vec<u8>,
}

/// All picked journals, in the order used.
pub fn picked_journals() -> Vec<Picked> {
    let (msi, mosi) = (Edition::Msi, Edition::Mosi);
    let mut all = Vec::new();
    for marked in marked_sequences() {
        all.push(picked(marked.name, marked.journal()));
    }
    all.extend(written_by_hand(msi));
    all.push(picked("longer_than_read", journal_of(longer_than_read())));
    all.extend(damaged());
    all.extend(damaged_at_once());
    all.extend([
        picked("contention_1", generate_of(msi, &CONTENTION, 1, EVENTS)),
        picked("rejoins_1", generate_of(msi, &REJOINS, 1, EVENTS)),
    ]);
    for same in written_by_hand(mosi) {
        all.push(picked(&format!("mosi_{}", same.name), same.journal));
    }
    all.extend(damaged_openings_of_mosi());
    all.extend([
        picked("owned_copies", journal_of(owned_copies())),
        picked("owned_put", journal_of(owned_put())),
        picked("full_pool_upgrade", journal_of(full_pool_upgrade())),
        picked("owners_1", generate_of(mosi, &OWNERS, 1, EVENTS)),
    ]);
    all
}

/// A name with its journal.
fn picked(name: &str, journal: Vec<u8>) -> Picked {
    let name = name.to_string();
    Picked { name, journal }
}

/// The journals written by hand that have no damage and are of either edition.
fn written_by_hand(edition: Edition) -> [Picked; 7] {
    let refused = |cards, blocks| journal_of([start_of(edition, cards, blocks), order()]);
    [
        picked("no_cards", refused(0, 1)),
        picked("too_many_blocks", refused(8, 33)),
        picked("plain_refusals", journal_of(plain_refusals(edition))),
        picked("full_line", journal_of(full_line(edition))),
        picked("full_pool", journal_of(full_pool(edition))),
        picked("last_retry_gets", journal_of(last_retry(edition, GETS))),
        picked("last_retry_getx", journal_of(last_retry(edition, GETX))),
    ]
}

/// An opening of MOSI that is wrong, and one that is not the first record.
fn damaged_openings_of_mosi() -> [Picked; 2] {
    let opening = start_of(Edition::Mosi, 2, 1);
    let mut wrong_opening = journal_of([opening, order()]);
    wrong_opening[HEAD_LENGTH + 3] = b'2';
    [
        picked(
            "mosi_second_opening",
            journal_of([opening, order(), opening]),
        ),
        picked("mosi_wrong_opening", wrong_opening),
    ]
}

/// The damaged journals: good records, then the damage.
fn damaged() -> [Picked; 8] {
    let good = || vec![start(2, 1), ask(0, 0, GETX, 0), order()];
    let cut_in = |left: usize| {
        let mut journal = journal_of(good());
        let whole = journal.len();
        journal.extend(journal_of([store(0, 0, 7)]));
        journal.truncate(whole + left);
        journal
    };
    let and = |bytes: &[u8]| [&journal_of(good()), bytes].concat();
    let mut wrong_opening = journal_of(good());
    wrong_opening[HEAD_LENGTH] = b'C';
    [
        picked("empty", Vec::new()),
        picked("first_not_an_opening", journal_of([order(), start(2, 1)])),
        picked("second_opening", and(&journal_of([start(0, 0), order()]))),
        picked("cut_in_a_head", cut_in(HEAD_LENGTH - 1)),
        picked("cut_in_a_value", cut_in(HEAD_LENGTH + 5)),
        picked("unknown_tag", and(&[0x18, 0, 0])),
        picked("wrong_length", and(&[0x14, 1, 0])),
        picked("wrong_opening", wrong_opening),
    ]
}

/// The journals with the damage in the first record. What follows it, if
/// anything, is sound.
fn damaged_at_once() -> [Picked; 3] {
    let good = journal_of([start(2, 1), order()]);
    let mut wrong_length = good.clone();
    wrong_length[HEAD_LENGTH - 1] += 1;
    [
        picked("first_cut_in_its_head", good[..HEAD_LENGTH - 1].to_vec()),
        picked("first_tag_unknown", [&[0x18, 0, 0], &good[..]].concat()),
        picked("first_of_wrong_length", wrong_length),
    ]
}
