//! The records of the stored journals that are written by hand.

use crate::chassis::POOL_ROOM;
use crate::edition::Edition;
use crate::journal::{Record, MAX_RECORD_LENGTH};
use crate::replay::JOURNAL_LIMIT;
use crate::script::{ask, copy, deliver, drop_copy, load, order, rejoin, start, start_of, store};
use crate::table::{GETS, GETX, PUTX};

/// Each refusal that needs no long history, also where two tests say no.
pub fn plain_refusals(edition: Edition) -> Vec<Record> {
    let mut records = vec![start_of(edition, 2, 2)];
    for (card, block) in [(2, 2), (0, 2), (0, 0)] {
        records.extend([
            load(card, block),
            store(card, block, 1),
            drop_copy(card, block),
        ]);
        records.extend([ask(card, block, 0, 255), ask(card, block, 4, 255)]);
    }
    records.extend([
        ask(0, 0, PUTX, 4),
        ask(0, 0, PUTX, 3),
        order(),
        deliver(0),
        copy(0),
        rejoin(2),
        // A held block is ordered for no one.
        ask(0, 0, GETS, 0),
        order(),
        ask(1, 0, GETS, 0),
        order(),
        rejoin(1),
        ask(1, 0, GETX, 0),
        order(),
        deliver(0),
        drop_copy(0, 0),
        load(0, 0),
    ]);
    records
}

/// Asks of two cards for all blocks fill the line.
pub fn full_line(edition: Edition) -> Vec<Record> {
    let mut records = vec![start_of(edition, 8, 32)];
    for block in 0..32 {
        records.extend([ask(0, block, GETS, 0), ask(1, block, GETX, 0)]);
    }
    records.extend([
        ask(2, 0, GETX, 0),
        order(),
        ask(2, 0, GETX, 0),
        ask(2, 1, GETX, 0),
        rejoin(0),
        ask(2, 1, GETX, 0),
        order(),
        deliver(0),
        order(),
    ]);
    records
}

/// A full pool: a put needs no room in it, a fetch does.
pub fn full_pool(edition: Edition) -> Vec<Record> {
    let mut records = vec![start_of(edition, 2, 1), ask(0, 0, GETX, 0), order()];
    records.extend([copy(0); POOL_ROOM - 1]);
    records.extend([
        copy(0),
        deliver(64),
        deliver(63),
        copy(62),
        copy(0),
        store(0, 0, 9),
        ask(0, 0, PUTX, 0),
        order(),
        ask(0, 0, GETS, 0),
        order(),
        rejoin(0),
        ask(1, 0, GETX, 0),
        order(),
        deliver(5),
        order(),
        deliver(63),
        load(1, 0),
    ]);
    records
}

/// Card 1's request is sent back three times, since cards 0 and 2 hand the
/// block to and fro. With every card in its mask it waits for the held block,
/// then for room in the pool, and is granted. A stale message stays at the
/// pool's head, to be copied.
pub fn last_retry(edition: Edition, kind: u8) -> Vec<Record> {
    let mut records = vec![
        start_of(edition, 3, 1),
        ask(0, 0, GETX, 0),
        order(),
        copy(0),
        deliver(0),
    ];
    records.push(ask(1, 0, kind, 0));
    for (card, owner, value) in [(2, 0, 5), (0, 2, 6), (2, 0, 7)] {
        records.extend([
            ask(card, 0, GETX, 1 << owner),
            order(),
            order(),
            order(),
            deliver(1),
            store(card, 0, value),
        ]);
    }
    records.extend([copy(0); POOL_ROOM - 1]);
    records.extend([order(), deliver(0), order(), deliver(63), load(1, 0)]);
    records
}

/// More bytes than are read. Stores are the longest events, so the lines are
/// few; one store has its first two bytes before the limit and the rest past
/// it.
pub fn longer_than_read() -> Vec<Record> {
    let mut records = vec![start(1, 1), ask(0, 0, GETX, 0), order(), deliver(0)];
    records.extend([store(0, 0, 7); JOURNAL_LIMIT / MAX_RECORD_LENGTH]);
    records
}

/// What an owned copy gives no right to, state by state, and what becomes of it:
/// a GETS that misses the owner in O and in OM_AD, an upgrade that waits, one
/// that is sent back and then lost to a rejoin, and a put with no sharer left.
pub fn owned_copies() -> Vec<Record> {
    let no_right = |card: u8, refused_kind: u8| {
        let refused = [store(card, 0, 1), drop_copy(card, 0)];
        let asked = [ask(card, 0, refused_kind, 0)];
        [&[load(card, 0)][..], &refused, &asked].concat()
    };
    let mut records = vec![start_of(Edition::Mosi, 4, 1), ask(0, 0, GETX, 0), order()];
    records.extend([deliver(0), store(0, 0, 7)]);
    records.extend([ask(1, 0, GETS, 0b0001), order(), deliver(0)]);
    records.extend(no_right(0, GETS));
    records.extend([ask(2, 0, GETS, 0), order(), ask(0, 0, GETX, 0b0010)]);
    records.extend(no_right(0, PUTX));
    records.extend([order(), order(), deliver(0), ask(3, 0, GETS, 0)]);
    records.extend([order(), order(), rejoin(0), order(), deliver(0)]);
    records.extend([load(2, 0), load(3, 0)]);
    records.extend([ask(1, 0, GETX, 0b1100), order(), deliver(0)]);
    records.extend([store(1, 0, 8), ask(2, 0, GETS, 0b0010), order()]);
    records.extend([deliver(0), rejoin(2), ask(1, 0, PUTX, 0)]);
    records.extend(no_right(1, GETX));
    records.extend([order(), load(1, 0)]);
    records
}

/// A put of an owned copy: before it a GETS misses the owner, a GETX names it
/// and misses a sharer, and a GETS is granted by it, whose data the put waits
/// for. The put leaves the sharers to those that come after it.
pub fn owned_put() -> Vec<Record> {
    let mut records = vec![start_of(Edition::Mosi, 5, 1), ask(0, 0, GETX, 0), order()];
    records.extend([deliver(0), store(0, 0, 7)]);
    records.extend([ask(1, 0, GETS, 0b00001), order(), deliver(0)]);
    records.extend([ask(2, 0, GETS, 0), ask(3, 0, GETX, 0b00001)]);
    records.extend([ask(4, 0, GETS, 0b00001), ask(0, 0, PUTX, 0)]);
    records.extend([order(), order(), order(), order(), deliver(0), order()]);
    records.extend([load(0, 0), load(1, 0), load(4, 0)]);
    records.extend([
        order(),
        deliver(0),
        order(),
        order(),
        deliver(0),
        load(3, 0),
    ]);
    records
}

/// An upgrade needs room in the pool, as every grant does.
pub fn full_pool_upgrade() -> Vec<Record> {
    let mut records = vec![start_of(Edition::Mosi, 2, 1), ask(0, 0, GETX, 0), order()];
    records.extend([deliver(0), store(0, 0, 7), ask(1, 0, GETS, 1), order()]);
    records.extend([copy(0); POOL_ROOM - 1]);
    records.extend([deliver(0), copy(0), ask(0, 0, GETX, 0b10), order()]);
    records.extend([deliver(0), order(), deliver(63), store(0, 0, 8), load(0, 0)]);
    records
}
