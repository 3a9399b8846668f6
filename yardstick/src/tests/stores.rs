//! Which stores a Rejoin strikes.

use crate::events::Event;
use crate::explain::{explain, Look};
use crate::generate::generate;
use crate::journal::Record;
use crate::run::Run;
use crate::script::{ask, deliver, journal_of, order, rejoin, start, store};
use crate::stores::Struck;
use crate::table::{GETS, GETX, PUTX};

/// What each record of a journal strikes.
fn struck(journal: &[u8]) -> Vec<Vec<Struck>> {
    let mut run = Run::new(journal);
    let mut all = Vec::new();
    while let Some(seen) = run.see() {
        all.push(seen.struck.to_vec());
    }
    all
}

/// What the last record strikes.
fn struck_at_last<const COUNT: usize>(records: [Record; COUNT]) -> Vec<Struck> {
    let last = struck(&journal_of(records)).pop();
    last.expect("there is a record")
}

/// Card 0 with block 0 in M.
const FETCHED: fn() -> [Record; 4] = || [start(2, 2), ask(0, 0, GETX, 0), order(), deliver(0)];

#[test]
fn unsettled_stores_are_struck() {
    let [a, b, c, d] = FETCHED();
    let stores = [store(0, 0, 5), store(0, 0, 9), store(0, 1, 1)];
    let [e, f, refused] = stores;
    let both = Struck {
        card: 0,
        block: 0,
        stores: 2,
        last: 9,
    };
    assert_eq!(
        struck_at_last([a, b, c, d, e, f, refused, rejoin(0)]),
        [both]
    );
    assert_eq!(
        both.to_string(),
        "block 0: 2 stores of card 0, the last of value 9"
    );
    let one = Struck {
        stores: 1,
        last: 5,
        ..both
    };
    assert_eq!(struck_at_last([a, b, c, d, e, rejoin(0)]), [one]);
    assert_eq!(one.to_string(), "block 0: 1 store of card 0, of value 5");
    assert_eq!(struck_at_last([a, b, c, d, e, rejoin(1)]), []);
    assert_eq!(struck_at_last([a, b, c, d, e, rejoin(0), rejoin(0)]), []);
    assert_eq!(struck_at_last([a, b, c, d, e, rejoin(2)]), []);
}

/// Outcome 1 and 3 settle, outcome 2 and an Order for another block do not.
#[test]
fn a_settled_store_is_not_struck() {
    let [a, b, c, d] = FETCHED();
    let count = |asked: Record| {
        let records = [a, b, c, d, store(0, 0, 5), asked, order(), rejoin(0)];
        struck_at_last(records).len()
    };
    assert_eq!(count(ask(1, 0, GETS, 1)), 0);
    assert_eq!(count(ask(1, 0, GETX, 1)), 0);
    assert_eq!(count(ask(0, 0, PUTX, 0)), 0);
    assert_eq!(count(ask(1, 0, GETX, 0)), 1);
    assert_eq!(count(ask(1, 1, GETX, 0)), 1);
}

#[test]
fn stores_to_several_blocks_are_told_by_block() {
    let journal = journal_of([
        start(1, 2),
        ask(0, 1, GETX, 0),
        order(),
        deliver(0),
        store(0, 1, 8),
        ask(0, 0, GETX, 0),
        order(),
        deliver(0),
        store(0, 0, 7),
        store(0, 0, 6),
        rejoin(0),
    ]);
    let expected = "  struck block 0: 2 stores of card 0, the last of value 6\n  \
                      struck block 1: 1 store of card 0, of value 8\n";
    let text = explain(&journal, Look::Plain);
    assert!(text.contains(expected), "{text}");
}

/// An accepted event with its value, and the block that it is about: for an
/// Order the head's.
type Accepted = (Event, u32, Option<u8>);

/// The paper's sentence, word for word and slowly: the stores of a card before
/// this event that no later Order for the block settled with outcome 1 or 3,
/// and no Rejoin of the card has struck.
fn by_the_paper(before: &[Accepted], card: u8) -> Vec<Struck> {
    let is_unsettled = |at: usize, block: u8| {
        before[at + 1..]
            .iter()
            .all(|(event, value, about)| match event {
                Event::Order => *about != Some(block) || !matches!(value, 1 | 3),
                Event::Rejoin { card: other } => *other != card,
                _ => true,
            })
    };
    let mut found: Vec<Struck> = Vec::new();
    for (at, (event, ..)) in before.iter().enumerate() {
        match *event {
            Event::Store {
                card: other,
                block,
                value,
            } if other == card && is_unsettled(at, block) => {
                let earlier = found.iter_mut().find(|struck| struck.block == block);
                match earlier {
                    Some(struck) => (struck.stores, struck.last) = (struck.stores + 1, value),
                    None => found.push(Struck {
                        card,
                        block,
                        stores: 1,
                        last: value,
                    }),
                }
            }
            _ => {}
        }
    }
    found.sort_by_key(|struck| struck.block);
    found
}

#[test]
fn generated_runs_strike_what_the_paper_strikes() {
    let mut strikes = 0;
    for seed in 0..600 {
        let journal = generate(seed, seed % 2 == 1);
        let mut run = Run::new(&journal);
        let mut accepted = Vec::new();
        while let Some(seen) = run.see() {
            let (Some(event), Ok(value)) = (seen.event(), seen.line.answer) else {
                assert_eq!(seen.struck, [], "seed {seed}");
                continue;
            };
            let due = match event {
                Event::Rejoin { card } => by_the_paper(&accepted, card),
                _ => Vec::new(),
            };
            assert_eq!(seen.struck, due, "seed {seed}");
            strikes += due.len();
            accepted.push((event, value, seen.before.head().map(|head| head.block)));
        }
    }
    assert!(strikes > 100, "{strikes}");
}
