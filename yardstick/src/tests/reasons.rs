//! Why a record is refused, in words written from the paper.

use super::busy_chassis;
use crate::chassis::{Chassis, OrderNumber, Request, Retry, HOME};
use crate::edition::Edition;
use crate::events::Event;
use crate::explain::{explain, Look};
use crate::generate::generate;
use crate::journal::Record;
use crate::picture::{page, Picture};
use crate::reasons::{reason, refused};
use crate::refusal::Refusal;
use crate::replay::JOURNAL_LIMIT;
use crate::run::Run;
use crate::script::{
    ask, copy, deliver, drop_copy, journal_of, load, order, rejoin, start, start_of, store,
};
use crate::table::{GETS, GETX, O, OI_A, OM_AD, PUTX, S};

/// The lines of `explain` that say why, each with the answer before it.
fn told(journal: &[u8]) -> Vec<(String, String)> {
    let text = explain(journal, Look::Plain);
    let lines: Vec<&str> = text.lines().collect();
    let mut told = Vec::new();
    for pair in lines.windows(2) {
        if let Some(why) = pair[1].strip_prefix("  why    ") {
            let answer = pair[0].strip_prefix("  answer ").expect("an answer");
            told.push((answer.to_string(), why.to_string()));
        }
    }
    told
}

/// The reason that is told last, which has to have this answer.
fn last(records: impl IntoIterator<Item = Record>, answer: &str) -> String {
    let (found, why) = told(&journal_of(records)).pop().expect(answer);
    assert!(found.starts_with(answer), "{found} is not {answer}");
    why
}

/// Card 0 with block 0 in M, of 2 cards and 1 block.
fn fetched() -> Vec<Record> {
    vec![start(2, 1), ask(0, 0, GETX, 0), order(), deliver(0)]
}

/// These records, then one more.
fn then(records: Vec<Record>, more: impl IntoIterator<Item = Record>) -> Vec<Record> {
    records.into_iter().chain(more).collect()
}

#[test]
fn refusals_1_and_2_say_how_many_there_are() {
    for event in [
        load(2, 0),
        store(2, 0, 1),
        drop_copy(2, 0),
        ask(2, 0, 1, 0),
        rejoin(2),
    ] {
        assert_eq!(
            last([start(2, 1), event], "1 0"),
            "the chassis has 2 cards, numbered from 0"
        );
    }
    assert_eq!(
        last([start(1, 1), rejoin(255)], "1 0"),
        "the chassis has 1 card, numbered from 0"
    );
    for event in [
        load(0, 32),
        store(0, 32, 1),
        drop_copy(0, 32),
        ask(0, 32, 1, 0),
    ] {
        assert_eq!(
            last([start(2, 32), event], "2 0"),
            "the chassis has 32 blocks, numbered from 0"
        );
    }
}

#[test]
fn refusal_3_says_the_state() {
    assert_eq!(
        last([start(1, 1), store(0, 0, 7)], "3 0"),
        "card 0 is in I (0) for block 0, which gives no right to store"
    );
    let asked = [start(2, 3), ask(1, 2, GETS, 0), load(1, 2)];
    assert_eq!(
        last(asked, "3 0"),
        "card 1 is in IS_AD (3) for block 2, which gives no right to load"
    );
    assert_eq!(
        last(then(fetched(), [drop_copy(0, 0)]), "3 0"),
        "card 0 is in M (2) for block 0, which gives no right to drop"
    );
}

#[test]
fn refusal_4_says_the_state_and_what_it_allows() {
    assert_eq!(
        last([start(1, 1), ask(0, 0, PUTX, 0)], "4 0"),
        "card 0 is in I (0) for block 0, which allows GETS and GETX only"
    );
    let shared = [start(1, 1), ask(0, 0, GETS, 0), order(), deliver(0)];
    assert_eq!(
        last(then(shared.to_vec(), [ask(0, 0, GETS, 0)]), "4 0"),
        "card 0 is in S (1) for block 0, which allows GETX only"
    );
    assert_eq!(
        last(then(fetched(), [ask(0, 0, GETX, 0)]), "4 0"),
        "card 0 is in M (2) for block 0, which allows PUTX only"
    );
    let twice = [start(1, 1), ask(0, 0, GETX, 0), ask(0, 0, GETX, 0)];
    assert_eq!(
        last(twice, "4 0"),
        "card 0 is in IM_AD (4) for block 0, which allows no ask"
    );
}

/// Card 0 with block 0 in O and card 1 with a copy, of 3 cards and 1 block.
fn owned() -> Vec<Record> {
    let started = [start_of(Edition::Mosi, 3, 1), ask(0, 0, GETX, 0), order()];
    let shared = [deliver(0), ask(1, 0, GETS, 1), order(), deliver(0)];
    started.into_iter().chain(shared).collect()
}

#[test]
fn owned_copies_are_told_by_their_states() {
    assert_eq!(
        last(then(owned(), [store(0, 0, 1)]), "3 0"),
        "card 0 is in O (11) for block 0, which gives no right to store"
    );
    assert_eq!(
        last(then(owned(), [ask(0, 0, GETS, 0)]), "4 0"),
        "card 0 is in O (11) for block 0, which allows GETX and PUTX only"
    );
    let putting = [ask(0, 0, PUTX, 0), drop_copy(0, 0)];
    assert_eq!(
        last(then(owned(), putting), "3 0"),
        "card 0 is in OI_A (13) for block 0, which gives no right to drop"
    );
}

/// An upgrade misses sharers alone, another's request the owner too.
#[test]
fn what_a_mask_misses_of_an_owned_copy() {
    assert_eq!(
        last(then(owned(), [ask(0, 0, GETX, 0), order()]), "0 2"),
        "the mask 00000000 misses card 1 (sharer)"
    );
    assert_eq!(
        last(then(owned(), [ask(2, 0, GETX, 0), order()]), "0 2"),
        "the mask 00000000 misses card 0 (owner) and card 1 (sharer)"
    );
    assert_eq!(
        last(then(owned(), [ask(2, 0, GETS, 2), order()]), "0 2"),
        "the mask 00000010 misses card 0 (owner)"
    );
}

#[test]
fn refusals_5_and_6_say_the_kind_and_the_cards() {
    assert_eq!(
        last([start(2, 1), ask(0, 0, 9, 0)], "5 0"),
        "the kind is 9, and the kinds are GETS (1), GETX (2) and PUTX (3)"
    );
    assert_eq!(
        last([start(2, 1), ask(0, 0, 1, 0b1000_0111)], "6 0"),
        "the mask names cards 2 and 7, and the chassis has 2 cards, numbered from 0"
    );
}

/// The 65th waiting ask: 64 of 8 cards for 8 blocks, and one more.
#[test]
fn refusal_7_says_that_64_wait() {
    let asks = (0..64).map(|number| ask(number / 8, number % 8, GETS, 0));
    let records = [start(8, 9)].into_iter().chain(asks);
    assert_eq!(
        last(records.chain([ask(0, 8, GETS, 0)]), "7 0"),
        "the line has room for 64 requests, and 64 wait"
    );
}

/// Another block that is held is none of it.
#[test]
fn refusal_9_says_the_head_and_who_awaits_what() {
    let records = [
        start(3, 2),
        ask(2, 1, GETX, 0),
        order(),
        ask(1, 0, GETS, 0),
        order(),
        ask(0, 0, GETX, 2),
        order(),
    ];
    assert_eq!(
        last(records, "9 0"),
        "the head is card 0 block 0 GETX (2), and for that block \
         card 1 is in IS_D (6) and awaits number 2"
    );
}

#[test]
fn refusals_10_and_11_say_what_the_pool_has() {
    let full = then(
        vec![start(2, 2), ask(0, 0, GETX, 0), order()],
        vec![copy(0); 63],
    );
    let room = "the pool has room for 64 messages, and has 64";
    assert_eq!(last(then(full.clone(), [copy(0)]), "10 0"), room);
    let ordered = then(full.clone(), [ask(1, 1, GETS, 0), order()]);
    assert_eq!(last(ordered, "10 0"), room);
    assert_eq!(
        last(then(full, [deliver(64)]), "11 0"),
        "the pool has 64 messages, at positions from 0"
    );
    let one = [start(1, 1), ask(0, 0, GETX, 0), order(), copy(1)];
    assert_eq!(
        last(one, "11 0"),
        "the pool has 1 message, at positions from 0"
    );
    assert_eq!(last([start(1, 1), deliver(0)], "11 0"), "the pool is empty");
}

/// No journal comes to these.
#[test]
fn refusals_12_and_13_say_what_the_order_met() {
    let mut chassis = busy_chassis();
    chassis.last_order = OrderNumber(u64::MAX);
    assert_eq!(chassis.clone().order(), Err(Refusal::OrderNumbersSpent));
    assert_eq!(
        refused(&chassis, Event::Order, Refusal::OrderNumbersSpent).as_deref(),
        Some("the last order number given is 18446744073709551615, and none follows it")
    );
    let mut chassis = busy_chassis();
    chassis.cell_mut(0, 0).state = S;
    assert_eq!(chassis.clone().order(), Err(Refusal::Impossible));
    let why = |chassis: &Chassis| refused(chassis, Event::Order, Refusal::Impossible);
    assert_eq!(
        why(&chassis).as_deref(),
        Some(
            "the head is card 1 block 0 GETS (1), and for that block \
             card 1 is in IS_AD (3), the owner is card 0, card 0 is in S (1)"
        )
    );
    chassis.home[0].owner = HOME;
    chassis.cell_mut(1, 0).state = S;
    assert_eq!(chassis.clone().order(), Err(Refusal::Impossible));
    assert_eq!(
        why(&chassis).as_deref(),
        Some(
            "the head is card 1 block 0 GETS (1), and for that block \
             card 1 is in S (1), the owner is home (255)"
        )
    );
}

/// An upgrade, and the put of an owned copy, of a card that is not the owner.
#[test]
fn refusal_13_says_who_owns_an_owned_copy() {
    for (kind, state, asked) in [
        (
            GETX,
            OM_AD,
            "GETX (2), and for that block card 0 is in OM_AD (12)",
        ),
        (
            PUTX,
            OI_A,
            "PUTX (3), and for that block card 0 is in OI_A (13)",
        ),
    ] {
        let mut chassis = Chassis::start(Edition::Mosi, 2, 1).expect("the sizes fit");
        assert_eq!(chassis.ask(0, 0, GETX, 0), Ok(()));
        chassis.line.places[0].kind = kind;
        chassis.cell_mut(0, 0).state = state;
        chassis.cell_mut(1, 0).state = O;
        chassis.home[0].owner = 1;
        assert_eq!(chassis.clone().order(), Err(Refusal::Impossible));
        let why = refused(&chassis, Event::Order, Refusal::Impossible);
        let owner = "the owner is card 1, card 1 is in O (11)";
        let due = format!("the head is card 0 block 0 {asked}, {owner}");
        assert_eq!(why, Some(due));
    }
}

/// Whatever a chassis holds, and whatever event is named, nothing is met that
/// cannot be told.
#[test]
fn an_ill_formed_chassis_is_told_too() {
    let mut chassis = busy_chassis();
    chassis.line.remove(0);
    chassis.line.push(Request {
        card: 200,
        block: 100,
        kind: 77,
        mask: 255,
        retry: Retry(9),
    });
    let told = |refusal| refused(&chassis, Event::Order, refusal);
    let head = "the head is card 200 block 100 kind 77 (77), and for that block ";
    assert_eq!(told(Refusal::Impossible).as_deref(), Some(head));
    assert_eq!(told(Refusal::BlockHeld).as_deref(), Some(head));
    let load = Event::Load {
        card: 200,
        block: 100,
    };
    assert_eq!(refused(&chassis, load, Refusal::NoRight), None);
    assert_eq!(refused(&chassis, load, Refusal::AskNotAllowed), None);
}

#[test]
fn outcome_2_says_whom_the_mask_misses() {
    assert_eq!(
        last(then(fetched(), [ask(1, 0, GETX, 2), order()]), "0 2"),
        "the mask 00000010 misses card 0 (owner)"
    );
    let share = |card| [ask(card, 0, GETS, 0), order(), deliver(0)];
    let sharers: Vec<Record> = (0..3).flat_map(share).collect();
    let shared = then(vec![start(4, 1)], sharers);
    assert_eq!(
        last(then(shared.clone(), [ask(3, 0, GETX, 1), order()]), "0 2"),
        "the mask 00000001 misses cards 1 and 2 (sharers)"
    );
    // The asker is a sharer too, and needs not name itself.
    assert_eq!(
        last(then(shared, [ask(1, 0, GETX, 1), order()]), "0 2"),
        "the mask 00000001 misses card 2 (sharer)"
    );
}

#[test]
fn where_the_run_ends_the_bytes_are_told() {
    let after_start = |bytes: &[u8]| {
        let journal = [journal_of([start(1, 1)]), bytes.to_vec()].concat();
        told(&journal).pop().map(|(_, why)| why)
    };
    let is = |why: &str| Some(why.to_string());
    assert_eq!(
        after_start(&[0x14, 0]),
        is("a record has at least 3 bytes, and this one is cut after 2")
    );
    assert_eq!(
        after_start(&[0x11, 0, 6, 0, 0]),
        is("a record with tag 11 has 9 bytes, and this one is cut after 5")
    );
    let orders = journal_of(vec![order(); JOURNAL_LIMIT / 3]);
    assert_eq!(
        after_start(&orders),
        is("a record has at least 3 bytes, and the reading of this one ends after 1")
    );
    assert_eq!(
        after_start(&[0x12, 1, 4, 0]),
        is("tag 12 has length 4, and the length here is 260")
    );
    assert_eq!(after_start(&[0x99, 0, 0]), None);
    assert_eq!(
        after_start(&journal_of([start(1, 1)])),
        is("only the first record may be an opening")
    );
    let first = |journal: &[u8]| told(journal).pop().map(|(_, why)| why);
    assert_eq!(first(&[]), is("the journal is empty"));
    assert_eq!(
        first(&journal_of([order()])),
        is("the first record is not an opening")
    );
    assert_eq!(
        first(b"\x01\x00\x06cohX\x01\x01"),
        is("an opening's first four bytes are coh1 or moh1")
    );
}

/// Every refused event has its reason, but for an order of an empty line; an
/// accepted one has one at outcome 2 of an Order alone.
#[test]
fn reasons_stand_where_they_are_due() {
    for seed in 0..200 {
        let journal = generate(seed, false);
        let mut run = Run::new(&journal);
        while let Some(seen) = run.see() {
            let due = match seen.line.answer {
                Err(refusal) => !matches!(refusal.number(), 8 | 14 | 21),
                Ok(value) => seen.event() == Some(Event::Order) && value == 2,
            };
            assert_eq!(reason(&seen).is_some(), due, "seed {seed}");
        }
    }
}

#[test]
fn the_page_has_the_reasons_in_its_answers() {
    let page_of = |records: Vec<Record>| page("a journal", &Picture::of(&journal_of(records)));
    let missed = page_of(then(fetched(), [ask(1, 0, GETS, 0), order(), load(1, 0)]));
    for words in [
        "back to the line's tail with retry 1 and mask 00000001, \
         since the mask 00000000 misses card 0 (owner)\"",
        "the state gives no right to this; nothing changes, \
         since card 1 is in IS_AD (3) for block 0, which gives no right to load\"",
    ] {
        assert!(missed.contains(words), "{words}");
    }
    let fetch = |block| {
        [
            ask(0, block, GETX, 0),
            order(),
            deliver(0),
            store(0, block, 7),
        ]
    };
    let one = then(vec![start(1, 2)], fetch(0));
    let two = then(one.clone(), fetch(1));
    let rejoined = |records| page_of(then(records, [rejoin(0)]));
    assert!(rejoined(one).contains("; struck: block 0: 1 store of card 0, of value 7\""));
    assert!(rejoined(two).contains("; struck: 2 stores in 2 blocks\""));
    assert!(rejoined(vec![start(1, 1)]).contains("blocks it owned went to home\""));
}
