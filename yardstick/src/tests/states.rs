//! The states that are made up: well formed, of every kind, and spoiled.

use crate::chassis::{
    Chassis, HomeBlock, OrderNumber, Request, Retry, HOME, LINE_ROOM, MAX_BLOCKS, MAX_CARDS,
    POOL_ROOM,
};
use crate::edition::Edition;
use crate::engine::{Engine, Safe};
use crate::handed::wrong_with;
use crate::random::Random;
use crate::script::{ask, copy, deliver, drop_copy, load, order, rejoin, store};
use crate::states::fabricate::fabricate;
use crate::states::spoil::{draw_state, Form};
use crate::table::{
    self, GETS, GETX, II_A, IM_AD, IS_AD, M, MI_A, O, OI_A, OM_AD, PUTX, SM_AD, STATES,
};
use crate::words::WORDS;

/// How many seeds are drawn.
const SEEDS: u64 = 4_000;

/// How many of them are of each kind at least.
const OF_A_KIND: usize = 8;

/// The states of the seeds before anything is spoiled.
fn fabricated() -> impl Iterator<Item = Chassis> {
    (0..SEEDS).map(|seed| fabricate(&mut Random::new(seed)))
}

#[test]
fn fabricated_states_are_well_formed() {
    for (seed, chassis) in fabricated().enumerate() {
        assert!(chassis.broken_clauses().is_empty(), "seed {seed}");
        assert!(chassis.well_formed(), "seed {seed}");
    }
}

/// A kind of state.
type Kind = (&'static str, fn(&Chassis) -> bool);

/// The sizes, the counts and the last order number.
#[rustfmt::skip]
const HEADERS: [Kind; 14] = [
    ("MSI", |chassis| chassis.edition == Edition::Msi),
    ("MOSI", |chassis| chassis.edition == Edition::Mosi),
    ("one card", |chassis| chassis.cards == 1),
    ("every card", |chassis| usize::from(chassis.cards) == MAX_CARDS),
    ("one block", |chassis| chassis.blocks == 1),
    ("every block", |chassis| usize::from(chassis.blocks) == MAX_BLOCKS),
    ("empty line", |chassis| chassis.line.count() == 0),
    ("full line", |chassis| chassis.line.count() == LINE_ROOM),
    ("empty pool", |chassis| chassis.pool.count() == 0),
    ("full pool", |chassis| chassis.pool.count() == POOL_ROOM),
    ("part of both", |chassis| {
        (1..LINE_ROOM).contains(&chassis.line.count()) && (1..POOL_ROOM).contains(&chassis.pool.count())
    }),
    ("no number given", |chassis| chassis.last_order == OrderNumber(0)),
    ("one number left", |chassis| chassis.last_order == OrderNumber(u64::MAX - 1)),
    ("no number left", |chassis| chassis.last_order == OrderNumber(u64::MAX)),
];

/// What is in the places.
#[rustfmt::skip]
const PLACES: [Kind; 14] = [
    ("owner in O that shares", |chassis| any_owner(chassis, |state, home| state == O && home.sharers >> home.owner & 1 == 1)),
    ("owner in OM_AD", |chassis| any_owner(chassis, |state, _| state == OM_AD)),
    ("owner in OI_A", |chassis| any_owner(chassis, |state, _| state == OI_A)),
    ("owner of no right", |chassis| any_home(chassis, |home, block| {
        home.owner != HOME && !table::row(chassis.cell(home.owner, block).state).load
    })),
    ("all share", |chassis| any_home(chassis, |home, _| home.sharers == chassis.every_card())),
    ("an owner shares", |chassis| any_home(chassis, |home, _| {
        home.owner != HOME && home.sharers >> home.owner & 1 == 1
    })),
    ("largest memory", |chassis| any_home(chassis, |home, _| home.memory == u32::MAX)),
    ("two owners by their cells", |chassis| (0..chassis.blocks).any(|block| {
        chassis.cells_of(block).iter().filter(|cell| matches!(cell.state, M | MI_A)).count() > 1
    })),
    ("put at a retry", |chassis| any_request(chassis, |request| request.kind == PUTX && request.retry > Retry(0))),
    ("asks itself", |chassis| any_request(chassis, |request| request.mask >> request.card & 1 == 1)),
    ("retry 2", |chassis| any_request(chassis, |request| request.retry == Retry(2))),
    ("retry 3", |chassis| any_request(chassis, |request| request.retry == Retry(3))),
    ("sent to itself", |chassis| chassis.pool.items().iter().any(|message| message.sender == message.receiver)),
    ("two live for one", |chassis| {
        let live = || chassis.pool.items().iter().filter(|message| chassis.is_awaited(message));
        live().enumerate().any(|(at, one)| {
            live().take(at).any(|other| (one.receiver, one.block) == (other.receiver, other.block))
        })
    }),
];

/// What is wrong with a head that 13 is due for, each alone.
#[rustfmt::skip]
const IMPOSSIBLE: [Kind; 11] = [
    ("GETS not from 3", |chassis| is_head(chassis, GETS, |state, _, gives| state != IS_AD && gives)),
    ("GETX not from 4, 5 or 12", |chassis| is_head(chassis, GETX, |state, _, gives| {
        !matches!(state, IM_AD | SM_AD | OM_AD) && gives
    })),
    ("GETX from 12 of another's", |chassis| is_head(chassis, GETX, |state, is_own, gives| {
        state == OM_AD && !is_own && gives
    })),
    ("PUTX not from 9, 10 or 13", |chassis| is_head(chassis, PUTX, |state, _, _| {
        !matches!(state, MI_A | II_A | OI_A)
    })),
    ("PUTX from 13 of another's", |chassis| is_head(chassis, PUTX, |state, is_own, _| state == OI_A && !is_own)),
    ("GETS of its own", |chassis| is_head(chassis, GETS, |state, is_own, _| state == IS_AD && is_own)),
    ("GETX of its own", |chassis| is_head(chassis, GETX, |state, is_own, _| state == SM_AD && is_own)),
    ("GETS, owner without data", |chassis| is_head(chassis, GETS, |state, is_own, gives| {
        state == IS_AD && !is_own && !gives
    })),
    ("GETX, owner without data", |chassis| is_head(chassis, GETX, |state, is_own, gives| {
        matches!(state, IM_AD | SM_AD) && !is_own && !gives
    })),
    ("PUTX from 9 of another's", |chassis| is_head(chassis, PUTX, |state, is_own, _| state == MI_A && !is_own)),
    ("PUTX from 10 of its own", |chassis| is_head(chassis, PUTX, |state, is_own, _| state == II_A && is_own)),
];

fn any_home(chassis: &Chassis, is: impl Fn(&HomeBlock, u8) -> bool) -> bool {
    (0..chassis.blocks).any(|block| is(&chassis.home[usize::from(block)], block))
}

/// Whether a card that owns a block is in such a state for it.
fn any_owner(chassis: &Chassis, is: impl Fn(u8, &HomeBlock) -> bool) -> bool {
    any_home(chassis, |home, block| {
        home.owner != HOME && is(chassis.cell(home.owner, block).state, home)
    })
}

fn any_request(chassis: &Chassis, is: impl Fn(&Request) -> bool) -> bool {
    chassis.line.items().iter().any(is)
}

/// Whether the head is of a kind, its block not held, and its asker's state,
/// whether it is its own owner, and whether the owner is home or can give are
/// as they are to be.
fn is_head(chassis: &Chassis, kind: u8, is: impl Fn(u8, bool, bool) -> bool) -> bool {
    let Some(head) = chassis.head().filter(|head| head.kind == kind) else {
        return false;
    };
    let cells = chassis.cells_of(head.block);
    let owner = chassis.home[usize::from(head.block)].owner;
    let is_own = owner == head.card;
    let has_data = |state: u8| matches!(state, M | MI_A | O | OM_AD | OI_A);
    let owns = |cell: usize| usize::from(owner) == cell && has_data(cells[cell].state);
    let gives = owner == HOME || (!is_own && (0..cells.len()).any(owns));
    let is_held = cells.iter().any(|cell| table::awaits_data(cell.state));
    !is_held && is(cells[usize::from(head.card)].state, is_own, gives)
}

/// Heads that owned copies let through, whatever their masks.
#[rustfmt::skip]
const POSSIBLE: [Kind; 5] = [
    ("an upgrade", |chassis| is_head(chassis, GETX, |state, is_own, _| state == OM_AD && is_own)),
    ("a put from 13", |chassis| is_head(chassis, PUTX, |state, is_own, _| state == OI_A && is_own)),
    ("an owner in 11", |chassis| is_asked_of(chassis, O)),
    ("an owner in 12", |chassis| is_asked_of(chassis, OM_AD)),
    ("an owner in 13", |chassis| is_asked_of(chassis, OI_A)),
];

/// Whether the head is a GETS or GETX that finds another owner in a state.
fn is_asked_of(chassis: &Chassis, state: u8) -> bool {
    let fits = |asker: u8, _, gives| matches!(asker, IS_AD | IM_AD | SM_AD) && gives;
    let is_get = [GETS, GETX]
        .into_iter()
        .any(|kind| is_head(chassis, kind, fits));
    let owner = chassis
        .head()
        .map(|head| (chassis.owner(head.block), head.block));
    is_get
        && owner.is_some_and(|(owner, block)| {
            owner != HOME && chassis.cell(owner, block).state == state
        })
}

#[test]
fn every_kind_of_state_is_fabricated() {
    let all: Vec<Chassis> = fabricated().collect();
    let kinds = HEADERS
        .iter()
        .chain(&PLACES)
        .chain(&IMPOSSIBLE)
        .chain(&POSSIBLE);
    for (name, is) in kinds {
        let count = all.iter().filter(|chassis| is(chassis)).count();
        assert!(count >= OF_A_KIND, "{name}: {count}");
    }
}

/// With each number that it may await, too: the first and the last.
#[test]
fn every_state_of_a_cell_is_fabricated() {
    let mut met = [[0; 2]; STATES];
    for chassis in fabricated() {
        for cell in (0..chassis.blocks).flat_map(|block| chassis.cells_of(block)) {
            let ends = [OrderNumber(1), chassis.last_order];
            for (count, end) in met[usize::from(cell.state)].iter_mut().zip(ends) {
                *count += usize::from(!table::awaits_data(cell.state) || cell.awaited == end);
            }
        }
    }
    assert!(
        met.iter().flatten().all(|count| *count >= OF_A_KIND),
        "{met:?}"
    );
}

#[test]
fn spoiled_states_are_refused_with_15_or_well_formed_after_all() {
    let (mut refused, mut taken) = (0, 0);
    for seed in 0..SEEDS {
        let state = draw_state(&mut Random::new(seed));
        match Chassis::handed_in(&state.words) {
            Ok(chassis) => {
                assert_eq!(chassis.words(), state.words, "seed {seed}");
                taken += u64::from(state.form != Form::WellFormed);
            }
            Err(_) => {
                assert!(state.form != Form::WellFormed, "seed {seed}");
                assert!(!wrong_with(&state.words).is_empty(), "seed {seed}");
                refused_by_all(&state.words, seed);
                refused += 1;
            }
        }
    }
    assert!(
        refused > SEEDS / 4 && taken > SEEDS / 20,
        "{refused} {taken}"
    );
}

/// Every event answers 15 and keeps the words.
fn refused_by_all(words: &[u64; WORDS], seed: u64) {
    let cell = [
        load(0, 0),
        store(0, 0, 1),
        drop_copy(0, 0),
        ask(0, 0, GETS, 0),
    ];
    for record in cell
        .into_iter()
        .chain([order(), deliver(0), copy(0), rejoin(0)])
    {
        let mut after = *words;
        assert_eq!(
            Safe.run(&mut after, record),
            (15, 0),
            "seed {seed}: {record}"
        );
        assert_eq!(after, *words, "seed {seed}: {record}");
    }
}
