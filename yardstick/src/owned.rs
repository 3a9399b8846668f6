//! What an event of the MOSI edition can reach beside its cases: what is done in
//! the states of owned copies, and what becomes of them.

use std::fmt;

use crate::chassis::{card_bit, Chassis, Request, HOME};
use crate::edition::Edition;
use crate::events::{Event, Ordered};
use crate::names::State;
use crate::refusal::Refusal;
use crate::table::{self, GETS, GETX, M, MI_A, O, OI_A, OM_AD, PUTX};

/// What is done, accepted if nothing else is said. A GETS or GETX is another
/// card's, and the state its owner's; else the state is the card's own.
#[derive(Clone, Copy, PartialEq, Eq, PartialOrd, Ord, Debug)]
pub enum Done {
    Load,
    StoreRefused,
    DropRefused,
    AskGetx,
    AskPutx,
    AskRefused,
    GetsGranted,
    GetsSentBack,
    GetxGranted,
    /// The owner has seen it, but a sharer is missed.
    GetxSentBack,
    /// The upgrade names itself, or does not.
    UpgradeNamed,
    UpgradeUnnamed,
    UpgradeSentBack,
    UpgradeHeld,
    UpgradeWithoutRoom,
    /// The put leaves no sharer, or some.
    PutAlone,
    PutShared,
    PutHeld,
    /// The block has other sharers.
    RejoinShared,
}

/// What is done, and the state that it is done in.
#[derive(Clone, Copy, PartialEq, Eq, PartialOrd, Ord, Debug)]
pub struct Owned {
    pub done: Done,
    pub state: u8,
}

const OWNED_STATES: &[u8] = &[O, OM_AD, OI_A];
const OWNERS_STATES: &[u8] = &[M, MI_A, O, OM_AD, OI_A];

/// What is to be reached, and in which states.
const REACHABLE: [(Done, &[u8]); 19] = [
    (Done::Load, OWNED_STATES),
    (Done::StoreRefused, OWNED_STATES),
    (Done::DropRefused, OWNED_STATES),
    (Done::AskGetx, &[O]),
    (Done::AskPutx, &[O]),
    (Done::AskRefused, OWNED_STATES),
    (Done::GetsGranted, OWNERS_STATES),
    (Done::GetsSentBack, OWNERS_STATES),
    (Done::GetxGranted, OWNERS_STATES),
    (Done::GetxSentBack, OWNED_STATES),
    (Done::UpgradeNamed, &[OM_AD]),
    (Done::UpgradeUnnamed, &[OM_AD]),
    (Done::UpgradeSentBack, &[OM_AD]),
    (Done::UpgradeHeld, &[OM_AD]),
    (Done::UpgradeWithoutRoom, &[OM_AD]),
    (Done::PutAlone, &[OI_A]),
    (Done::PutShared, &[OI_A]),
    (Done::PutHeld, &[OI_A]),
    (Done::RejoinShared, OWNED_STATES),
];

/// What is to be reached, one by one.
pub fn reachable_owned() -> impl Iterator<Item = Owned> {
    REACHABLE
        .into_iter()
        .flat_map(|(done, states)| states.iter().map(move |&state| Owned { done, state }))
}

/// What an event with this answer does with owned copies: nothing in an MSI
/// chassis.
pub fn owned(before: &Chassis, event: Event, answer: Result<u32, Refusal>) -> Vec<Owned> {
    if before.edition != Edition::Mosi {
        return Vec::new();
    }
    match event {
        Event::Order => ordered(before, answer).into_iter().collect(),
        Event::Rejoin { card } if answer.is_ok() => rejoined(before, card).collect(),
        Event::Load { card, block }
        | Event::Store { card, block, .. }
        | Event::Drop { card, block }
        | Event::Ask { card, block, .. } => {
            let done = in_a_cell(event, answer);
            let both = done.zip(owned_state(before, card, block));
            let owned = both.map(|(done, state)| Owned { done, state });
            owned.into_iter().collect()
        }
        _ => Vec::new(),
    }
}

/// The state of a cell that is there, if it is one of an owned copy.
fn owned_state(chassis: &Chassis, card: u8, block: u8) -> Option<u8> {
    let is_there = card < chassis.cards && block < chassis.blocks;
    let state = is_there.then(|| chassis.cell(card, block).state)?;
    table::owns_shared(state).then_some(state)
}

/// What an event does in a cell.
fn in_a_cell(event: Event, answer: Result<u32, Refusal>) -> Option<Done> {
    match (event, answer) {
        (Event::Load { .. }, Ok(_)) => Some(Done::Load),
        (Event::Store { .. }, Err(Refusal::NoRight)) => Some(Done::StoreRefused),
        (Event::Drop { .. }, Err(Refusal::NoRight)) => Some(Done::DropRefused),
        (Event::Ask { kind: GETX, .. }, Ok(_)) => Some(Done::AskGetx),
        (Event::Ask { kind: PUTX, .. }, Ok(_)) => Some(Done::AskPutx),
        (Event::Ask { .. }, Err(Refusal::AskNotAllowed)) => Some(Done::AskRefused),
        _ => None,
    }
}

/// What becomes of the head.
fn ordered(before: &Chassis, answer: Result<u32, Refusal>) -> Option<Owned> {
    let head = before.head()?;
    let asker = before.cell(head.card, head.block).state;
    let (done, state) = match (head.kind, asker) {
        (GETX, OM_AD) => (upgrade(&head, answer)?, asker),
        (PUTX, OI_A) => (put(before, &head, answer)?, asker),
        (PUTX, _) => return None,
        _ => {
            let owner = before.owner(head.block);
            let owner = Some(owner).filter(|owner| *owner != HOME && *owner != head.card)?;
            (
                asked(&head, owner, answer)?,
                before.cell(owner, head.block).state,
            )
        }
    };
    Some(Owned { done, state })
}

/// What becomes of an upgrade.
fn upgrade(head: &Request, answer: Result<u32, Refusal>) -> Option<Done> {
    let is_named = head.mask & card_bit(head.card) != 0;
    match answer {
        Ok(outcome) if outcome == Ordered::MaskTooSmall as u32 => Some(Done::UpgradeSentBack),
        Ok(_) if is_named => Some(Done::UpgradeNamed),
        Ok(_) => Some(Done::UpgradeUnnamed),
        Err(Refusal::BlockHeld) => Some(Done::UpgradeHeld),
        Err(Refusal::PoolFull) => Some(Done::UpgradeWithoutRoom),
        Err(_) => None,
    }
}

/// What becomes of the put of an owned copy.
fn put(before: &Chassis, head: &Request, answer: Result<u32, Refusal>) -> Option<Done> {
    match answer {
        Ok(_) if has_sharers(before, head.card, head.block) => Some(Done::PutShared),
        Ok(_) => Some(Done::PutAlone),
        Err(Refusal::BlockHeld) => Some(Done::PutHeld),
        Err(_) => None,
    }
}

/// What becomes of a request for a block that a card owns.
fn asked(head: &Request, owner: u8, answer: Result<u32, Refusal>) -> Option<Done> {
    let is_granted = answer.ok()? == Ordered::Granted as u32;
    let is_seen = head.mask & card_bit(owner) != 0;
    match (head.kind, is_granted) {
        (GETS, true) => Some(Done::GetsGranted),
        (GETS, false) => Some(Done::GetsSentBack),
        (_, true) => Some(Done::GetxGranted),
        (_, false) if is_seen => Some(Done::GetxSentBack),
        _ => None,
    }
}

/// The owned copies that a card leaves to their sharers.
fn rejoined(before: &Chassis, card: u8) -> impl Iterator<Item = Owned> + '_ {
    (0..before.blocks)
        .filter(move |block| before.owner(*block) == card && has_sharers(before, card, *block))
        .filter_map(move |block| owned_state(before, card, block))
        .map(|state| Owned {
            done: Done::RejoinShared,
            state,
        })
}

/// Whether a block has sharers beside a card.
fn has_sharers(chassis: &Chassis, card: u8, block: u8) -> bool {
    chassis.home[usize::from(block)].sharers & !card_bit(card) != 0
}

impl Done {
    /// What stands before the state's name.
    fn words(self) -> &'static str {
        match self {
            Done::Load => "load in",
            Done::StoreRefused => "store refused in",
            Done::DropRefused => "drop refused in",
            Done::AskGetx => "GETX asked in",
            Done::AskPutx => "PUTX asked in",
            Done::AskRefused => "ask refused in",
            Done::GetsGranted => "GETS granted, owner in",
            Done::GetsSentBack => "GETS sent back, owner in",
            Done::GetxGranted => "GETX granted, owner in",
            Done::GetxSentBack => "GETX sent back, owner in",
            Done::UpgradeNamed => "upgrade with itself named, from",
            Done::UpgradeUnnamed => "upgrade, itself not named, from",
            Done::UpgradeSentBack => "upgrade sent back, from",
            Done::UpgradeHeld => "upgrade refused 9, from",
            Done::UpgradeWithoutRoom => "upgrade refused 10, from",
            Done::PutAlone => "put taken, from",
            Done::PutShared => "put taken, sharers stay, from",
            Done::PutHeld => "put refused 9, from",
            Done::RejoinShared => "rejoin, sharers stay, in",
        }
    }
}

impl fmt::Display for Owned {
    /// As `MOSI, GETS granted, owner in O`.
    fn fmt(&self, out: &mut fmt::Formatter<'_>) -> fmt::Result {
        write!(out, "MOSI, {} {}", self.done.words(), State(self.state))
    }
}
