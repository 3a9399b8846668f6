//! Why a record is refused, and what the mask of an Order misses, in words:
//! what the record met in the chassis or the journal, with names beside
//! numbers.

use crate::amounts::Many;
use crate::cases::Subject;
use crate::chassis::{card_bit, Cell, Chassis, Request, LINE_ROOM, POOL_ROOM};
use crate::events::{Event, Ordered};
use crate::journal::{value_length, HEAD_LENGTH};
use crate::names::{Asked, Awaiting, Cards, Holder, Kind, Standing};
use crate::refusal::Refusal;
use crate::run::Seen;
use crate::table::{self, GETS, GETX, PUTX};

/// Why a record has the answer that it has, where the answer itself does not
/// say it all.
pub fn reason(seen: &Seen) -> Option<String> {
    match (seen.line.answer, seen.event()) {
        (Err(refusal), _) if refusal.ends_the_run() => ended(seen, refusal),
        (Err(refusal), Some(event)) => refused(seen.before, event, refusal),
        (Ok(outcome), Some(Event::Order)) if outcome == Ordered::MaskTooSmall as u32 => {
            misses(seen.before, &seen.before.head()?)
        }
        _ => None,
    }
}

/// Why the run ends at a record. Sizes out of range and an unknown tag can be
/// seen in the record itself.
fn ended(seen: &Seen, refusal: Refusal) -> Option<String> {
    match refusal {
        Refusal::CutShort => Some(cut_short(seen.rest, seen.has_unread)),
        Refusal::WrongLength => wrong_length(seen.rest),
        Refusal::WrongOpening => Some(wrong_opening(seen.line.subject).to_string()),
        _ => None,
    }
}

/// Refusal 20: how long the record is, and how much of it there is, or is read.
fn cut_short(rest: &[u8], has_unread: bool) -> String {
    let tag = rest.first().filter(|_| rest.len() >= HEAD_LENGTH);
    let whole = match tag.and_then(|tag| Some((tag, value_length(*tag)?))) {
        Some((tag, length)) => format!("with tag {tag:02x} has {}", HEAD_LENGTH + length),
        None => format!("has at least {HEAD_LENGTH}"),
    };
    let end = if has_unread {
        "the reading of this one ends"
    } else {
        "this one is cut"
    };
    format!("a record {whole} bytes, and {end} after {}", rest.len())
}

/// Refusal 22: the length that the tag has, and the one that stands there.
fn wrong_length(rest: &[u8]) -> Option<String> {
    let &[tag, high, low, ..] = rest else {
        return None;
    };
    let (due, found) = (value_length(tag)?, u16::from_be_bytes([high, low]));
    Some(format!(
        "tag {tag:02x} has length {due}, and the length here is {found}"
    ))
}

/// Refusal 23: which of its cases it is.
fn wrong_opening(subject: Subject) -> &'static str {
    match subject {
        Subject::EmptyJournal => "the journal is empty",
        Subject::FirstNotOpening => "the first record is not an opening",
        Subject::LaterOpening => "only the first record may be an opening",
        _ => "an opening's first four bytes are coh1 or moh1",
    }
}

/// Why an event is refused in this chassis. An empty line needs no more words
/// than the refusal's own, and the last ones are given at no event of a
/// journal: no chassis that Start made is ill formed.
pub(crate) fn refused(chassis: &Chassis, event: Event, refusal: Refusal) -> Option<String> {
    match refusal {
        Refusal::NoSuchCard => Some(cards(chassis)),
        Refusal::NoSuchBlock => Some(blocks(chassis)),
        Refusal::NoRight => no_right(chassis, event),
        Refusal::AskNotAllowed => not_allowed(chassis, event),
        Refusal::NoSuchKind => no_such_kind(event),
        Refusal::MaskTooWide => too_wide(chassis, event),
        Refusal::LineFull => Some(line_full(chassis)),
        Refusal::BlockHeld => chassis.head().map(|head| held(chassis, &head)),
        Refusal::PoolFull => Some(pool_full(chassis)),
        Refusal::NoSuchPosition => Some(positions(chassis)),
        Refusal::OrderNumbersSpent => Some(spent(chassis)),
        Refusal::Impossible => chassis.head().map(|head| impossible(chassis, &head)),
        Refusal::LineEmpty
        | Refusal::SizeOutOfRange
        | Refusal::IllFormed
        | Refusal::CutShort
        | Refusal::UnknownTag
        | Refusal::WrongLength
        | Refusal::WrongOpening
        | Refusal::NoRoom => None,
    }
}

/// Refusal 1.
fn cards(chassis: &Chassis) -> String {
    let cards = Many(usize::from(chassis.cards), "card");
    format!("the chassis has {cards}, numbered from 0")
}

/// Refusal 2.
fn blocks(chassis: &Chassis) -> String {
    let blocks = Many(usize::from(chassis.blocks), "block");
    format!("the chassis has {blocks}, numbered from 0")
}

/// Refusal 3: the state that the cell is in.
fn no_right(chassis: &Chassis, event: Event) -> Option<String> {
    let (card, block, what) = match event {
        Event::Load { card, block } => (card, block, "load"),
        Event::Store { card, block, .. } => (card, block, "store"),
        Event::Drop { card, block } => (card, block, "drop"),
        _ => return None,
    };
    let standing = Standing(card, cell(chassis, card, block)?.state);
    Some(format!(
        "{standing} for block {block}, which gives no right to {what}"
    ))
}

/// Refusal 4: the state that the cell is in, and the asks that it allows.
fn not_allowed(chassis: &Chassis, event: Event) -> Option<String> {
    let Event::Ask { card, block, .. } = event else {
        return None;
    };
    let state = cell(chassis, card, block)?.state;
    let leads = |kind: &u8| table::row(state).ask(*kind).is_some();
    let allowed: Vec<String> = [GETS, GETX, PUTX]
        .into_iter()
        .filter(leads)
        .map(|kind| Kind(kind).to_string())
        .collect();
    let allowed = match allowed.as_slice() {
        [] => "no ask".to_string(),
        kinds => format!("{} only", kinds.join(" and ")),
    };
    let standing = Standing(card, state);
    Some(format!(
        "{standing} for block {block}, which allows {allowed}"
    ))
}

/// Refusal 5: the kind, and those that there are.
fn no_such_kind(event: Event) -> Option<String> {
    let Event::Ask { kind, .. } = event else {
        return None;
    };
    Some(format!(
        "the kind is {kind}, and the kinds are GETS ({GETS}), GETX ({GETX}) and PUTX ({PUTX})"
    ))
}

/// Refusal 6: the cards of the mask that are not there.
fn too_wide(chassis: &Chassis, event: Event) -> Option<String> {
    let Event::Ask { mask, .. } = event else {
        return None;
    };
    let absent = Cards(mask & !chassis.every_card());
    Some(format!("the mask names {absent}, and {}", cards(chassis)))
}

/// Refusal 7.
fn line_full(chassis: &Chassis) -> String {
    let waiting = chassis.line.count();
    format!("the line has room for {LINE_ROOM} requests, and {waiting} wait")
}

/// Refusal 9: the head, and who awaits data for its block.
fn held(chassis: &Chassis, head: &Request) -> String {
    let awaiting: Vec<String> = (0..chassis.cards)
        .filter_map(|card| Some((card, cell(chassis, card, head.block)?)))
        .filter(|(_, cell)| table::awaits_data(cell.state))
        .map(|(card, cell)| Awaiting(card, cell).to_string())
        .collect();
    let awaiting = awaiting.join(", ");
    format!("the head is {}, and for that block {awaiting}", Asked(head))
}

/// Refusal 10.
fn pool_full(chassis: &Chassis) -> String {
    let messages = chassis.pool.count();
    format!("the pool has room for {POOL_ROOM} messages, and has {messages}")
}

/// Refusal 11.
fn positions(chassis: &Chassis) -> String {
    match chassis.pool.count() {
        0 => "the pool is empty".to_string(),
        count => format!(
            "the pool has {}, at positions from 0",
            Many(count, "message")
        ),
    }
}

/// Refusal 12.
fn spent(chassis: &Chassis) -> String {
    let last = chassis.last_order.0;
    format!("the last order number given is {last}, and none follows it")
}

/// Refusal 13: the states of the asker and of an owning card.
fn impossible(chassis: &Chassis, head: &Request) -> String {
    let standing = |card: u8| {
        let cell = cell(chassis, card, head.block)?;
        Some(Standing(card, cell.state).to_string())
    };
    let mut met: Vec<String> = standing(head.card).into_iter().collect();
    if let Some(home) = chassis.home.get(usize::from(head.block)) {
        met.push(format!("the owner is {}", Holder(home.owner)));
        if home.owner != head.card {
            met.extend(standing(home.owner));
        }
    }
    let met = met.join(", ");
    format!("the head is {}, and for that block {met}", Asked(head))
}

/// Outcome 2 of an Order: the cards that it needs and its mask has not.
fn misses(chassis: &Chassis, head: &Request) -> Option<String> {
    let home = chassis.home.get(usize::from(head.block))?;
    let all = chassis.needed(head) & !head.mask;
    let owner = all & card_bit(home.owner);
    let sharers = all & !owner;
    let of_kind = |cards: u8, name| (cards != 0).then(|| format!("{} ({name})", Cards(cards)));
    let sharer = match sharers.count_ones() {
        1 => "sharer",
        _ => "sharers",
    };
    let missed = [of_kind(owner, "owner"), of_kind(sharers, sharer)];
    let missed: Vec<String> = missed.into_iter().flatten().collect();
    let (mask, missed) = (head.mask, missed.join(" and "));
    Some(format!("the mask {mask:08b} misses {missed}"))
}

/// A card's cell for a block, if both are there.
fn cell(chassis: &Chassis, card: u8, block: u8) -> Option<&Cell> {
    let cells = chassis.cells.get(usize::from(block))?;
    cells.get(usize::from(card))
}
