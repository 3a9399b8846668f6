//! A record and its answer in words, and the names of the states.

use crate::amounts::Many;
use crate::chassis::{Chassis, Message, Request, HOME};
use crate::events::{Delivered, Event, Ordered};
use crate::journal::Record;
use crate::names::{Kind, State};
use crate::reasons::reason;
use crate::run::Seen;
use crate::stores::Struck;
use crate::table::STATES;

pub(super) use crate::told::text;

/// What each state means, in the order of the state numbers.
pub(crate) const MEANINGS: [&str; STATES] = [
    "no copy",
    "loads",
    "loads and stores",
    "asked GETS",
    "asked GETX",
    "asked GETX, still loads",
    "GETS granted, awaits data",
    "GETX granted, awaits data",
    "GETX granted, still loads, awaits data",
    "asked PUTX, still stores",
    "asked PUTX, gave the data away",
    "owns, loads beside sharers",
    "owner asked GETX, still loads",
    "owner asked PUTX, still loads",
];

/// The record in a word or two.
pub(super) fn mark(seen: &Seen) -> String {
    let accepted = seen.line.answer.ok();
    match (seen.record, accepted) {
        (None, _) => "damage".to_string(),
        (Some(Record::Opening { .. }), _) => "start".to_string(),
        (Some(Record::Event(event)), accepted) => match (event, accepted) {
            (Event::Load { .. }, Some(value)) => format!("load {value}"),
            (Event::Load { .. }, None) => "load".to_string(),
            (Event::Store { value, .. }, _) => format!("store {value}"),
            (Event::Ask { kind, .. }, _) => format!("ask {}", Kind(kind)),
            (Event::Drop { .. }, _) => "drop".to_string(),
            (Event::Order, _) => "order".to_string(),
            (Event::Deliver { .. }, Some(outcome)) if outcome == Delivered::Stale as u32 => {
                "stale".to_string()
            }
            (Event::Deliver { .. }, Some(_)) => "taken".to_string(),
            (Event::Deliver { .. }, None) => "deliver".to_string(),
            (Event::Copy { .. }, _) => "copy".to_string(),
            (Event::Rejoin { .. }, _) => "rejoin".to_string(),
        },
    }
}

/// The answer in words, with the reason for it.
pub(super) fn answer(seen: &Seen) -> String {
    let words = bare_answer(seen);
    match reason(seen) {
        Some(reason) => format!("{words}, since {reason}"),
        None => words,
    }
}

/// The answer in words, without the reason for it.
fn bare_answer(seen: &Seen) -> String {
    match (seen.line.answer, seen.record) {
        (Err(refusal), _) => {
            let end = if refusal.ends_the_run() {
                format!(", at byte {}; the run ends here", seen.line.place)
            } else {
                "; nothing changes".to_string()
            };
            format!("{refusal}{end}")
        }
        (Ok(value), Some(Record::Event(event))) => accepted(seen, event, value),
        (Ok(_), _) => "accepted: every cell in I, memory 0, owners home".to_string(),
    }
}

/// The answer to an accepted event.
fn accepted(seen: &Seen, event: Event, value: u32) -> String {
    match event {
        Event::Load { .. } => format!("the load gives {value}"),
        Event::Store { value, .. } => format!("accepted: the card's copy now has {value}"),
        Event::Ask { card, block, .. } => {
            let was = state_name(seen.before, card, block);
            let now = state_name(seen.after, card, block);
            format!(
                "accepted: the cell goes from {was} to {now}, the request joins the line's tail"
            )
        }
        Event::Drop { .. } => "accepted: S becomes I, home is not told".to_string(),
        Event::Order => match seen.before.head() {
            Some(head) => ordered(seen, head, value),
            None => String::new(),
        },
        Event::Deliver { position } => match seen.before.pool.get(usize::from(position)) {
            Some(message) => delivered(seen, message, value),
            None => String::new(),
        },
        Event::Copy { position } => match seen.before.pool.get(usize::from(position)) {
            Some(message) => format!(
                "accepted: the message of order number {} to card {} stands at the pool's tail too",
                message.number.0, message.receiver
            ),
            None => String::new(),
        },
        Event::Rejoin { card } => format!(
            "accepted: card {card} has nothing now, its requests left the line, \
             blocks it owned went to home{}",
            struck(seen.struck)
        ),
    }
}

/// What a Rejoin strikes, in short: only the stores to a single block are
/// told with their last value.
fn struck(all: &[Struck]) -> String {
    let stores = Many(all.iter().map(|struck| struck.stores).sum(), "store");
    match all {
        [] => String::new(),
        [one] => format!("; struck: {one}"),
        _ => format!("; struck: {stores} in {} blocks", all.len()),
    }
}

/// What became of an ordered request.
fn ordered(seen: &Seen, head: Request, outcome: u32) -> String {
    let what = format!(
        "order number {}, {} of card {} for block {}: outcome {outcome}",
        seen.after.last_order.0,
        Kind(head.kind),
        head.card,
        head.block,
    );
    let home = &seen.after.home[usize::from(head.block)];
    let back = seen.after.line.items().last();
    match back {
        _ if outcome == Ordered::Granted as u32 => {
            let giver = seen.before.giver(&head);
            let keeps = if home.owner == giver && giver != HOME {
                " and keeps the block"
            } else {
                ""
            };
            let (sender, value) = (holder_name(giver), home.memory);
            format!("{what}, granted; {sender} sends {value}{keeps}")
        }
        Some(back) if outcome == Ordered::MaskTooSmall as u32 => format!(
            "{what}, the mask is too small; back to the line's tail with retry {} and mask {:08b}",
            back.retry.0, back.mask,
        ),
        _ if outcome == Ordered::PutTaken as u32 => {
            let stay = if home.sharers == 0 {
                ""
            } else {
                ", the sharers stay listed"
            };
            format!("{what}, the put is taken; memory has {}{stay}", home.memory)
        }
        _ => format!("{what}, the put has lapsed; home changes nothing"),
    }
}

/// What became of a delivered message.
fn delivered(seen: &Seen, message: Message, outcome: u32) -> String {
    let (card, block) = (message.receiver, message.block);
    let number = message.number.0;
    if outcome == Delivered::Taken as u32 {
        let now = state_name(seen.after, card, block);
        let value = message.value;
        format!(
            "outcome {outcome}, taken: card {card} goes to {now} with {value} for block {block}"
        )
    } else {
        format!(
            "outcome {outcome}, stale: card {card} does not await order number {number} \
             for block {block}"
        )
    }
}

/// The name of a cell's state.
fn state_name(chassis: &Chassis, card: u8, block: u8) -> State {
    State(chassis.cell(card, block).state)
}

/// Home or a card.
fn holder_name(holder: u8) -> String {
    if holder == HOME {
        "home".to_string()
    } else {
        format!("card {holder}")
    }
}
