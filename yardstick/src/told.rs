//! What a record is, what its answer means and what it changed, in words:
//! names beside numbers.

use crate::changes::Change;
use crate::chassis::{Chassis, Message, Request};
use crate::events::{Delivered, Event};
use crate::journal::Record;
use crate::names::{Asked, Awaiting, Cards, Holder, State};
use crate::refusal::Refusal;
use crate::run::Seen;

/// How many bytes that are no record are written out.
const BYTES_SHOWN: usize = 16;

/// The record, or the bytes that are none.
pub fn text(seen: &Seen) -> String {
    if let Some(record) = seen.record {
        return record.to_string();
    }
    if seen.rest.is_empty() {
        return "no bytes".to_string();
    }
    let shown = seen.rest.iter().take(BYTES_SHOWN);
    let bytes: Vec<String> = shown.map(|byte| format!("{byte:02x}")).collect();
    let more = if seen.rest.len() > BYTES_SHOWN {
        " ..."
    } else {
        ""
    };
    format!("bytes {}{more}", bytes.join(" "))
}

/// What the value of an accepted record means.
pub fn accepted(record: Record, value: u32) -> &'static str {
    match (record, value) {
        (Record::Opening { .. }, _) => "the chassis is started",
        (Record::Event(Event::Load { .. }), _) => "the value loaded",
        (Record::Event(Event::Order), 1) => "outcome 1, granted",
        (Record::Event(Event::Order), 2) => "outcome 2, too small a mask",
        (Record::Event(Event::Order), 3) => "outcome 3, the put is taken",
        (Record::Event(Event::Order), _) => "outcome 4, the put has lapsed",
        (Record::Event(Event::Deliver { .. }), 1) => "outcome 1, taken",
        (Record::Event(Event::Deliver { .. }), _) => "outcome 2, stale",
        _ => "done",
    }
}

/// One thing that changed: the part of the chassis it is in, and how.
pub struct Told {
    pub part: &'static str,
    pub how: String,
}

/// The changes of an event with this answer, in words.
pub fn told(
    before: &Chassis,
    event: Event,
    answer: Result<u32, Refusal>,
    changes: &[Change],
) -> Vec<Told> {
    let mut told = Vec::new();
    let mut add = |part, hows: Vec<String>| {
        told.extend(hows.into_iter().map(|how| Told { part, how }));
    };
    let each = || changes.iter();
    add("cell", each().filter_map(cell).collect());
    add("home", each().filter_map(home).collect());
    add("line", line(changes));
    let is_taken = answer == Ok(Delivered::Taken as u32);
    let gone = each().flat_map(|change| gone(before, is_taken, change));
    let came = each().filter_map(|change| came(event, change));
    add("pool", gone.chain(came).collect());
    add("last", each().filter_map(last).collect());
    told
}

/// How a cell moved.
fn cell(change: &Change) -> Option<String> {
    let Change::Cell {
        card,
        block,
        old,
        new,
    } = change
    else {
        return None;
    };
    let mut parts = vec![if old.state == new.state {
        format!("{} ({}) stays", State(new.state), new.state)
    } else {
        let names = (State(old.state), State(new.state));
        format!(
            "{} to {} ({} to {})",
            names.0, names.1, old.state, new.state
        )
    }];
    if old.value != new.value {
        parts.push(format!("value {} to {}", old.value, new.value));
    }
    if old.awaited != new.awaited {
        let (old, new) = (old.awaited.0, new.awaited.0);
        parts.push(format!("awaited number {old} to {new}"));
    }
    Some(format!("card {card} block {block}: {}", parts.join(", ")))
}

/// How home's part of a block changed.
fn home(change: &Change) -> Option<String> {
    let Change::Home { block, old, new } = change else {
        return None;
    };
    let mut parts = Vec::new();
    if old.memory != new.memory {
        parts.push(format!("memory {} to {}", old.memory, new.memory));
    }
    if old.owner != new.owner {
        let (old, new) = (Holder(old.owner), Holder(new.owner));
        parts.push(format!("owner {old} to {new}"));
    }
    if old.sharers != new.sharers {
        let names = (Cards(old.sharers), Cards(new.sharers));
        let masks = format!("{:08b} to {:08b}", old.sharers, new.sharers);
        parts.push(format!("sharers {} to {} ({masks})", names.0, names.1));
    }
    Some(format!("block {block}: {}", parts.join(", ")))
}

/// The requests that left, from the head on, and those that joined. One that
/// came back is told once, with what it has become.
fn line(changes: &[Change]) -> Vec<String> {
    let left = changes.iter().rev().filter_map(|change| match change {
        Change::Left { place, request } => Some((place, request)),
        _ => None,
    });
    let joined = changes.iter().filter_map(|change| match change {
        Change::Joined { place, request } => Some((place, request)),
        _ => None,
    });
    if let (Some((_, old)), Some((place, new))) = (left.clone().next(), joined.clone().next()) {
        return vec![came_back(*place, old, new)];
    }
    let left = left.map(|(place, request)| format!("left place {place}: {request}"));
    let joined = joined.map(|(place, request)| format!("joined at place {place}: {request}"));
    left.chain(joined).collect()
}

/// How the head came back to the tail.
fn came_back(place: usize, old: &Request, new: &Request) -> String {
    let masks = format!("mask {:08b} to {:08b}", old.mask, new.mask);
    let retries = format!("retry {} to {}", old.retry.0, new.retry.0);
    format!(
        "came back at place {place}: {} {masks} {retries}",
        Asked(new)
    )
}

/// What became of a message that is gone. A stale one is told with what its
/// receiver is in.
fn gone(before: &Chassis, is_taken: bool, change: &Change) -> Vec<String> {
    match change {
        Change::Gone { place, message } if is_taken => {
            vec![format!("taken from place {place}: {message}")]
        }
        Change::Gone { place, message } => vec![
            format!("stale, gone from place {place}: {message}"),
            receiver(before, message).to_string(),
        ],
        _ => Vec::new(),
    }
}

/// What a message's receiver is in, and awaits.
fn receiver<'a>(before: &'a Chassis, message: &Message) -> Awaiting<'a> {
    Awaiting(
        message.receiver,
        before.cell(message.receiver, message.block),
    )
}

/// How a message came to the pool.
fn came(event: Event, change: &Change) -> Option<String> {
    let Change::Came { place, message } = change else {
        return None;
    };
    Some(match event {
        Event::Copy { position } => {
            format!("copied from place {position} to place {place}: {message}")
        }
        _ => format!("sent to place {place}: {message}"),
    })
}

/// The order number that was given.
fn last(change: &Change) -> Option<String> {
    let Change::LastOrder { old, new } = change else {
        return None;
    };
    Some(format!("order number {} to {}", old.0, new.0))
}
