//! What an event changed: two chassis compared, part by part.

use crate::chassis::{Cell, Chassis, HomeBlock, Message, OrderNumber, Request};
use crate::events::Event;
use crate::queue::Queue;

/// One change of a chassis.
#[derive(Clone, Copy, PartialEq, Eq, Debug)]
pub enum Change {
    Cell {
        card: u8,
        block: u8,
        old: Cell,
        new: Cell,
    },
    Home {
        block: u8,
        old: HomeBlock,
        new: HomeBlock,
    },
    /// A request that left the line's place.
    Left {
        place: usize,
        request: Request,
    },
    /// A request that joined the line's tail, which is that place.
    Joined {
        place: usize,
        request: Request,
    },
    /// A message that is gone from the pool's place.
    Gone {
        place: usize,
        message: Message,
    },
    /// A message that came to the pool's tail, which is that place.
    Came {
        place: usize,
        message: Message,
    },
    LastOrder {
        old: OrderNumber,
        new: OrderNumber,
    },
}

impl Change {
    /// Makes the change. All changes of an event, one after the other, turn
    /// the chassis before it into the one after it.
    pub fn make(&self, chassis: &mut Chassis) {
        match *self {
            Change::Cell {
                card, block, new, ..
            } => *chassis.cell_mut(card, block) = new,
            Change::Home { block, new, .. } => chassis.home[usize::from(block)] = new,
            Change::Left { place, .. } => chassis.line.remove(place),
            Change::Joined { request, .. } => chassis.line.push(request),
            Change::Gone { place, .. } => chassis.pool.remove(place),
            Change::Came { message, .. } => chassis.pool.push(message),
            Change::LastOrder { new, .. } => chassis.last_order = new,
        }
    }
}

/// What an event changed: cells, home, line, pool, last order number.
pub fn changes(before: &Chassis, after: &Chassis, event: Event) -> Vec<Change> {
    let mut found = Vec::new();
    if before != after {
        cells(before, after, &mut found);
        homes(before, after, &mut found);
        line(before, after, event, &mut found);
        pool(before, after, event, &mut found);
        let (old, new) = (before.last_order, after.last_order);
        if old != new {
            found.push(Change::LastOrder { old, new });
        }
    }
    found
}

/// The cells that moved, by block and card.
fn cells(before: &Chassis, after: &Chassis, found: &mut Vec<Change>) {
    for block in 0..after.blocks {
        for card in 0..after.cards {
            let (old, new) = (*before.cell(card, block), *after.cell(card, block));
            if old != new {
                found.push(Change::Cell {
                    card,
                    block,
                    old,
                    new,
                });
            }
        }
    }
}

/// Home's blocks that changed.
fn homes(before: &Chassis, after: &Chassis, found: &mut Vec<Change>) {
    for block in 0..after.blocks {
        let at = usize::from(block);
        let (old, new) = (before.home[at], after.home[at]);
        if old != new {
            found.push(Change::Home { block, old, new });
        }
    }
}

/// The requests that left the line, then those that joined it.
fn line(before: &Chassis, after: &Chassis, event: Event, found: &mut Vec<Change>) {
    let left = leaving(&before.line, |place, request| match event {
        Event::Order => place == 0,
        Event::Rejoin { card } => request.card == card,
        _ => false,
    });
    let joined = coming(&before.line, &after.line, left.len());
    found.extend((left.into_iter()).map(|(place, request)| Change::Left { place, request }));
    found.extend((joined.into_iter()).map(|(place, request)| Change::Joined { place, request }));
}

/// The message that is gone from the pool, then the one that came to it.
fn pool(before: &Chassis, after: &Chassis, event: Event, found: &mut Vec<Change>) {
    let gone = leaving(&before.pool, |place, _| match event {
        Event::Deliver { position } => place == usize::from(position),
        _ => false,
    });
    let came = coming(&before.pool, &after.pool, gone.len());
    found.extend((gone.into_iter()).map(|(place, message)| Change::Gone { place, message }));
    found.extend((came.into_iter()).map(|(place, message)| Change::Came { place, message }));
}

/// The items that leave a queue, with their places. Those nearest the tail
/// come first: a place is then not moved by those that left before it.
fn leaving<T: Copy + Default, const ROOM: usize>(
    before: &Queue<T, ROOM>,
    leaves: impl Fn(usize, &T) -> bool,
) -> Vec<(usize, T)> {
    let items = before.items().iter().copied().enumerate().rev();
    items.filter(|(place, item)| leaves(*place, item)).collect()
}

/// The items that came to a queue's tail, with their places, after so many
/// had left.
fn coming<T: Copy + Default, const ROOM: usize>(
    before: &Queue<T, ROOM>,
    after: &Queue<T, ROOM>,
    left: usize,
) -> Vec<(usize, T)> {
    let kept = before.count().saturating_sub(left);
    let items = after.items().iter().copied().enumerate();
    items.skip(kept).collect()
}
