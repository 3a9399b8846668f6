//! A change of the chassis as the page has it: what it is, then its numbers.
//! The page's script makes the changes one after the other.

use crate::changes::Change;
use crate::chassis::Request;

/// What kinds of change the page knows, by their numbers.
const CELL: u64 = 0;
const HOME_PART: u64 = 1;
const LINE_LOSES: u64 = 2;
const LINE_GAINS: u64 = 3;
const POOL_LOSES: u64 = 4;
const POOL_GAINS: u64 = 5;
const LAST_ORDER: u64 = 6;

/// The numbers of a change.
pub(super) fn numbers(change: &Change) -> Vec<u64> {
    match *change {
        Change::Cell {
            card, block, new, ..
        } => vec![
            CELL,
            u64::from(block),
            u64::from(card),
            u64::from(new.state),
            u64::from(new.value),
            new.awaited.0,
        ],
        Change::Home { block, new, .. } => vec![
            HOME_PART,
            u64::from(block),
            u64::from(new.memory),
            u64::from(new.owner),
            u64::from(new.sharers),
        ],
        Change::Left { place, .. } => vec![LINE_LOSES, place as u64],
        Change::Joined { request, .. } => joined(request),
        Change::Gone { place, .. } => vec![POOL_LOSES, place as u64],
        Change::Came { message, .. } => vec![
            POOL_GAINS,
            u64::from(message.sender),
            u64::from(message.receiver),
            u64::from(message.block),
            u64::from(message.value),
            message.number.0,
        ],
        Change::LastOrder { new, .. } => vec![LAST_ORDER, new.0],
    }
}

/// The numbers of a request that joined the line.
fn joined(request: Request) -> Vec<u64> {
    let Request {
        card,
        block,
        kind,
        mask,
        retry,
    } = request;
    let fields = [card, block, kind, mask, retry.0].map(u64::from);
    [&[LINE_GAINS], &fields[..]].concat()
}
