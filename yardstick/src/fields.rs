//! A record as numbers, as the proved engine's library has it: what a record
//! has not is 0, and an opening has its edition, cards and blocks in the places
//! of a kind, a card and a block.

use crate::chassis::Mask;
use crate::edition::Edition;
use crate::events::Event;
use crate::journal::{
    Record, TAG_ASK, TAG_COPY, TAG_DELIVER, TAG_DROP, TAG_LOAD, TAG_OPENING, TAG_ORDER, TAG_REJOIN,
    TAG_STORE,
};
use crate::refusal::Refusal;

/// The place of each number.
pub const TAG: usize = 0;
pub const CARD: usize = 1;
pub const BLOCK: usize = 2;
pub const KIND: usize = 3;
pub const MASK: usize = 4;
pub const STORED: usize = 5;
pub const POSITION: usize = 6;

/// How many numbers there are.
pub const FIELDS: usize = 7;

/// The numbers of a record.
pub type Fields = [u64; FIELDS];

/// The numbers of a record.
pub fn fields_of(record: Record) -> Fields {
    match record {
        Record::Opening {
            edition,
            cards,
            blocks,
        } => {
            let mut fields = with_cell(TAG_OPENING, cards, blocks);
            fields[KIND] = edition.number().into();
            fields
        }
        Record::Event(event) => fields_of_event(event),
    }
}

/// The numbers of an event's record.
fn fields_of_event(event: Event) -> Fields {
    match event {
        Event::Load { card, block } => with_cell(TAG_LOAD, card, block),
        Event::Store { card, block, value } => {
            let mut fields = with_cell(TAG_STORE, card, block);
            fields[STORED] = value.into();
            fields
        }
        Event::Ask {
            card,
            block,
            kind,
            mask,
        } => {
            let mut fields = with_cell(TAG_ASK, card, block);
            fields[KIND] = kind.into();
            fields[MASK] = mask.into();
            fields
        }
        Event::Drop { card, block } => with_cell(TAG_DROP, card, block),
        Event::Order => with(TAG_ORDER, []),
        Event::Deliver { position } => with(TAG_DELIVER, [(POSITION, position)]),
        Event::Copy { position } => with(TAG_COPY, [(POSITION, position)]),
        Event::Rejoin { card } => with(TAG_REJOIN, [(CARD, card)]),
    }
}

/// The numbers of a record with a card and a block.
fn with_cell(tag: u8, card: u8, block: u8) -> Fields {
    with(tag, [(CARD, card), (BLOCK, block)])
}

/// The numbers of a record with these bytes.
fn with<const BYTES: usize>(tag: u8, bytes: [(usize, u8); BYTES]) -> Fields {
    let mut fields = [0; FIELDS];
    fields[TAG] = tag.into();
    for (at, byte) in bytes {
        fields[at] = byte.into();
    }
    fields
}

/// The record of these numbers, of which those that it has not do not count;
/// 21 if no record has the tag, 23 for an opening of no edition.
pub fn record_of(fields: &Fields) -> Result<Record, Refusal> {
    let byte = |at: usize| fields[at] as u8;
    let (card, block, position) = (byte(CARD), byte(BLOCK), byte(POSITION));
    Ok(Record::Event(match byte(TAG) {
        TAG_OPENING => {
            return Ok(Record::Opening {
                edition: Edition::of(byte(KIND).into()).ok_or(Refusal::WrongOpening)?,
                cards: card,
                blocks: block,
            })
        }
        TAG_LOAD => Event::Load { card, block },
        TAG_STORE => Event::Store {
            card,
            block,
            value: fields[STORED] as u32,
        },
        TAG_ASK => Event::Ask {
            card,
            block,
            kind: byte(KIND),
            mask: fields[MASK] as Mask,
        },
        TAG_DROP => Event::Drop { card, block },
        TAG_ORDER => Event::Order,
        TAG_DELIVER => Event::Deliver { position },
        TAG_COPY => Event::Copy { position },
        TAG_REJOIN => Event::Rejoin { card },
        _ => return Err(Refusal::UnknownTag),
    }))
}
