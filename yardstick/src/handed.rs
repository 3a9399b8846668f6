//! A state handed in as words: read back into a chassis, and tested by row 15
//! of the paper before all else.

use std::slice;

use crate::chassis::{Cell, Chassis, HomeBlock, Message, OrderNumber, Request, Retry};
use crate::edition::Edition;
use crate::refusal::Refusal;
use crate::words::WORDS;

/// What is wrong with words that are those of no chassis at all: the edition's
/// is no edition's number, or another is too large for its field.
pub const NO_EDITION: &str = "code of an edition";
pub const TOO_LARGE: &str = "word too large";

impl Chassis {
    /// The chassis that is laid out as these words; what is wrong with them if
    /// they are those of none. It may be ill formed.
    pub fn of_words(words: &[u64; WORDS]) -> Result<Chassis, &'static str> {
        let (edition, left) = (words[0], &words[1..]);
        let edition = Edition::of(edition).ok_or(NO_EDITION)?;
        Chassis::of_fields(edition, Left(left.iter())).ok_or(TOO_LARGE)
    }

    /// The chassis of an edition and of the words behind it; none if one is too
    /// large for its field.
    fn of_fields(edition: Edition, mut left: Left) -> Option<Chassis> {
        let mut chassis = Chassis::unused();
        chassis.edition = edition;
        chassis.cards = left.field()?;
        chassis.blocks = left.field()?;
        chassis.line.count = left.field()?;
        chassis.pool.count = left.field()?;
        chassis.last_order = OrderNumber(left.field()?);
        for (home, cells) in chassis.home.iter_mut().zip(&mut chassis.cells) {
            *home = left.home()?;
            for cell in cells {
                *cell = left.cell()?;
            }
        }
        for place in &mut chassis.line.places {
            *place = left.request()?;
        }
        for place in &mut chassis.pool.places {
            *place = left.message()?;
        }
        Some(chassis)
    }

    /// The well formed chassis of these words; 15 if they are not those of one.
    pub fn handed_in(words: &[u64; WORDS]) -> Result<Chassis, Refusal> {
        let chassis = Chassis::of_words(words).ok();
        let well_formed = chassis.filter(Chassis::well_formed);
        well_formed.ok_or(Refusal::IllFormed)
    }
}

/// What is wrong with words, by the names of the clauses of row 15. Nothing is
/// where they are those of a well formed chassis.
pub fn wrong_with(words: &[u64; WORDS]) -> Vec<&'static str> {
    match Chassis::of_words(words) {
        Ok(chassis) => chassis.broken_clauses(),
        Err(wrong) => vec![wrong],
    }
}

/// The words not yet read, in the order in which a chassis is laid out.
struct Left<'a>(slice::Iter<'a, u64>);

impl Left<'_> {
    /// The next word as a field; none if it is too large for it.
    fn field<Field: TryFrom<u64>>(&mut self) -> Option<Field> {
        let word = self.0.next()?;
        Field::try_from(*word).ok()
    }

    fn home(&mut self) -> Option<HomeBlock> {
        Some(HomeBlock {
            memory: self.field()?,
            owner: self.field()?,
            sharers: self.field()?,
        })
    }

    fn cell(&mut self) -> Option<Cell> {
        Some(Cell {
            state: self.field()?,
            value: self.field()?,
            awaited: OrderNumber(self.field()?),
        })
    }

    fn request(&mut self) -> Option<Request> {
        Some(Request {
            card: self.field()?,
            block: self.field()?,
            kind: self.field()?,
            mask: self.field()?,
            retry: Retry(self.field()?),
        })
    }

    fn message(&mut self) -> Option<Message> {
        Some(Message {
            sender: self.field()?,
            receiver: self.field()?,
            block: self.field()?,
            value: self.field()?,
            number: OrderNumber(self.field()?),
        })
    }
}
