//! Looking at a chassis: what is seen, as the proved engine's numbers. The paper
//! has no such event; a position is refused as a delivery's is.

use crate::chassis::Chassis;
use crate::random::Random;
use crate::refusal::Refusal;

/// How many numbers a look shows; those that it has not are 0.
pub const SEEN: usize = 6;

/// The numbers that a look shows.
pub type Seen = [u64; SEEN];

/// What can be looked at.
#[derive(Clone, Copy, PartialEq, Eq, Debug)]
pub enum Look {
    Counts,
    Message { position: u8 },
    Request { position: u8 },
    Cell { card: u8, block: u8 },
    Home { block: u8 },
}

impl Chassis {
    /// What a look shows.
    pub fn look(&self, look: Look) -> Result<Seen, Refusal> {
        match look {
            Look::Counts => Ok(self.seen_counts()),
            Look::Message { position } => self.seen_message(position),
            Look::Request { position } => self.seen_request(position),
            Look::Cell { card, block } => self.seen_cell(card, block),
            Look::Home { block } => self.seen_home(block),
        }
    }

    fn seen_counts(&self) -> Seen {
        let [edition, cards, blocks] =
            [self.edition.number(), self.cards, self.blocks].map(u64::from);
        let [waiting, pooled] = [self.line.count(), self.pool.count()].map(|count| count as u64);
        [edition, cards, blocks, waiting, pooled, self.last_order.0]
    }

    fn seen_message(&self, position: u8) -> Result<Seen, Refusal> {
        let message = self.pool.get(usize::from(position));
        let message = message.ok_or(Refusal::NoSuchPosition)?;
        let [sender, receiver, block] =
            [message.sender, message.receiver, message.block].map(u64::from);
        let value = u64::from(message.value);
        Ok([sender, receiver, block, value, message.number.0, 0])
    }

    fn seen_request(&self, position: u8) -> Result<Seen, Refusal> {
        let request = self.line.get(usize::from(position));
        let request = request.ok_or(Refusal::NoSuchPosition)?;
        let [card, block, kind] = [request.card, request.block, request.kind].map(u64::from);
        let mask = u64::from(request.mask);
        Ok([card, block, kind, mask, u64::from(request.retry.0), 0])
    }

    fn seen_cell(&self, card: u8, block: u8) -> Result<Seen, Refusal> {
        if card >= self.cards {
            return Err(Refusal::NoSuchCard);
        }
        self.has_block(block)?;
        let cell = self.cell(card, block);
        let (state, value) = (u64::from(cell.state), u64::from(cell.value));
        Ok([state, value, cell.awaited.0, 0, 0, 0])
    }

    fn seen_home(&self, block: u8) -> Result<Seen, Refusal> {
        self.has_block(block)?;
        let home = &self.home[usize::from(block)];
        let (memory, owner) = (u64::from(home.memory), u64::from(home.owner));
        Ok([memory, owner, u64::from(home.sharers), 0, 0, 0])
    }

    fn has_block(&self, block: u8) -> Result<(), Refusal> {
        match block < self.blocks {
            true => Ok(()),
            false => Err(Refusal::NoSuchBlock),
        }
    }

    /// A few looks: each kind once, at what is there and just behind it.
    pub fn looks(&self, random: &mut Random) -> [Look; 5] {
        let mut upto = |most: usize| random.below(most as u32 + 2) as u8;
        [
            Look::Counts,
            Look::Message {
                position: upto(self.pool.count()),
            },
            Look::Request {
                position: upto(self.line.count()),
            },
            Look::Cell {
                card: upto(usize::from(self.cards)),
                block: upto(usize::from(self.blocks)),
            },
            Look::Home {
                block: upto(usize::from(self.blocks)),
            },
        ]
    }
}
