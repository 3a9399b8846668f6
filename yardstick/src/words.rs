//! A chassis laid out as words, a field a word, as the proved engine keeps it:
//! a header, the blocks with their cells, the line's places, the pool's places.

use crate::chassis::{
    Cell, Chassis, HomeBlock, Message, Request, LINE_ROOM, MAX_BLOCKS, MAX_CARDS, POOL_ROOM,
};

/// The words of the header, of home's part of a block, of a cell, and of a
/// place of the line or the pool.
pub(crate) const HEADER_WORDS: usize = 6;
pub(crate) const HOME_WORDS: usize = 3;
pub(crate) const CELL_WORDS: usize = 3;
pub(crate) const PLACE_WORDS: usize = 5;

/// The words of a block, home's part and the cells.
pub(crate) const BLOCK_WORDS: usize = HOME_WORDS + CELL_WORDS * MAX_CARDS;

/// The words of a chassis.
pub const WORDS: usize =
    HEADER_WORDS + BLOCK_WORDS * MAX_BLOCKS + PLACE_WORDS * (LINE_ROOM + POOL_ROOM);

/// The words that a refused Start leaves: MSI, 0 cards, 0 blocks, all unused.
pub fn unused_words() -> [u64; WORDS] {
    Chassis::unused().words()
}

impl Chassis {
    /// The chassis as words. Unused cells, blocks and places are there too, as
    /// Start makes them.
    pub fn words(&self) -> [u64; WORDS] {
        let blocks = self.home.iter().zip(&self.cells);
        let line = self.line.places.iter().flat_map(request_words);
        let pool = self.pool.places.iter().flat_map(message_words);
        let all = (self.header_words().into_iter())
            .chain(blocks.flat_map(|(home, cells)| block_words(home, cells)))
            .chain(line)
            .chain(pool);
        let mut words = [0; WORDS];
        for (word, field) in words.iter_mut().zip(all) {
            *word = field;
        }
        words
    }

    /// The edition, the sizes, how many wait in the line and are in the pool,
    /// and the last order number.
    fn header_words(&self) -> [u64; HEADER_WORDS] {
        [
            u64::from(self.edition.number()),
            u64::from(self.cards),
            u64::from(self.blocks),
            self.line.count() as u64,
            self.pool.count() as u64,
            self.last_order.0,
        ]
    }
}

/// Home's part of a block, then its cells by card.
fn block_words<'a>(home: &HomeBlock, cells: &'a [Cell]) -> impl Iterator<Item = u64> + 'a {
    let home: [u64; HOME_WORDS] = [
        u64::from(home.memory),
        u64::from(home.owner),
        u64::from(home.sharers),
    ];
    home.into_iter().chain(cells.iter().flat_map(cell_words))
}

fn cell_words(cell: &Cell) -> [u64; CELL_WORDS] {
    [u64::from(cell.state), u64::from(cell.value), cell.awaited.0]
}

fn request_words(request: &Request) -> [u64; PLACE_WORDS] {
    [
        u64::from(request.card),
        u64::from(request.block),
        u64::from(request.kind),
        u64::from(request.mask),
        u64::from(request.retry.0),
    ]
}

fn message_words(message: &Message) -> [u64; PLACE_WORDS] {
    [
        u64::from(message.sender),
        u64::from(message.receiver),
        u64::from(message.block),
        u64::from(message.value),
        message.number.0,
    ]
}
