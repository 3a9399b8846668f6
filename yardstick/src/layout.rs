//! Where the parts of a chassis are in its words, and what a word is called.

use crate::chassis::{LINE_ROOM, MAX_BLOCKS};
use crate::words::{BLOCK_WORDS, CELL_WORDS, HEADER_WORDS, HOME_WORDS, PLACE_WORDS, WORDS};

/// The words of each part, in their order.
#[rustfmt::skip]
const HEADER: [&str; HEADER_WORDS] = ["edition", "cards", "blocks", "count of the line", "count of the pool", "last order number"];
const HOME: [&str; HOME_WORDS] = ["memory", "owner", "sharers"];
const CELL: [&str; CELL_WORDS] = ["state", "value", "awaited number"];
const REQUEST: [&str; PLACE_WORDS] = ["card", "block", "kind", "mask", "retry"];
const MESSAGE: [&str; PLACE_WORDS] = ["sender", "receiver", "block", "value", "number"];

/// Where home's part of a block begins.
pub fn home_at(block: usize) -> usize {
    HEADER_WORDS + BLOCK_WORDS * block
}

/// Where a card's cell for a block begins.
pub fn cell_at(card: usize, block: usize) -> usize {
    home_at(block) + HOME_WORDS + CELL_WORDS * card
}

/// Where a place of the line begins.
pub fn line_at(place: usize) -> usize {
    home_at(MAX_BLOCKS) + PLACE_WORDS * place
}

/// Where a place of the pool begins.
pub fn pool_at(place: usize) -> usize {
    line_at(LINE_ROOM) + PLACE_WORDS * place
}

/// What a word is called, as `state of card 1 for block 0`.
pub fn word_name(at: usize) -> String {
    if at < home_at(0) {
        HEADER[at].to_string()
    } else if at < line_at(0) {
        block_word_name(at - home_at(0))
    } else if at < pool_at(0) {
        let (place, word) = split(at - line_at(0), PLACE_WORDS);
        format!("{} of the line's place {place}", REQUEST[word])
    } else {
        let (place, word) = split(at - pool_at(0), PLACE_WORDS);
        format!("{} of the pool's place {place}", MESSAGE[word])
    }
}

/// What a word of the blocks is called.
fn block_word_name(at: usize) -> String {
    let (block, word) = split(at, BLOCK_WORDS);
    let Some(in_cells) = word.checked_sub(HOME_WORDS) else {
        return format!("{} of block {block}", HOME[word]);
    };
    let (card, word) = split(in_cells, CELL_WORDS);
    format!("{} of card {card} for block {block}", CELL[word])
}

/// In which part of this length a word is, and where in it.
fn split(at: usize, length: usize) -> (usize, usize) {
    (at / length, at % length)
}

/// Says which word is the first that differs, if any.
pub fn same_words(proved: &[u64; WORDS], safe: &[u64; WORDS]) -> Result<(), String> {
    let mut pairs = proved.iter().zip(safe).enumerate();
    match pairs.find(|(_, (proved, safe))| proved != safe) {
        Some((at, (proved, safe))) => Err(format!(
            "word {at}, {}, is {proved} in the proved engine and {safe} in the safe one",
            word_name(at)
        )),
        None => Ok(()),
    }
}
