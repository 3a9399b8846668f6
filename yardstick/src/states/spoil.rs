//! Words of a state, with one or two of them spoiled, and others.

use super::draws::one_of;
use super::fabricate::{awaiting_cells, fabricate};
use crate::chassis::{Chassis, Mask, MAX_BLOCKS};
use crate::layout::{cell_at, home_at, line_at, pool_at};
use crate::random::Random;
use crate::words::{unused_words, CELL_WORDS, HEADER_WORDS, HOME_WORDS, PLACE_WORDS, WORDS};

/// What the words of a state are like.
#[derive(Clone, Copy, PartialEq, Eq, Debug)]
pub enum Form {
    WellFormed,
    OneSpoiled,
    TwoSpoiled,
    /// Those that a refused Start leaves.
    NoChassis,
    Noise,
}

/// The forms with their weights.
const FORMS: [(Form, u32); 5] = [
    (Form::WellFormed, 42),
    (Form::OneSpoiled, 40),
    (Form::TwoSpoiled, 14),
    (Form::NoChassis, 2),
    (Form::Noise, 2),
];

/// The largest number of each width that a field has.
const LARGEST: [u64; 4] = [u8::MAX as u64, Mask::MAX as u64, u32::MAX as u64, u64::MAX];

/// Small numbers have no more bits than this.
const SMALL_BITS: u32 = 6;

/// A state as words.
pub struct State {
    pub form: Form,
    pub words: [u64; WORDS],
    /// What the words were before they were spoiled.
    pub chassis: Chassis,
}

/// The words of a fabricated chassis, as they are or not.
pub fn draw_state(random: &mut Random) -> State {
    let chassis = fabricate(random);
    let form = random.weighted(&FORMS).unwrap_or(Form::WellFormed);
    let mut words = chassis.words();
    match form {
        Form::WellFormed => {}
        Form::OneSpoiled => spoil(random, &chassis, &mut words),
        Form::TwoSpoiled => {
            spoil(random, &chassis, &mut words);
            spoil(random, &chassis, &mut words);
        }
        Form::NoChassis => words = unused_words(),
        Form::Noise => words = noise(random),
    }
    State {
        form,
        words,
        chassis,
    }
}

/// Words that mean nothing.
fn noise(random: &mut Random) -> [u64; WORDS] {
    let mut words = [0; WORDS];
    words.fill_with(|| random.bits() >> random.below(u64::BITS));
    words
}

/// Replaces a word.
fn spoil(random: &mut Random, chassis: &Chassis, words: &mut [u64; WORDS]) {
    let (at, other) = (pick_word(random, chassis), pick_word(random, chassis));
    words[at] = match random.below(12) {
        0 => 0,
        1 => 1,
        2 => words[other],
        3 => words[at] ^ 1 << random.below(u64::BITS),
        4 | 5 => words[at] ^ 1 << random.below(SMALL_BITS),
        6 | 7 => small(random),
        8 => u64::from(random.byte()),
        9 => one_of(random, LARGEST),
        10 => one_of(random, LARGEST).wrapping_add(1),
        _ => random.bits(),
    };
}

/// A small number, the smallest ones most often.
fn small(random: &mut Random) -> u64 {
    let bits = random.between(1, SMALL_BITS);
    u64::from(random.below(1 << bits))
}

/// A word of one of the parts, most of them in use, or any at all. The first
/// word, the edition, is a part of its own: all states depend on it.
fn pick_word(random: &mut Random, chassis: &Chassis) -> usize {
    let card = random.place(usize::from(chassis.cards));
    let block = random.place(usize::from(chassis.blocks));
    let any_block = random.place(MAX_BLOCKS);
    let waiting = random.place(chassis.line.count());
    let sent = random.place(chassis.pool.count());
    let parts = [
        (0, 1),
        (0, HEADER_WORDS),
        (home_at(block), HOME_WORDS),
        (home_at(any_block), HOME_WORDS),
        (cell_at(card, block), CELL_WORDS),
        (awaiting_cell(random, chassis), CELL_WORDS),
        (line_at(0), PLACE_WORDS),
        (line_at(waiting), PLACE_WORDS),
        (pool_at(0), PLACE_WORDS),
        (pool_at(sent), PLACE_WORDS),
        (0, WORDS),
    ];
    let (first, length) = one_of(random, parts);
    first + random.place(length)
}

/// Where a cell that awaits data begins; if none does, the first cell.
fn awaiting_cell(random: &mut Random, chassis: &Chassis) -> usize {
    let cells = awaiting_cells(chassis);
    let chosen = cells.get(random.place(cells.len()));
    let (card, block) = chosen.copied().unwrap_or((0, 0));
    cell_at(usize::from(card), usize::from(block))
}
