//! What loads may return, from the events and their answers alone: the last
//! earlier store to the block that is not struck, or 0. And one writer at most,
//! nothing impossible, and nothing ill formed: in both editions.

use super::started;
use crate::characters::CHARACTERS;
use crate::chassis::{Chassis, MAX_BLOCKS};
use crate::edition::{Edition, EDITIONS};
use crate::events::Event;
use crate::generate::{generate, generate_of};
use crate::random::Random;
use crate::refusal::Refusal;
use crate::table::{self, GETS, PUTX};

/// The sizes of the chassis of random runs, and how long and how many these are.
const CARDS: u8 = 3;
const BLOCKS: u8 = 2;
const EVENTS: usize = 3_000;
const RUNS: u64 = 60;

/// An accepted store.
struct Store {
    card: u8,
    value: u32,
    settled: bool,
}

/// The stores of each block that are not struck, in order.
struct History {
    stores: Vec<Vec<Store>>,
}

impl History {
    fn new() -> History {
        let stores = (0..MAX_BLOCKS).map(|_| Vec::new()).collect();
        History { stores }
    }

    /// Takes in an accepted event with its value. `ordered` is the block of
    /// the line's head before it.
    fn accept(&mut self, event: Event, value: u32, ordered: Option<u8>) {
        match (event, ordered) {
            (Event::Load { block, .. }, _) => {
                let last = self.of(block).last().map_or(0, |store| store.value);
                assert_eq!(value, last, "{event}");
            }
            (Event::Store { card, block, value }, _) => self.of(block).push(Store {
                card,
                value,
                settled: false,
            }),
            (Event::Order, Some(block)) if value == 1 || value == 3 => {
                self.of(block)
                    .iter_mut()
                    .for_each(|store| store.settled = true);
            }
            (Event::Rejoin { card }, _) => self.strike(card),
            _ => {}
        }
    }

    /// Strikes a card's unsettled stores.
    fn strike(&mut self, card: u8) {
        for stores in &mut self.stores {
            stores.retain(|store| store.settled || store.card != card);
        }
    }

    fn of(&mut self, block: u8) -> &mut Vec<Store> {
        &mut self.stores[usize::from(block)]
    }
}

/// While a card may store to a block, no other card may load it.
fn has_single_writers(chassis: &Chassis) -> bool {
    (0..chassis.blocks()).all(|block| {
        let rows = || {
            chassis
                .cells_of(block)
                .iter()
                .map(|cell| table::row(cell.state))
        };
        let writers = rows().filter(|row| row.store).count();
        let readers = rows().filter(|row| row.load).count();
        writers == 0 || (writers == 1 && readers == 1)
    })
}

/// A run from its start, with what its loads may return.
struct Checked {
    chassis: Chassis,
    history: History,
}

impl Checked {
    fn from(chassis: Chassis) -> Checked {
        let history = History::new();
        Checked { chassis, history }
    }

    /// Runs an event and checks all that it is to keep.
    fn run(&mut self, event: Event) {
        let before = self.chassis.clone();
        let ordered = before.head().map(|head| head.block);
        let answer = self.chassis.apply(event);
        match answer {
            Ok(value) => self.history.accept(event, value, ordered),
            Err(_) => assert_eq!(self.chassis, before, "{event}"),
        }
        assert_ne!(answer, Err(Refusal::Impossible), "{event}");
        let numbers_given = u64::from(event == Event::Order && answer.is_ok());
        let last = before.last_order.0 + numbers_given;
        assert_eq!(self.chassis.last_order.0, last);
        assert!(self.chassis.well_formed(), "{event}");
        assert!(has_single_writers(&self.chassis), "{event}");
    }
}

/// Runs a journal and checks every step of it.
fn check(journal: &[u8]) {
    let Some((chassis, events)) = started(journal) else {
        return;
    };
    let mut checked = Checked::from(chassis);
    for event in events {
        checked.run(event);
    }
}

/// Any event at all on a small chassis, each argument as likely as another.
fn any_event(random: &mut Random) -> Event {
    let [card, block] = [CARDS, BLOCKS].map(|most| random.byte_below(most));
    let position = random.byte_below(3);
    match random.below(12) {
        0 | 1 => Event::Load { card, block },
        2 => Event::Store {
            card,
            block,
            value: random.word(),
        },
        3..=5 => Event::Ask {
            card,
            block,
            kind: random.byte_between(GETS, PUTX),
            mask: random.byte_below(1 << CARDS),
        },
        6..=8 => Event::Order,
        9 | 10 => Event::Deliver { position },
        _ => match random.below(8) {
            0 => Event::Rejoin { card },
            1 | 2 => Event::Drop { card, block },
            _ => Event::Copy { position },
        },
    }
}

/// How often a cell was in each state after each event of random runs.
fn states_of_random_runs(edition: Edition) -> [u64; table::STATES] {
    let mut met = [0; table::STATES];
    for seed in 0..RUNS {
        let mut random = Random::new(seed);
        let started = Chassis::start(edition, CARDS, BLOCKS);
        let mut checked = Checked::from(started.expect("the sizes fit"));
        for _ in 0..EVENTS {
            checked.run(any_event(&mut random));
            for block in 0..BLOCKS {
                for cell in checked.chassis.cells_of(block) {
                    met[usize::from(cell.state)] += 1;
                }
            }
        }
    }
    met
}

/// Events drawn without a look at the state: no choice of the generator's
/// hides a run. MSI has every state but those of owned copies.
#[test]
fn random_runs_keep_the_rules() {
    for edition in EDITIONS {
        let met = states_of_random_runs(edition);
        for (state, met) in (0u8..).zip(met) {
            let is_due = table::has_state(edition, state);
            assert_eq!(met > RUNS, is_due, "state {state}: {met}");
        }
    }
}

#[test]
fn generated_runs_keep_the_rules() {
    for seed in 0..200 {
        check(&generate(seed, false));
    }
}

#[test]
fn every_character_keeps_the_rules() {
    for (character, _) in CHARACTERS {
        for edition in EDITIONS {
            for seed in 7..10 {
                check(&generate_of(edition, character, seed, 2_000));
            }
        }
    }
}
