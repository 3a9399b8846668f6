//! Both engines on a state: a Start and every event, the answers and the words.

use super::met::Met;
use super::same;
use super::spoil::{draw_state, Form, State};
use super::tried::{tried, Tried};
use crate::cases::Subject;
use crate::chassis::Chassis;
use crate::engine::{Answer, Engine, Safe};
use crate::events::Event;
use crate::handed::wrong_with;
use crate::layout::same_words;
use crate::looks::{Look, Seen};
use crate::owned::owned;
use crate::random::Random;
use crate::words::WORDS;

/// What stands in the numbers before a look.
const KEPT: Seen = [u64::MAX, 1, 2, 3, 4, 5];

/// A Start and each event, and looks, all on the same words.
pub(super) fn meet_on_state(
    proved: &dyn Engine,
    random: &mut Random,
    met: &mut Met,
) -> Result<(), String> {
    let state = draw_state(random);
    let handed_in = Chassis::handed_in(&state.words).ok();
    for tried in tried(random, &state.chassis) {
        let answer = same_answer_and_words(proved, &state.words, tried)
            .map_err(|what| format!("{}, {tried}: {what}", described(&state)))?;
        met.add_answer(subject(tried, handed_in.as_ref()), answer);
        if let (Tried::Event(event), Some(chassis)) = (tried, &handed_in) {
            let answer = chassis.clone().apply(event);
            let all = owned(chassis, event, answer);
            all.into_iter().for_each(|owned| met.add_owned(owned));
        }
    }
    for look in state.chassis.looks(random) {
        same_look(proved, &state.words, look)
            .map_err(|what| format!("{}, {look:?}: {what}", described(&state)))?;
    }
    met.add_state(handed_in.is_some());
    if let Some(alone) = wrong_alone(&state) {
        met.add_wrong_alone(alone);
    }
    Ok(())
}

/// The only thing wrong with a state, if there is one alone. Where more than a
/// word is spoiled, a size out of range may hide another thing.
fn wrong_alone(state: &State) -> Option<&'static str> {
    if state.form != Form::OneSpoiled {
        return None;
    }
    match wrong_with(&state.words)[..] {
        [alone] => Some(alone),
        _ => None,
    }
}

/// A Start or an event by both engines: the answer, if all is the same.
fn same_answer_and_words(
    proved: &dyn Engine,
    words: &[u64; WORDS],
    tried: Tried,
) -> Result<Answer, String> {
    let (mut one, mut other) = (*words, *words);
    let (answer, due) = (tried.run(proved, &mut one), tried.run(&Safe, &mut other));
    same("the answer", answer, due)?;
    same_words(&one, &other)?;
    Ok(due)
}

/// A look by both engines: the answer and the numbers seen, which a refusal keeps.
pub fn same_look(proved: &dyn Engine, words: &[u64; WORDS], look: Look) -> Result<(), String> {
    let (mut one, mut other): (Seen, Seen) = (KEPT, KEPT);
    let answer = proved.look(words, look, &mut one);
    let due = Safe.look(words, look, &mut other);
    same("the answer", answer, due)?;
    match one == other {
        true => Ok(()),
        false => Err(format!("{one:?} is seen, and {other:?} is due")),
    }
}

/// What a state is like, for a message.
fn described(state: &State) -> String {
    match &wrong_with(&state.words)[..] {
        [] => "a well formed state".to_string(),
        wrong => format!("an ill formed state ({})", wrong.join(", ")),
    }
}

/// What a Start or an event is about. No head is known in an ill formed state.
fn subject(tried: Tried, handed_in: Option<&Chassis>) -> Subject {
    match (tried, handed_in) {
        (Tried::Start { .. }, _) => Subject::Start,
        (Tried::Event(Event::Order), None) => Subject::OrderOfIllFormed,
        (Tried::Event(event), None) => Subject::of(&event, &Chassis::unused()),
        (Tried::Event(event), Some(chassis)) => Subject::of(&event, chassis),
    }
}
