//! The counts of what engines met: what is missing is named.

use std::collections::BTreeSet;

use crate::cases::{cases_of, Case, Subject};
use crate::owned::{reachable_owned, Owned};
use crate::states::met::{wrong_names, Met, ON_ANY_STATE};

/// So many states that each case and clause is due so often, and each thing
/// done with owned copies so often.
const STATES: u64 = 40_000;
const DUE: u64 = 40;
const OWNED_DUE: u64 = 2;

/// Counts in which everything is met as often as is due, but for one case, one
/// thing that is wrong or one that is done with owned copies, which is met once.
fn met_but_for(case: Option<Case>, wrong: Option<&str>, owned: Option<Owned>) -> Met {
    let mut met = Met::default();
    (0..STATES).for_each(|_| met.add_state(true));
    for due in cases_of(&ON_ANY_STATE) {
        for _ in 0..if Some(due) == case { 1 } else { DUE } {
            met.add_answer(due.subject, (u32::from(due.refusal), due.outcome));
        }
    }
    for name in wrong_names() {
        for _ in 0..if Some(name) == wrong { 1 } else { DUE } {
            met.add_wrong_alone(name);
        }
    }
    for due in reachable_owned() {
        for _ in 0..if Some(due) == owned { 1 } else { OWNED_DUE } {
            met.add_owned(due);
        }
    }
    met
}

#[test]
fn what_is_met_too_seldom_is_named() {
    assert_eq!(met_but_for(None, None, None).complaint(), None);
    for case in cases_of(&ON_ANY_STATE) {
        let expected = format!("met 1 times, {DUE} are due: {case}");
        assert_eq!(
            met_but_for(Some(case), None, None).complaint(),
            Some(expected)
        );
    }
    for name in wrong_names() {
        let expected = format!("met 1 times, {DUE} are due: row 15, {name}");
        assert_eq!(
            met_but_for(None, Some(name), None).complaint(),
            Some(expected)
        );
    }
    for owned in reachable_owned() {
        let expected = format!("met 1 times, {OWNED_DUE} are due: {owned}");
        assert_eq!(
            met_but_for(None, None, Some(owned)).complaint(),
            Some(expected)
        );
    }
}

#[test]
fn what_is_not_to_be_met_is_named() {
    let mut met = met_but_for(None, None, None);
    met.add_answer(Subject::Load, (7, 0));
    met.add_answer(Subject::OrderGetsLastRetry, (0, 2));
    let expected = "not to be met: load: refusal 7\nnot to be met: order GETS, retry 3: outcome 2";
    assert_eq!(met.complaint().as_deref(), Some(expected));
}

/// The numbers of the paper: 1 to 15, 20 to 24 and outcomes 1 to 4.
#[test]
fn every_refusal_and_outcome_is_due() {
    let cases = || cases_of(&ON_ANY_STATE);
    let refusals: BTreeSet<u8> = cases().map(|case| case.refusal).collect();
    let outcomes: BTreeSet<u32> = cases().map(|case| case.outcome).collect();
    assert!(refusals.into_iter().eq((0..=15).chain(20..=24)));
    assert!(outcomes.into_iter().eq(0..=4));
}

#[test]
fn the_table_has_every_number() {
    let met = met_but_for(None, None, None).to_string();
    let line = |name: &str| met.lines().find(|line| line.starts_with(name));
    let ask =
        "ask                   accepted: 40; 15: 40; 1: 40; 2: 40; 5: 40; 6: 40; 4: 40; 7: 40";
    assert_eq!(line("ask"), Some(ask));
    let all = line("all refusals").expect("a line");
    assert!(all.starts_with("all refusals          1: 200; 2: 160; ") && all.ends_with("; 24: 40"));
    assert_eq!(line("40,000"), Some("40,000 states, 40,000 well formed"));
    assert_eq!(
        met.lines()
            .filter(|line| line.starts_with("nothing wrong but: "))
            .count(),
        wrong_names().count()
    );
    let lines = met.lines().filter(|line| line.starts_with("MOSI, "));
    assert_eq!(lines.count(), reachable_owned().count());
}
