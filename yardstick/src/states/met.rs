//! How often each answer was met on states and buffers that are made up, each
//! clause of row 15 as the only thing wrong, and what is done with owned copies.

use std::collections::BTreeMap;
use std::fmt;
use std::slice;

use crate::amounts::Grouped;
use crate::cases::{cases_of, Case, Reach, Subject};
use crate::engine::Answer;
use crate::formed::clause_names;
use crate::handed::{NO_EDITION, TOO_LARGE};
use crate::owned::{reachable_owned, Owned};

/// Each case and each clause is to be met once in so many states at least.
const ONE_IN: u64 = 1_000;

/// Each thing done with owned copies is to be met once in so many: a state in
/// which one is done needs an edition, an owner and a head that fit together.
const ONE_OWNED_IN: u64 = 20_000;

/// Every answer that a state or a buffer can have, from the paper's table of
/// refusals, its order of tests and its outcomes. The last retry has every
/// card in its mask, so its outcome is not 2.
#[rustfmt::skip]
pub(crate) const ON_ANY_STATE: [Reach; 18] = [
    Reach { subject: Subject::Start, outcomes: &[0], refusals: &[14] },
    Reach { subject: Subject::Load, outcomes: &[0], refusals: &[15, 1, 2, 3] },
    Reach { subject: Subject::Store, outcomes: &[0], refusals: &[15, 1, 2, 3] },
    Reach { subject: Subject::Drop, outcomes: &[0], refusals: &[15, 1, 2, 3] },
    Reach { subject: Subject::Ask, outcomes: &[0], refusals: &[15, 1, 2, 5, 6, 4, 7] },
    Reach { subject: Subject::OrderOfIllFormed, outcomes: &[], refusals: &[15] },
    Reach { subject: Subject::OrderOfNothing, outcomes: &[], refusals: &[8] },
    Reach { subject: Subject::OrderGets, outcomes: &[1, 2], refusals: &[12, 9, 13, 10] },
    Reach { subject: Subject::OrderGetsLastRetry, outcomes: &[1], refusals: &[12, 9, 13, 10] },
    Reach { subject: Subject::OrderGetx, outcomes: &[1, 2], refusals: &[12, 9, 13, 10] },
    Reach { subject: Subject::OrderGetxLastRetry, outcomes: &[1], refusals: &[12, 9, 13, 10] },
    Reach { subject: Subject::OrderPutx, outcomes: &[3, 4], refusals: &[12, 9, 13] },
    Reach { subject: Subject::Deliver, outcomes: &[1, 2], refusals: &[15, 11] },
    Reach { subject: Subject::Copy, outcomes: &[0], refusals: &[15, 11, 10] },
    Reach { subject: Subject::Rejoin, outcomes: &[0], refusals: &[15, 1] },
    Reach { subject: Subject::Reading, outcomes: &[0], refusals: &[20, 21, 22, 23] },
    Reach { subject: Subject::ReadingTheEnd, outcomes: &[0], refusals: &[] },
    Reach { subject: Subject::Writing, outcomes: &[0], refusals: &[21, 23, 24] },
];

/// What was met.
#[derive(Default)]
pub struct Met {
    states: u64,
    well_formed: u64,
    by_case: BTreeMap<Case, u64>,
    /// How often each thing was done with owned copies.
    by_owned: BTreeMap<Owned, u64>,
    /// How often each thing was all that was wrong with a state.
    by_wrong: BTreeMap<&'static str, u64>,
}

impl Met {
    /// Counts a state.
    pub fn add_state(&mut self, is_well_formed: bool) {
        self.states += 1;
        self.well_formed += u64::from(is_well_formed);
    }

    /// Counts a thing that was all that was wrong with a state.
    pub fn add_wrong_alone(&mut self, name: &'static str) {
        *self.by_wrong.entry(name).or_insert(0) += 1;
    }

    /// Counts an answer.
    pub fn add_answer(&mut self, subject: Subject, (refusal, value): Answer) {
        let case = Case {
            subject,
            refusal: refusal as u8,
            outcome: if subject.has_outcome() { value } else { 0 },
        };
        *self.by_case.entry(case).or_insert(0) += 1;
    }

    /// Counts what is done with owned copies.
    pub fn add_owned(&mut self, owned: Owned) {
        *self.by_owned.entry(owned).or_insert(0) += 1;
    }

    /// How often a thing was done with owned copies.
    pub fn of_owned(&self, owned: Owned) -> u64 {
        self.by_owned.get(&owned).copied().unwrap_or(0)
    }

    /// How often a case was met.
    pub fn of(&self, case: Case) -> u64 {
        self.by_case.get(&case).copied().unwrap_or(0)
    }

    /// How often a thing was all that was wrong with a state.
    pub fn wrong_alone(&self, name: &str) -> u64 {
        self.by_wrong.get(name).copied().unwrap_or(0)
    }

    /// What is wrong: the cases, the clauses and the things done with owned
    /// copies that were met too seldom, and the cases that the paper does not
    /// have. Nothing wrong gives no text.
    pub fn complaint(&self) -> Option<String> {
        let due = self.states / ONE_IN;
        let cases = cases_of(&ON_ANY_STATE).map(|case| (case.to_string(), self.of(case)));
        let wrong = wrong_names().map(|name| (format!("row 15, {name}"), self.wrong_alone(name)));
        let owned = reachable_owned().map(|owned| (owned.to_string(), self.of_owned(owned)));
        let all = cases.chain(wrong).map(|(what, met)| (what, met, due));
        let all = all.chain(owned.map(|(what, met)| (what, met, self.states / ONE_OWNED_IN)));
        let seldom = all.filter(|(_, met, due)| met < due);
        let is_known = |case: &Case| cases_of(&ON_ANY_STATE).any(|known| known == *case);
        let unknown = self.by_case.keys().filter(|case| !is_known(case));
        let complaints: Vec<String> = seldom
            .map(|(what, met, due)| format!("met {met} times, {due} are due: {what}"))
            .chain(unknown.map(|case| format!("not to be met: {case}")))
            .collect();
        (!complaints.is_empty()).then(|| complaints.join("\n"))
    }

    /// How often each refusal was met, whatever was asked.
    fn by_refusal(&self) -> BTreeMap<u8, u64> {
        let mut by_refusal = BTreeMap::new();
        for (case, met) in self.by_case.iter().filter(|(case, _)| case.refusal > 0) {
            *by_refusal.entry(case.refusal).or_insert(0) += met;
        }
        by_refusal
    }
}

/// The names of what can be wrong with words.
pub fn wrong_names() -> impl Iterator<Item = &'static str> {
    [TOO_LARGE, NO_EDITION].into_iter().chain(clause_names())
}

impl fmt::Display for Met {
    /// A line for each thing that is asked, one for all refusals, one for each
    /// thing that can be wrong with a state, and one for each that is done with
    /// owned copies.
    fn fmt(&self, out: &mut fmt::Formatter<'_>) -> fmt::Result {
        for reach in &ON_ANY_STATE {
            let cases = cases_of(slice::from_ref(reach));
            let answers = cases.map(|case| (answer_name(case), self.of(case)));
            write_line(out, reach.subject.name(), answers)?;
        }
        let refusals = self.by_refusal().into_iter();
        let refusals = refusals.map(|(number, met)| (number.to_string(), met));
        write_line(out, "all refusals", refusals)?;
        let [states, well_formed] = [self.states, self.well_formed].map(grouped);
        writeln!(out, "{states} states, {well_formed} well formed")?;
        for name in wrong_names() {
            let alone = grouped(self.wrong_alone(name));
            writeln!(out, "nothing wrong but: {name:<24}{alone:>12}")?;
        }
        for owned in reachable_owned() {
            let met = grouped(self.of_owned(owned));
            writeln!(out, "{:<43}{met:>12}", owned.to_string())?;
        }
        Ok(())
    }
}

/// The answer of a case, as short as it can be told.
fn answer_name(case: Case) -> String {
    match (case.refusal, case.outcome) {
        (0, 0) => "accepted".to_string(),
        (0, outcome) => format!("outcome {outcome}"),
        (refusal, _) => refusal.to_string(),
    }
}

/// A line of a name and of numbers, each with what it counts.
fn write_line(
    out: &mut fmt::Formatter<'_>,
    name: &str,
    numbers: impl Iterator<Item = (String, u64)>,
) -> fmt::Result {
    let numbers: Vec<String> = numbers
        .map(|(what, number)| format!("{what}: {}", grouped(number)))
        .collect();
    writeln!(out, "{name:<22}{}", numbers.join("; "))
}

/// A number as the paper writes it.
fn grouped(number: u64) -> String {
    Grouped(number as usize).to_string()
}
