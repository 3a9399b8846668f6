//! How often each case is reached, in each edition, and each thing that is done
//! with owned copies.

use std::collections::BTreeMap;
use std::fmt;

use crate::cases::{reachable_cases, Case};
use crate::edition::{Edition, EDITIONS};
use crate::generate::generate;
use crate::journal::Record;
use crate::owned::{owned, reachable_owned, Owned};
use crate::run::{Run, Seen};

/// A count for each case met, by the edition, and for each thing done with
/// owned copies.
#[derive(Default)]
pub struct Counts {
    by_case: BTreeMap<(Case, Edition), u64>,
    by_owned: BTreeMap<Owned, u64>,
}

impl Counts {
    /// The counts over the sound and the damaged journals of the first seeds.
    pub fn of_seeds(seeds: u64) -> Counts {
        let mut counts = Counts::default();
        for seed in 0..seeds {
            counts.add_journal(&generate(seed, false));
            counts.add_journal(&generate(seed, true));
        }
        counts
    }

    /// Counts every line of a journal's run.
    pub fn add_journal(&mut self, journal: &[u8]) {
        let mut run = Run::new(journal);
        while let Some(seen) = run.see() {
            let case = (seen.line.case(), edition_of(&seen));
            *self.by_case.entry(case).or_insert(0) += 1;
            let Some(event) = seen.event() else {
                continue;
            };
            for owned in owned(seen.before, event, seen.line.answer) {
                *self.by_owned.entry(owned).or_insert(0) += 1;
            }
        }
    }

    /// How often a case was met in an edition.
    pub fn of(&self, case: Case, edition: Edition) -> u64 {
        self.by_case.get(&(case, edition)).copied().unwrap_or(0)
    }

    /// How often a thing was done with owned copies.
    pub fn of_owned(&self, owned: Owned) -> u64 {
        self.by_owned.get(&owned).copied().unwrap_or(0)
    }

    /// What is wrong: the cases that a journal can reach and none did, and
    /// those that none should reach and one did. Nothing wrong gives no text.
    pub fn complaint(&self) -> Option<String> {
        let is_reachable = |case: &Case| reachable_cases().any(|reachable| reachable == *case);
        let missing = reachable_cases().flat_map(|case| self.missing(case));
        let owned = reachable_owned().filter(|owned| self.of_owned(*owned) == 0);
        let met = self.by_case.keys().map(|(case, _)| case);
        let unexpected = met.filter(|case| !is_reachable(case));
        let complaints: Vec<String> = missing
            .chain(owned.map(|owned| owned.to_string()))
            .map(|what| format!("not reached: {what}"))
            .chain(unexpected.map(|case| format!("not to be reached: {case}")))
            .collect();
        (!complaints.is_empty()).then(|| complaints.join("\n"))
    }

    /// The editions in which a case was not met, in words. One that needs no
    /// chassis is to be met at all.
    fn missing(&self, case: Case) -> Vec<String> {
        if !case.subject.needs_a_chassis() {
            let is_met = self.in_all(case) > 0;
            return if is_met {
                vec![]
            } else {
                vec![case.to_string()]
            };
        }
        let missing = EDITIONS
            .into_iter()
            .filter(|edition| self.of(case, *edition) == 0);
        missing
            .map(|edition| format!("{}, {case}", edition.name()))
            .collect()
    }

    /// How often a case was met.
    fn in_all(&self, case: Case) -> u64 {
        EDITIONS.map(|edition| self.of(case, edition)).iter().sum()
    }
}

/// The edition of a record: the one that an opening names, else that of the
/// chassis. Where there is no chassis yet it is MSI.
fn edition_of(seen: &Seen) -> Edition {
    match seen.record {
        Some(Record::Opening { edition, .. }) => edition,
        _ => seen.after.edition,
    }
}

impl fmt::Display for Counts {
    /// A table, a line for each case that a journal can reach, in MSI and in
    /// MOSI if it needs a chassis; then one for each thing done with owned
    /// copies.
    fn fmt(&self, out: &mut fmt::Formatter<'_>) -> fmt::Result {
        let [msi, mosi] = EDITIONS.map(Edition::name);
        writeln!(out, "{:<34}{msi:>10}{mosi:>10}", "")?;
        for case in reachable_cases() {
            let counts = match case.subject.needs_a_chassis() {
                true => EDITIONS.map(|edition| self.of(case, edition)).to_vec(),
                false => vec![self.in_all(case)],
            };
            write!(out, "{:<34}", case.to_string())?;
            counts
                .iter()
                .try_for_each(|count| write!(out, "{count:>10}"))?;
            writeln!(out)?;
        }
        for owned in reachable_owned() {
            writeln!(out, "{:<44}{:>10}", owned.to_string(), self.of_owned(owned))?;
        }
        Ok(())
    }
}

impl fmt::Display for Case {
    /// The subject and the answer, as `order GETX: outcome 2`.
    fn fmt(&self, out: &mut fmt::Formatter<'_>) -> fmt::Result {
        let subject = self.subject.name();
        match (self.refusal, self.outcome) {
            (0, 0) => write!(out, "{subject}: accepted"),
            (0, outcome) => write!(out, "{subject}: outcome {outcome}"),
            (refusal, _) => write!(out, "{subject}: refusal {refusal}"),
        }
    }
}
