//! The cases that a journal can reach: what a line of the output is about,
//! with the answer given. A state or a buffer that is made up reaches more
//! (`states/met.rs`).

use crate::chassis::{Chassis, Request, LAST_RETRY};
use crate::events::Event;
use crate::table::{GETS, GETX};

/// What an answer is about. An Order is told apart by its request.
#[derive(Clone, Copy, PartialEq, Eq, PartialOrd, Ord, Debug)]
pub enum Subject {
    Start,
    Load,
    Store,
    Drop,
    Ask,
    OrderOfIllFormed,
    OrderOfNothing,
    OrderGets,
    OrderGetsLastRetry,
    OrderGetx,
    OrderGetxLastRetry,
    OrderPutx,
    Deliver,
    Copy,
    Rejoin,
    Reading,
    EmptyJournal,
    FirstNotOpening,
    LaterOpening,
    ReadingTheEnd,
    Writing,
}

/// A subject with its answer. The outcome is 0 but for Order and Deliver.
#[derive(Clone, Copy, PartialEq, Eq, PartialOrd, Ord, Debug)]
pub struct Case {
    pub subject: Subject,
    pub refusal: u8,
    pub outcome: u32,
}

/// The answers that can be reached for one subject.
pub struct Reach {
    pub subject: Subject,
    pub outcomes: &'static [u32],
    pub refusals: &'static [u8],
}

/// Every case that a journal can reach, taken from the paper's table of
/// refusals, its order of tests and its outcomes. Left out are 12 (no journal
/// is long enough), 13 and 15 (no event makes such a state), 24 (nothing is
/// written) and outcome 2 at the last retry (its mask is every card).
#[rustfmt::skip]
pub const REACHABLE: [Reach; 18] = [
    Reach { subject: Subject::Start, outcomes: &[0], refusals: &[14] },
    Reach { subject: Subject::Load, outcomes: &[0], refusals: &[1, 2, 3] },
    Reach { subject: Subject::Store, outcomes: &[0], refusals: &[1, 2, 3] },
    Reach { subject: Subject::Drop, outcomes: &[0], refusals: &[1, 2, 3] },
    Reach { subject: Subject::Ask, outcomes: &[0], refusals: &[1, 2, 5, 6, 4, 7] },
    Reach { subject: Subject::OrderOfNothing, outcomes: &[], refusals: &[8] },
    Reach { subject: Subject::OrderGets, outcomes: &[1, 2], refusals: &[9, 10] },
    Reach { subject: Subject::OrderGetsLastRetry, outcomes: &[1], refusals: &[9, 10] },
    Reach { subject: Subject::OrderGetx, outcomes: &[1, 2], refusals: &[9, 10] },
    Reach { subject: Subject::OrderGetxLastRetry, outcomes: &[1], refusals: &[9, 10] },
    Reach { subject: Subject::OrderPutx, outcomes: &[3, 4], refusals: &[9] },
    Reach { subject: Subject::Deliver, outcomes: &[1, 2], refusals: &[11] },
    Reach { subject: Subject::Copy, outcomes: &[0], refusals: &[11, 10] },
    Reach { subject: Subject::Rejoin, outcomes: &[0], refusals: &[1] },
    Reach { subject: Subject::Reading, outcomes: &[], refusals: &[20, 21, 22, 23] },
    Reach { subject: Subject::EmptyJournal, outcomes: &[], refusals: &[23] },
    Reach { subject: Subject::FirstNotOpening, outcomes: &[], refusals: &[23] },
    Reach { subject: Subject::LaterOpening, outcomes: &[], refusals: &[23] },
];

/// The cases of `REACHABLE`, one by one.
pub fn reachable_cases() -> impl Iterator<Item = Case> {
    cases_of(&REACHABLE)
}

/// The cases of a table, one by one.
pub fn cases_of(table: &'static [Reach]) -> impl Iterator<Item = Case> {
    table.iter().flat_map(|reach| {
        let subject = reach.subject;
        let accepted = reach.outcomes.iter().map(move |&outcome| Case {
            subject,
            refusal: 0,
            outcome,
        });
        let refused = reach.refusals.iter().map(move |&refusal| Case {
            subject,
            refusal,
            outcome: 0,
        });
        accepted.chain(refused)
    })
}

impl Subject {
    /// What an event is about, in the state before it.
    pub fn of(event: &Event, chassis: &Chassis) -> Subject {
        match event {
            Event::Load { .. } => Subject::Load,
            Event::Store { .. } => Subject::Store,
            Event::Ask { .. } => Subject::Ask,
            Event::Drop { .. } => Subject::Drop,
            Event::Order => chassis
                .head()
                .map_or(Subject::OrderOfNothing, Subject::of_order),
            Event::Deliver { .. } => Subject::Deliver,
            Event::Copy { .. } => Subject::Copy,
            Event::Rejoin { .. } => Subject::Rejoin,
        }
    }

    /// What the Order of a request is about.
    fn of_order(request: Request) -> Subject {
        match (request.kind, request.retry == LAST_RETRY) {
            (GETS, false) => Subject::OrderGets,
            (GETS, true) => Subject::OrderGetsLastRetry,
            (GETX, false) => Subject::OrderGetx,
            (GETX, true) => Subject::OrderGetxLastRetry,
            _ => Subject::OrderPutx,
        }
    }

    /// Whether an accepted line of this subject has an outcome as its value.
    pub fn has_outcome(self) -> bool {
        matches!(
            self,
            Subject::OrderGets
                | Subject::OrderGetsLastRetry
                | Subject::OrderGetx
                | Subject::OrderGetxLastRetry
                | Subject::OrderPutx
                | Subject::Deliver
        )
    }

    /// Whether there is an edition to speak of: a chassis, or the Start of one.
    pub fn needs_a_chassis(self) -> bool {
        !matches!(
            self,
            Subject::Reading
                | Subject::ReadingTheEnd
                | Subject::EmptyJournal
                | Subject::FirstNotOpening
                | Subject::Writing
        )
    }

    /// The subject's name in tables and messages.
    pub fn name(self) -> &'static str {
        match self {
            Subject::Start => "start",
            Subject::Load => "load",
            Subject::Store => "store",
            Subject::Drop => "drop",
            Subject::Ask => "ask",
            Subject::OrderOfIllFormed => "order, ill formed",
            Subject::OrderOfNothing => "order, empty line",
            Subject::OrderGets => "order GETS",
            Subject::OrderGetsLastRetry => "order GETS, retry 3",
            Subject::OrderGetx => "order GETX",
            Subject::OrderGetxLastRetry => "order GETX, retry 3",
            Subject::OrderPutx => "order PUTX",
            Subject::Deliver => "deliver",
            Subject::Copy => "copy",
            Subject::Rejoin => "rejoin",
            Subject::Reading => "reading",
            Subject::EmptyJournal => "empty journal",
            Subject::FirstNotOpening => "first not an opening",
            Subject::LaterOpening => "later opening",
            Subject::ReadingTheEnd => "reading, the end",
            Subject::Writing => "writing",
        }
    }
}
