//! Whether both engines agree, word for word, and the tools with them: on the journals of seeds, or on states and buffers that no journal
//! reaches. Stops at the first difference.

mod journals;

#[path = "../speed/firmware.rs"]
mod firmware;

use std::env;
use std::fmt;
use std::io::{self, Write};
use std::ops::Range;
use std::process::ExitCode;

use firmware::Firmware;
use yardstick::arguments::Arguments;
use yardstick::states::meet;
use yardstick::states::met::Met;

const USAGE: &str = "\
usage:
  agree [--count N] [--from SEED]    the journals of N seeds, every second one damaged, record by record
  agree --states N [--from SEED]     the states of N seeds, well formed and spoiled, and every event on each of them;
                                     records written and read at any place of any buffer
The first difference stops it. With --states it counts what was met, and fails where a refusal, an outcome or a
clause of row 15 was met less often than once in 1,000 states. Status 0: no difference. 1: one, or bad use.";

/// How many journals are tried if nothing is said.
const DEFAULT_COUNT: u64 = 1_000;

/// Progress is told after so many states.
const PROGRESS: u64 = 1_000_000;

/// What is to be compared.
enum Task {
    Help,
    Journals(Range<u64>),
    States(Range<u64>),
}

fn main() -> ExitCode {
    let task = task().map_err(|message| format!("{message}\n{USAGE}"));
    let done = task.and_then(|task| match task {
        Task::Help => say(format_args!("{USAGE}")),
        Task::Journals(seeds) => on_journals(seeds),
        Task::States(seeds) => on_states(seeds),
    });
    match done {
        Ok(()) => ExitCode::SUCCESS,
        Err(message) => {
            // With no standard error left, the status alone has to say it.
            let _ = writeln!(io::stderr(), "agree: {message}");
            ExitCode::FAILURE
        }
    }
}

/// What the command line asks for.
fn task() -> Result<Task, String> {
    let mut arguments = Arguments::new(env::args_os().skip(1))?;
    if arguments.take_help() {
        return Ok(Task::Help);
    }
    let mut number = |option| arguments.take_number(option);
    let (first, journals, states) = (number("--from")?, number("--count")?, number("--states")?);
    arguments.end()?;
    let seeds = |count: u64| {
        let first = first.unwrap_or(0);
        let end = first.checked_add(count);
        Ok::<_, String>(first..end.ok_or("the seeds go past 2^64 - 1")?)
    };
    match (journals, states) {
        (Some(_), Some(_)) => Err("--count and --states do not go together".to_string()),
        (None, Some(states)) => Ok(Task::States(seeds(states)?)),
        (journals, None) => Ok(Task::Journals(seeds(journals.unwrap_or(DEFAULT_COUNT))?)),
    }
}

/// Compares on the journals of seeds.
fn on_journals(seeds: Range<u64>) -> Result<(), String> {
    let records = journals::agree(seeds.clone())?;
    let journals = seeds.end - seeds.start;
    say(format_args!(
        "{journals} journals, {records} records: the same words and answers; make and show undo each other"
    ))
}

/// Compares on the states and buffers of seeds.
fn on_states(seeds: Range<u64>) -> Result<(), String> {
    let mut met = Met::default();
    for seed in seeds.clone().step_by(PROGRESS as usize) {
        let after = seeds.end.min(seed.saturating_add(PROGRESS));
        meet(&Firmware, seed..after, &mut met)?;
        if after < seeds.end {
            let so_far = after - seeds.start;
            say(format_args!("{so_far} states so far, no difference"))?;
        }
    }
    say(format_args!("{}", met.to_string().trim_end()))?;
    match met.complaint() {
        Some(complaint) => Err(complaint),
        None => say(format_args!("no difference")),
    }
}

/// Writes a line of the report and makes it seen at once.
fn say(line: fmt::Arguments<'_>) -> Result<(), String> {
    let mut out = io::stdout();
    writeln!(out, "{line}")
        .and_then(|()| out.flush())
        .map_err(|error| format!("cannot write: {error}"))
}
