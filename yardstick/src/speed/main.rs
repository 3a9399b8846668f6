//! How fast the proved engine runs beside the safe one: both over the same journals, from memory into memory, in one run, in turn.
//!
//!     speed [--rounds N] [--events N]     the ratios of all journals, with their spread
//!     speed --once ENGINE JOURNAL         one run, for a tool that counts instructions

mod firmware;
mod journals;
mod lines;
mod runs;

use std::env;
use std::fmt;
use std::io::{self, Write};
use std::process::ExitCode;
use std::time::{Duration, Instant};

use journals::{journals, Journal};
use runs::{proved_tested, proved_untested, safe_tested, safe_untested, Lent};
use yardstick::arguments::Arguments;
use yardstick::words::WORDS;

const DEFAULT_EVENTS: usize = 20_000;
const DEFAULT_ROUNDS: usize = 201;
/// A line has this many bytes at most.
const LINE: usize = 46;

type Run = fn(&[u8], &mut Lent);

/// The runs by name.
const RUNS: [(&str, Run); 4] = [
    ("proved-untested", proved_untested),
    ("safe-untested", safe_untested),
    ("proved-tested", proved_tested),
    ("safe-tested", safe_tested),
];

fn main() -> ExitCode {
    match command() {
        Ok(()) => ExitCode::SUCCESS,
        Err(message) => {
            // With no standard error left, the status alone has to say it.
            let _ = writeln!(io::stderr(), "speed: {message}");
            ExitCode::FAILURE
        }
    }
}

fn command() -> Result<(), String> {
    let mut arguments = Arguments::new(env::args_os().skip(1))?;
    let rounds = count(&mut arguments, "--rounds", DEFAULT_ROUNDS)?;
    let events = count(&mut arguments, "--events", DEFAULT_EVENTS)?;
    if arguments.take_flag("--once")? {
        let run = arguments.take_word("ENGINE")?;
        let journal = arguments.take_word("JOURNAL")?;
        arguments.end()?;
        return once(&run, &journal, events);
    }
    arguments.end()?;
    measure(rounds, events)
}

/// The number after an option: 1 or more.
fn count(arguments: &mut Arguments, option: &'static str, default: usize) -> Result<usize, String> {
    let Some(number) = arguments.take_number(option)? else {
        return Ok(default);
    };
    let number = usize::try_from(number).ok().filter(|number| *number > 0);
    number.ok_or_else(|| format!("{option} needs a number, 1 or more"))
}

/// Writes a line of the report and makes it seen at once.
fn say(line: fmt::Arguments<'_>) -> Result<(), String> {
    let mut out = io::stdout();
    writeln!(out, "{line}")
        .and_then(|()| out.flush())
        .map_err(|error| format!("cannot write: {error}"))
}

/// What a run over a journal is lent.
fn lent_for(journal: &Journal) -> Lent {
    // Every record has three bytes at least.
    let lines = journal.bytes.len() / 3 + 2;
    Lent {
        state: Box::new([0; WORDS]),
        text: vec![0; lines * LINE],
        count: 0,
    }
}

/// One run of one engine over one journal.
fn once(name: &str, journal: &str, events: usize) -> Result<(), String> {
    let found = RUNS.iter().find(|(known, _)| *known == name);
    let (_, run) = found.ok_or_else(|| format!("there is no run {name}"))?;
    let journals = journals(events);
    let journal = journals
        .iter()
        .find(|known| known.name == journal)
        .ok_or_else(|| format!("there is no journal {journal}"))?;
    let mut lent = lent_for(journal);
    run(&journal.bytes, &mut lent);
    say(format_args!("{} bytes of text", lent.count))
}

/// The ratios of all journals.
fn measure(rounds: usize, events: usize) -> Result<(), String> {
    say(format_args!("time of the proved engine / time of the safe one, {rounds} rounds of {events} events: median (lowest tenth to highest tenth)"))?;
    for journal in journals(events) {
        let [untested, tested] = [
            (proved_untested as Run, safe_untested as Run),
            (proved_tested, safe_tested),
        ]
        .map(|(proved, safe)| ratios(&journal, proved, safe, rounds));
        say(format_args!(
            "{:<12} neither side tests 15: {}   both test 15 at every event: {}",
            journal.name, untested?, tested?
        ))?;
    }
    Ok(())
}

/// The ratio of two runs over a journal: in turn, so often; each has to write the same text.
fn ratios(journal: &Journal, proved: Run, safe: Run, rounds: usize) -> Result<String, String> {
    let (mut one, mut other) = (lent_for(journal), lent_for(journal));
    let mut found = Vec::with_capacity(rounds);
    for _ in 0..rounds {
        let first = timed(proved, &journal.bytes, &mut one);
        let second = timed(safe, &journal.bytes, &mut other);
        if one.text[..one.count] != other.text[..other.count] {
            return Err(format!(
                "the two engines write different texts for {}",
                journal.name
            ));
        }
        found.push(first.as_secs_f64() / second.as_secs_f64());
    }
    found.sort_by(f64::total_cmp);
    let at = |percent: usize| found[(found.len() - 1) * percent / 100];
    Ok(format!("{:.2} ({:.2} to {:.2})", at(50), at(10), at(90)))
}

fn timed(run: Run, journal: &[u8], lent: &mut Lent) -> Duration {
    let began = Instant::now();
    run(journal, lent);
    began.elapsed()
}
