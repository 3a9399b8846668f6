//! The commands of the yardstick.

#![forbid(unsafe_code)]

use std::env;
use std::ffi::OsStr;
use std::fs;
use std::io::{self, ErrorKind, IsTerminal, Write};
use std::path::Path;
use std::process::ExitCode;

use yardstick::arguments::Arguments;
use yardstick::compare::{compare, TIME_LIMIT};
use yardstick::counts::Counts;
use yardstick::ended::early_end;
use yardstick::explain::{explain, Look};
use yardstick::files::{
    read_first, read_whole, write_whole, LONGEST_JOURNAL, LONGEST_TEXT, STANDARD,
};
use yardstick::generate::generate;
use yardstick::make::make;
use yardstick::picture::{page, Picture};
use yardstick::replay::{replay, JOURNAL_LIMIT};
use yardstick::show::show;
use yardstick::stored;
use yardstick::usage::{command, usage, Verb, VERSION};

/// How many seeds are counted, and compared, if nothing is said.
const DEFAULT_SEEDS: u64 = 2_000;
const DEFAULT_COUNT: u64 = 1_000;

/// Why a command ends without success.
enum Failure {
    /// The command line is not understood: why, and what would be.
    Usage(String),
    /// The work itself failed, or found something wrong.
    Work(String),
    /// A text has mistakes. Each line of the message begins with the place of
    /// one, as editors understand it.
    Text(String),
    /// Whoever reads the output has seen enough, as `head` does. There is
    /// nothing to tell, but not all was written.
    Closed,
}

/// The exit status of a failure.
const WORK_STATUS: u8 = 1;
const USAGE_STATUS: u8 = 2;

fn main() -> ExitCode {
    let (message, status) = match run() {
        Ok(()) => return ExitCode::SUCCESS,
        Err(Failure::Usage(message)) => (format!("yardstick: {message}"), USAGE_STATUS),
        Err(Failure::Work(message)) => (format!("yardstick: {message}"), WORK_STATUS),
        Err(Failure::Text(message)) => (message, WORK_STATUS),
        Err(Failure::Closed) => return ExitCode::from(WORK_STATUS),
    };
    // With no standard error left, the status alone has to say it.
    let _ = writeln!(io::stderr(), "{message}");
    ExitCode::from(status)
}

/// Finds the command and runs it. Bad use is told with how the command is used,
/// or with the list of the commands where none is found.
fn run() -> Result<(), Failure> {
    let with_list = |message| Failure::Usage(format!("{message}\n{}", usage()));
    let mut arguments = Arguments::new(env::args_os().skip(1)).map_err(with_list)?;
    if arguments.asks_for_version() {
        return write_line(VERSION);
    }
    let name = if arguments.take_help() {
        "help".to_string()
    } else {
        arguments.take_word("the command").map_err(with_list)?
    };
    let command = command(&name).map_err(with_list)?;
    run_command(command.verb, arguments).map_err(|failure| match failure {
        Failure::Usage(message) => Failure::Usage(format!("{message}\n{}", command.usage())),
        other => other,
    })
}

/// Runs a command with the words after it.
fn run_command(verb: Verb, arguments: Arguments) -> Result<(), Failure> {
    match verb {
        Verb::Replay => run_replay(arguments),
        Verb::Generate => run_generate(arguments),
        Verb::Counts => run_counts(arguments),
        Verb::Show => run_show(arguments),
        Verb::Make => run_make(arguments),
        Verb::Explain => run_explain(arguments),
        Verb::Picture => run_picture(arguments),
        Verb::Compare => run_compare(arguments),
        Verb::Stored => run_stored(arguments),
        Verb::Help => run_help(arguments),
    }
}

/// Writes the help of the command that is named, or the list of all.
fn run_help(mut arguments: Arguments) -> Result<(), Failure> {
    if arguments.is_over() {
        return write_line(&usage());
    }
    let name = arguments.take_word("COMMAND").map_err(Failure::Usage)?;
    let command = command(&name).map_err(Failure::Usage)?;
    write_line(&command.help())
}

/// Replays a journal. What becomes of it stands in the output, whose form the
/// paper fixes: the status says nothing of it.
fn run_replay(mut arguments: Arguments) -> Result<(), Failure> {
    let file = if arguments.is_over() {
        STANDARD.to_string()
    } else {
        arguments.take_file("FILE").map_err(Failure::Usage)?
    };
    arguments.end().map_err(Failure::Usage)?;
    let journal = read_first(&file, JOURNAL_LIMIT).map_err(|error| unread(&file, error))?;
    write_out(replay(&journal).as_bytes())
}

fn run_generate(mut arguments: Arguments) -> Result<(), Failure> {
    let damaged = arguments.take_flag("--damaged").map_err(Failure::Usage)?;
    let seed = arguments.take_number("--seed").map_err(Failure::Usage)?;
    arguments.end().map_err(Failure::Usage)?;
    let Some(seed) = seed else {
        return Err(Failure::Usage("--seed is missing".to_string()));
    };
    write_out(&generate(seed, damaged))
}

fn run_counts(mut arguments: Arguments) -> Result<(), Failure> {
    let seeds = arguments.take_number("--seeds").map_err(Failure::Usage)?;
    arguments.end().map_err(Failure::Usage)?;
    let counts = Counts::of_seeds(seeds.unwrap_or(DEFAULT_SEEDS));
    write_out(counts.to_string().as_bytes())?;
    match counts.complaint() {
        Some(complaint) => Err(Failure::Work(complaint)),
        None => Ok(()),
    }
}

fn run_show(mut arguments: Arguments) -> Result<(), Failure> {
    let file = arguments.take_file("FILE").map_err(Failure::Usage)?;
    arguments.end().map_err(Failure::Usage)?;
    let journal = read_in(&file, LONGEST_JOURNAL)?;
    write_out(show(&journal, usize::MAX).as_bytes())?;
    runs_whole(&file, &journal)
}

fn run_make(mut arguments: Arguments) -> Result<(), Failure> {
    let out = arguments.take_out().map_err(Failure::Usage)?;
    let file = arguments.take_file("FILE").map_err(Failure::Usage)?;
    arguments.end().map_err(Failure::Usage)?;
    let text = read_in(&file, LONGEST_TEXT)?;
    let journal = make(&text).map_err(|mistakes| Failure::Text(mistakes.lines(name_of(&file))))?;
    match out.filter(|name| name != STANDARD) {
        Some(name) => write_beside(&file, &name, &journal),
        None => write_out(&journal),
    }
}

fn run_explain(mut arguments: Arguments) -> Result<(), Failure> {
    let file = arguments.take_file("FILE").map_err(Failure::Usage)?;
    arguments.end().map_err(Failure::Usage)?;
    let journal = read_in(&file, LONGEST_JOURNAL)?;
    let has_colours = io::stdout().is_terminal() && env::var_os("NO_COLOR").is_none();
    let look = if has_colours {
        Look::Coloured
    } else {
        Look::Plain
    };
    write_out(explain(&journal, look).as_bytes())?;
    runs_whole(&file, &journal)
}

fn run_picture(mut arguments: Arguments) -> Result<(), Failure> {
    let out = arguments.take_out().map_err(Failure::Usage)?;
    let file = arguments.take_file("FILE").map_err(Failure::Usage)?;
    arguments.end().map_err(Failure::Usage)?;
    let journal = read_in(&file, LONGEST_JOURNAL)?;
    let page = page(short_name(&file), &Picture::of(&journal));
    match out.filter(|name| name != STANDARD) {
        Some(name) => write_beside(&file, &name, page.as_bytes()),
        None => write_out(page.as_bytes()),
    }?;
    runs_whole(&file, &journal)
}

/// Says where and why the run of a journal ends early, if it does. The
/// journal is written in the form asked for all the same.
fn runs_whole(file: &str, journal: &[u8]) -> Result<(), Failure> {
    match early_end(journal) {
        Some(end) => Err(Failure::Work(format!("{}: {end}", name_of(file)))),
        None => Ok(()),
    }
}

/// A file's name without the directories that lead to it.
fn short_name(file: &str) -> &str {
    let last = Path::new(name_of(file)).file_name();
    last.and_then(OsStr::to_str).unwrap_or(name_of(file))
}

fn run_compare(mut arguments: Arguments) -> Result<(), Failure> {
    let from = arguments.take_number("--from").map_err(Failure::Usage)?;
    let count = arguments.take_number("--count").map_err(Failure::Usage)?;
    let program = arguments.take_word("PROGRAM").map_err(Failure::Usage)?;
    arguments.end().map_err(Failure::Usage)?;
    let first = from.unwrap_or(0);
    let Some(end) = first.checked_add(count.unwrap_or(DEFAULT_COUNT)) else {
        return Err(Failure::Usage("the seeds go past 2^64 - 1".to_string()));
    };
    compare(&program, first..end, TIME_LIMIT, &mut io::stdout()).map_err(Failure::Work)
}

fn run_stored(mut arguments: Arguments) -> Result<(), Failure> {
    let only_check = arguments.take_flag("--check").map_err(Failure::Usage)?;
    let directory = arguments.take_word("DIR").map_err(Failure::Usage)?;
    arguments.end().map_err(Failure::Usage)?;
    let directory = Path::new(&directory);
    let done = if only_check {
        stored::check(directory)
    } else {
        stored::write(directory)
    };
    done.map_err(Failure::Work)
}

/// What a file is called in a message.
fn name_of(file: &str) -> &str {
    if file == STANDARD {
        "standard input"
    } else {
        file
    }
}

/// Reads a whole file, or standard input.
fn read_in(file: &str, longest: usize) -> Result<Vec<u8>, Failure> {
    read_whole(file, longest).map_err(|error| unread(file, error))
}

/// Why a file, or standard input, cannot be read.
fn unread(file: &str, error: io::Error) -> Failure {
    Failure::Work(format!("{}: {error}", name_of(file)))
}

/// Writes a file, which may not be the one that was read.
fn write_beside(read: &str, written: &str, bytes: &[u8]) -> Result<(), Failure> {
    let is_same = match (fs::canonicalize(read), fs::canonicalize(written)) {
        (Ok(one), Ok(other)) => one == other,
        _ => false,
    };
    if is_same {
        return Err(Failure::Work(format!("{written} is what is read")));
    }
    write_whole(Path::new(written), bytes)
        .map_err(|error| Failure::Work(format!("{written}: {error}")))
}

/// Writes a text and a line's end to standard output.
fn write_line(text: &str) -> Result<(), Failure> {
    write_out(format!("{text}\n").as_bytes())
}

/// Writes all bytes to standard output.
fn write_out(bytes: &[u8]) -> Result<(), Failure> {
    let mut out = io::stdout().lock();
    out.write_all(bytes)
        .and_then(|()| out.flush())
        .map_err(|error| match error.kind() {
            ErrorKind::BrokenPipe => Failure::Closed,
            _ => Failure::Work(format!("cannot write: {error}")),
        })
}
