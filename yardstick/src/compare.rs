//! Comparing another program with this one, journal by journal.

use std::fmt::Arguments;
use std::io::Write;
use std::ops::Range;
use std::path::Path;
use std::process::Output;
use std::time::Duration;

use crate::files::write_whole;
use crate::generate::generate;
use crate::program::{run, Ran};
use crate::replay::replay;
use crate::show::show;

/// Progress is told after so many journals.
const PROGRESS: u64 = 10_000;

/// How long a program may take for a journal.
pub const TIME_LIMIT: Duration = Duration::from_secs(60);

/// How many bytes more than the output due are read: the line that differs is
/// seen whole, and a program that never stops writing is stopped.
const MORE_THAN_DUE: usize = 64;

/// What has been compared so far.
#[derive(Default)]
struct Compared {
    journals: u64,
    damaged: u64,
    lines: u64,
}

/// Runs the program on the journal of each seed, every second one damaged,
/// and compares its output with this program's. Stops at the first
/// difference, saves that journal and says what differs. A program that does
/// not end within the time limit differs, too.
pub fn compare(
    program: &str,
    seeds: Range<u64>,
    limit: Duration,
    out: &mut impl Write,
) -> Result<(), String> {
    let mut compared = Compared::default();
    for seed in seeds {
        let damaged = seed % 2 == 1;
        let journal = generate(seed, damaged);
        let ours = replay(&journal);
        compare_one(program, &journal, ours.as_bytes(), limit)
            .map_err(|what| told(seed, &journal, what))?;
        compared.journals += 1;
        compared.damaged += u64::from(damaged);
        compared.lines += ours.lines().count() as u64;
        if compared.journals % PROGRESS == 0 {
            let journals = compared.journals;
            say(
                out,
                format_args!("{journals} journals so far, no difference"),
            )?;
        }
    }
    say(
        out,
        format_args!(
            "{} journals compared, of them {} damaged; {} records; no difference",
            compared.journals, compared.damaged, compared.lines
        ),
    )
}

/// What is wrong with a program's run on a journal.
enum Wrong {
    /// It cannot be run, or failed.
    Failed(String),
    /// It did not end in time.
    Late(String),
    /// It wrote something else: the number of the line, then both lines.
    Differs(usize, String),
}

/// Runs the program on one journal and compares its output with the one due.
fn compare_one(program: &str, journal: &[u8], due: &[u8], limit: Duration) -> Result<(), Wrong> {
    let most = due.len().saturating_add(MORE_THAN_DUE);
    let ran = run(program, journal, most, limit)
        .map_err(|error| Wrong::Failed(format!("cannot run {program}: {error}")))?;
    let written = match ran {
        Ran::Ended(output) => output_of(program, output).map_err(Wrong::Failed)?,
        Ran::TooLong(written) => written,
        Ran::Late => {
            let late = format!("{program} does not end within {limit:?}");
            return Err(Wrong::Late(late));
        }
    };
    if written == due {
        Ok(())
    } else {
        Err(difference(due, &written))
    }
}

/// Writes a line of the report and makes it seen at once.
fn say(out: &mut impl Write, line: Arguments<'_>) -> Result<(), String> {
    writeln!(out, "{line}")
        .and_then(|()| out.flush())
        .map_err(|error| format!("cannot write the report: {error}"))
}

/// What a program that ended has written. Anything on its standard error, or
/// a status other than 0, is a failure.
fn output_of(program: &str, output: Output) -> Result<Vec<u8>, String> {
    if !output.status.success() {
        return Err(format!("{program} ended with {}", output.status));
    }
    if !output.stderr.is_empty() {
        let words = String::from_utf8_lossy(&output.stderr);
        return Err(format!("{program} wrote on its standard error: {words}"));
    }
    Ok(output.stdout)
}

/// Where the outputs differ first.
fn difference(ours: &[u8], theirs: &[u8]) -> Wrong {
    let at = first_difference(ours, theirs);
    let line = |text: &[u8]| match text.split_inclusive(|&byte| byte == b'\n').nth(at) {
        Some(line) => line.escape_ascii().to_string(),
        None => "no such line".to_string(),
    };
    let (ours, theirs) = (line(ours), line(theirs));
    Wrong::Differs(at, format!("the program: {theirs}\nyardstick:   {ours}"))
}

/// What is wrong, in words. Where the outputs differ or one does not come, the
/// journal is saved; a difference is told with the journal's readable form up
/// to there.
fn told(seed: u64, journal: &[u8], wrong: Wrong) -> String {
    match wrong {
        Wrong::Failed(what) => format!("seed {seed}: {what}"),
        Wrong::Late(what) => format!("seed {seed}: {what}; {}", saved(seed, journal)),
        Wrong::Differs(at, lines) => {
            let saved = saved(seed, journal);
            let shown = show(journal, at.saturating_add(1));
            format!("seed {seed}: a difference in line {at}; {saved}\n{lines}\n{shown}")
        }
    }
}

/// Saves the journal, and says where.
fn saved(seed: u64, journal: &[u8]) -> String {
    let name = format!("difference-{seed}.journal");
    match write_whole(Path::new(&name), journal) {
        Ok(()) => format!("the journal is saved as {name}"),
        Err(error) => format!("the journal cannot be saved as {name}: {error}"),
    }
}

/// The number, from 0, of the first line that is not the same in both.
fn first_difference(ours: &[u8], theirs: &[u8]) -> usize {
    let is_end = |byte: &u8| *byte == b'\n';
    let same = ours
        .split_inclusive(is_end)
        .zip(theirs.split_inclusive(is_end))
        .take_while(|(one, other)| one == other);
    same.count()
}
