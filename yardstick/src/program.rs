//! Another program, run on an input with bounds to what it writes and to how
//! long it takes.

use std::io::{self, Read, Write};
use std::process::{Child, Command, ExitStatus, Output, Stdio};
use std::sync::mpsc::{self, Receiver, RecvTimeoutError};
use std::thread;
use std::time::{Duration, Instant};

/// How much of what a program writes on its standard error is read.
const MOST_TOLD: usize = 4_096;

/// The pauses between two looks whether a program has ended: the first one,
/// and the longest, since each is twice the one before.
const FIRST_PAUSE: Duration = Duration::from_micros(50);
const LONGEST_PAUSE: Duration = Duration::from_millis(20);

/// What became of a program.
#[derive(Debug)]
pub enum Ran {
    /// It ended by itself.
    Ended(Output),
    /// It wrote more than is read, and was stopped: what was read.
    TooLong(Vec<u8>),
    /// It did not end in time, and was stopped.
    Late,
}

/// Runs a program on an input. No more than `most` bytes of its output, and
/// one, are read, and it is given no longer than the time limit.
pub fn run(program: &str, input: &[u8], most: usize, limit: Duration) -> io::Result<Ran> {
    let mut child = Command::new(program)
        .stdin(Stdio::piped())
        .stdout(Stdio::piped())
        .stderr(Stdio::piped())
        .spawn()?;
    let ran = watch(&mut child, input, most, Instant::now() + limit);
    if !matches!(ran, Ok(Ran::Ended(_))) {
        // It may have ended by now: then there is nothing to stop.
        let _ = child.kill();
        let _ = child.wait();
    }
    ran
}

/// Feeds a program and reads what it writes, each on a thread of its own: none
/// waits for another with a full pipe. They are not waited for past the end
/// of the time, since a program's own children may keep its pipes open.
fn watch(child: &mut Child, input: &[u8], most: usize, end: Instant) -> io::Result<Ran> {
    let (stdin, input) = (child.stdin.take(), input.to_vec());
    thread::Builder::new().spawn(move || {
        // A program may stop reading where it has seen enough.
        stdin.map(|mut stdin| stdin.write_all(&input))
    })?;
    let stdout = read_apart(child.stdout.take(), most.saturating_add(1))?;
    let stderr = read_apart(child.stderr.take(), MOST_TOLD)?;
    let Some(stdout) = received(&stdout, end)? else {
        return Ok(Ran::Late);
    };
    if stdout.len() > most {
        return Ok(Ran::TooLong(stdout));
    }
    let Some(stderr) = received(&stderr, end)? else {
        return Ok(Ran::Late);
    };
    Ok(match status(child, end)? {
        Some(status) => Ran::Ended(Output {
            status,
            stdout,
            stderr,
        }),
        None => Ran::Late,
    })
}

/// Bytes that a thread has read, once it has.
type Reading = Receiver<io::Result<Vec<u8>>>;

/// Begins to read up to so many bytes of a pipe.
fn read_apart(pipe: Option<impl Read + Send + 'static>, most: usize) -> io::Result<Reading> {
    let (sender, receiver) = mpsc::channel();
    thread::Builder::new().spawn(move || {
        let mut bytes = Vec::new();
        let read = pipe.map_or(Ok(0), |pipe| pipe.take(most as u64).read_to_end(&mut bytes));
        // Nobody may wait for it any longer.
        sender.send(read.map(|_| bytes))
    })?;
    Ok(receiver)
}

/// What was read, if it is there before the end of the time.
fn received(reading: &Reading, end: Instant) -> io::Result<Option<Vec<u8>>> {
    let left = end.saturating_duration_since(Instant::now());
    match reading.recv_timeout(left) {
        Ok(read) => read.map(Some),
        Err(RecvTimeoutError::Timeout) => Ok(None),
        Err(RecvTimeoutError::Disconnected) => Err(io::Error::other("what it writes is lost")),
    }
}

/// The status of a program, if it ends before the end of the time.
fn status(child: &mut Child, end: Instant) -> io::Result<Option<ExitStatus>> {
    let mut pause = FIRST_PAUSE;
    loop {
        let status = child.try_wait()?;
        if status.is_some() || Instant::now() >= end {
            return Ok(status);
        }
        thread::sleep(pause);
        pause = LONGEST_PAUSE.min(pause * 2);
    }
}
