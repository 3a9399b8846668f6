//! Other programs, run with bounds to what they write and to how long they
//! take.

#![cfg(unix)]

use std::env;
use std::fs;
use std::os::unix::fs::PermissionsExt;
use std::path::Path;
use std::sync::OnceLock;
use std::time::{Duration, Instant};

use yardstick::compare::compare;
use yardstick::generate::generate;
use yardstick::program::{run, Ran};

/// The programs, for a shell.
const SCRIPTS: [(&str, &str); 6] = [
    ("echoes", "exec cat"),
    ("never_ends", "exec sleep 600"),
    ("closes_its_output", "exec >&- 2>&-; exec sleep 600"),
    ("leaves_a_child", "sleep 5 & exit 0"),
    ("complains", "exec yes >&2"),
    ("fails", "echo out; echo why >&2; exit 3"),
];

/// More than any pipe holds.
const LONG: usize = 1 << 20;

/// A time that a program needs if it is to be late, and one that none needs.
const SHORT_TIME: Duration = Duration::from_millis(300);
const LONG_TIME: Duration = Duration::from_secs(120);

/// The path of a program. All are written before the first is run: a file that
/// is still open for writing cannot be run.
fn program(name: &str) -> String {
    static WRITTEN: OnceLock<()> = OnceLock::new();
    let directory = Path::new(env!("CARGO_TARGET_TMPDIR")).join("programs");
    WRITTEN.get_or_init(|| {
        fs::create_dir_all(&directory).expect("a directory comes");
        for (name, text) in SCRIPTS {
            let path = directory.join(name);
            fs::write(&path, format!("#!/bin/sh\n{text}\n")).expect("it is written");
            fs::set_permissions(&path, fs::Permissions::from_mode(0o755)).expect("it may run");
        }
    });
    let path = directory.join(name);
    path.to_str().expect("the path is UTF-8").to_string()
}

/// Sees that a program is given up within a time that is not its own.
fn is_late(name: &str, input: &[u8]) {
    let program = program(name);
    let begin = Instant::now();
    let ran = run(&program, input, LONG, SHORT_TIME).expect("it runs");
    assert!(matches!(ran, Ran::Late), "{name}: {ran:?}");
    let took = begin.elapsed();
    assert!(took >= SHORT_TIME && took < LONG_TIME, "{name}: {took:?}");
}

/// Both pipes are full at some time.
#[test]
fn a_long_input_comes_back_whole() {
    let input: Vec<u8> = (0..LONG).map(|place| place as u8).collect();
    let ran = run(&program("echoes"), &input, LONG, LONG_TIME).expect("it runs");
    let Ran::Ended(output) = ran else {
        panic!("{ran:?}");
    };
    assert!(output.status.success() && output.stderr.is_empty());
    assert_eq!(output.stdout, input);
}

#[test]
fn no_more_is_read_than_what_is_asked_for() {
    let input = vec![b'a'; LONG];
    let ran = run(&program("echoes"), &input, 1_000, LONG_TIME).expect("it runs");
    assert!(matches!(ran, Ran::TooLong(bytes) if bytes == vec![b'a'; 1_001]));
    let ran = run("yes", &input, 7, LONG_TIME).expect("it runs");
    assert!(matches!(ran, Ran::TooLong(bytes) if bytes == b"y\ny\ny\ny\n"));
}

#[test]
fn what_a_program_tells_and_its_status_are_seen() {
    let ran = run(&program("fails"), &[], LONG, LONG_TIME).expect("it runs");
    let Ran::Ended(output) = ran else {
        panic!("{ran:?}");
    };
    assert_eq!(output.status.code(), Some(3));
    assert_eq!(
        (&output.stdout[..], &output.stderr[..]),
        (&b"out\n"[..], &b"why\n"[..])
    );
    let ran = run(&program("complains"), &[], LONG, LONG_TIME).expect("it runs");
    let Ran::Ended(output) = ran else {
        panic!("{ran:?}");
    };
    assert!(!output.status.success());
    assert_eq!(output.stderr, b"y\n".repeat(2_048));
}

/// The input is never read, and does not fit into a pipe.
#[test]
fn a_program_that_does_not_end_is_late() {
    is_late("never_ends", &vec![0; LONG]);
    is_late("closes_its_output", &[]);
    is_late("leaves_a_child", &[]);
}

/// The journal is saved in the current directory, which is this test's own.
#[test]
fn compare_saves_the_journal_of_a_late_program() {
    let program = program("never_ends");
    let directory = Path::new(env!("CARGO_TARGET_TMPDIR")).join("late");
    fs::create_dir_all(&directory).expect("a directory comes");
    env::set_current_dir(&directory).expect("it can be entered");
    let mut report = Vec::new();
    let told = compare(&program, 5..8, SHORT_TIME, &mut report).expect_err("it is late");
    let expected = format!(
        "seed 5: {program} does not end within 300ms; \
         the journal is saved as difference-5.journal"
    );
    assert_eq!(told, expected);
    assert!(report.is_empty());
    let saved = fs::read(directory.join("difference-5.journal"));
    assert!(saved.is_ok_and(|saved| saved == generate(5, true)));
}
