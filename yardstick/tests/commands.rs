//! The commands as they are used.

use std::fs;
use std::io::Write;
use std::path::{Path, PathBuf};
use std::process::{Command, Output, Stdio};

use yardstick::replay::{Replay, JOURNAL_LIMIT};

const PROGRAM: &str = env!("CARGO_BIN_EXE_yardstick");

/// A fresh directory below the build's own.
fn directory(name: &str) -> PathBuf {
    let path = Path::new(env!("CARGO_TARGET_TMPDIR")).join(name);
    if path.exists() {
        fs::remove_dir_all(&path).expect("an old directory goes");
    }
    fs::create_dir_all(&path).expect("a new directory comes");
    path
}

/// Runs the program in a directory with these words and this input.
fn run(directory: &Path, words: &[&str], input: &[u8]) -> Output {
    let mut child = Command::new(PROGRAM)
        .args(words)
        .current_dir(directory)
        .stdin(Stdio::piped())
        .stdout(Stdio::piped())
        .stderr(Stdio::piped())
        .spawn()
        .expect("the program starts");
    let mut stdin = child.stdin.take().expect("its input is open");
    // A command that does not read its input may be gone already.
    let _ = stdin.write_all(input);
    drop(stdin);
    child.wait_with_output().expect("the program ends")
}

/// Command lines that are not understood.
#[rustfmt::skip]
const BAD_USE: [&[&str]; 52] = [
    &[],
    &["unknown"],
    &[""],
    &["replay", "one", "two"],
    &["replay", ""],
    &["replay", "-x"],
    &["generate"],
    &["generate", "--seed"],
    &["generate", "--seed", "x"],
    &["generate", "--seed", ""],
    &["counts", "--seeds", "-1"],
    &["show"],
    &["show", "-x"],
    &["show", "one", "two"],
    &["make"],
    &["make", "-o", "journal"],
    &["make", "text", "-o"],
    &["make", "text", "-o", "one", "two"],
    &["explain"],
    &["explain", "--colour", "journal"],
    &["make", "text", "-o", "-x"],
    &["make", "text", "-o", ""],
    &["picture"],
    &["picture", "a", "b"],
    &["picture", "a", "-o"],
    &["picture", "a", "-o", "-x"],
    &["picture", "a", "-o", ""],
    &["picture", "a", "-o", "b", "-o", "c"],
    &["compare", "--count", "1"],
    &["compare", "p", "--from", "18446744073709551615", "--count", "1"],
    &["show", ""],
    &["make", ""],
    &["explain", ""],
    &["picture", ""],
    &["compare", ""],
    &["stored", ""],
    &["stored", "", "--check"],
    &["stored", "--chek"],
    &["stored", "-"],
    &["-"],
    &["generate", "--seed="],
    &["generate", "--seed=1", "--seed=2"],
    &["generate", "--seed=1", "--damaged=1"],
    &["generate", "--seed=1=2"],
    &["generate", "--seed=1", "--damagd"],
    &["counts", "--seeds=-1"],
    &["make", "text", "-o=journal"],
    &["show", "--seed=1", "journal"],
    &["help", "unknown"],
    &["unknown", "--help"],
    &["help", ""],
    &["version"],
];

#[test]
fn bad_use_is_told_with_status_2() {
    let directory = directory("bad_use");
    for words in BAD_USE {
        let output = run(&directory, words, &[]);
        assert_eq!(output.status.code(), Some(2), "{words:?}");
        assert!(
            output.stdout.is_empty() && !output.stderr.is_empty(),
            "{words:?}"
        );
    }
    assert!(names(&directory).is_empty());
}

/// What a command says first where it is not understood.
fn complaint(words: &[&str]) -> String {
    let output = run(Path::new("."), words, &[]);
    assert_eq!(output.status.code(), Some(2), "{words:?}");
    let told = String::from_utf8_lossy(&output.stderr);
    told.lines().next().expect("a line").to_string()
}

#[test]
fn what_is_not_understood_is_told() {
    for (words, expected) in [
        (
            &["generate", "--seed", "18446744073709551616"][..],
            "--seed needs a number from 0 to 18446744073709551615, not 18446744073709551616",
        ),
        (
            &["generate", "--seed=1x"],
            "--seed needs a number, not \"1x\"",
        ),
        (&["stored", "", "--check"], "DIR needs a name, not \"\""),
        (&["generate", "--damaged=yes"], "--damaged takes no value"),
        (&["picture", "a", "-o", "b", "-o", "c"], "-o is given twice"),
        (&["show", "one", "two"], "two is not understood"),
    ] {
        assert_eq!(complaint(words), format!("yardstick: {expected}"));
    }
    let directory = directory("last_seed");
    let last = ["generate", "--seed", "18446744073709551615"];
    assert!(run(&directory, &last, &[]).status.success());
}

/// What is meant may be another command's option, but only this one's is told.
#[test]
fn a_mistyped_word_is_told_with_the_one_meant() {
    for (words, expected) in [
        (
            &["explian", "file"][..],
            "command explian; did you mean explain?",
        ),
        (&["--verison"], "option --verison; did you mean --version?"),
        (
            &["generate", "--sed=3"],
            "option --sed; did you mean --seed?",
        ),
        (
            &["counts", "--seed", "3"],
            "option --seed; did you mean --seeds?",
        ),
        (
            &["compare", "p", "--form", "3"],
            "option --form; did you mean --from?",
        ),
        (
            &["stored", "d", "--chek"],
            "option --chek; did you mean --check?",
        ),
        (&["make", "text", "-o=j"], "option -o=j; did you mean -o?"),
        (&["show", "--seed", "3"], "option --seed"),
        (&["frobnicate"], "command frobnicate"),
    ] {
        assert_eq!(complaint(words), format!("yardstick: unknown {expected}"));
    }
}

#[test]
fn a_value_may_stand_behind_its_option() {
    let directory = directory("values");
    for (apart, joined) in [
        (
            &["generate", "--seed", "3", "--damaged"][..],
            &["generate", "--damaged", "--seed=3"][..],
        ),
        (&["counts", "--seeds", "40"], &["counts", "--seeds=40"]),
    ] {
        let (one, other) = (run(&directory, apart, &[]), run(&directory, joined, &[]));
        assert_eq!(one.status, other.status, "{joined:?}");
        assert!(
            !one.stdout.is_empty() && one.stdout == other.stdout,
            "{joined:?}"
        );
    }
}

#[test]
fn the_version_is_the_packages() {
    let expected = format!("yardstick {}\n", env!("CARGO_PKG_VERSION"));
    for words in [&["--version"][..], &["-V"], &["make", "--version"]] {
        let output = run(Path::new("."), words, &[]);
        assert!(
            output.status.success() && output.stderr.is_empty(),
            "{words:?}"
        );
        assert_eq!(
            String::from_utf8_lossy(&output.stdout),
            expected,
            "{words:?}"
        );
    }
}

/// What is written where help is asked for.
fn help(directory: &Path, words: &[&str]) -> String {
    let output = run(directory, words, &[]);
    assert!(output.status.success(), "{words:?}");
    assert!(output.stderr.is_empty(), "{words:?}");
    String::from_utf8(output.stdout).expect("it is UTF-8")
}

#[test]
fn help_is_written_where_it_is_asked_for() {
    let directory = directory("help");
    let usage = help(&directory, &["help"]);
    assert!(usage.starts_with("usage:\n") && usage.ends_with(".\n"));
    for words in [&["--help"][..], &["-h"], &["--help", "--count=3"]] {
        assert_eq!(help(&directory, words), usage, "{words:?}");
    }
    for command in yardstick::usage::COMMANDS {
        let name = command.name;
        let own = help(&directory, &["help", name]);
        assert_eq!(own, format!("{}\n", command.help()));
        for words in [
            &[name, "--help"][..],
            &[name, "-h"],
            &["--help", name],
            &[name, "file", "--count", "--help"],
        ] {
            assert_eq!(help(&directory, words), own, "{words:?}");
        }
    }
    assert!(names(&directory).is_empty());
}

/// Bad use of a command is told with how it is used, and an unknown command
/// with the list.
#[test]
fn bad_use_says_what_good_use_is() {
    let told = |words: &[&str]| {
        let output = run(Path::new("."), words, &[]);
        String::from_utf8(output.stderr).expect("it is UTF-8")
    };
    let expected = "yardstick: FILE is missing\nusage: yardstick make FILE [-o JOURNAL]\n";
    assert_eq!(told(&["make"]), expected);
    assert!(told(&["mkae"]).contains("\nusage:\n  yardstick replay [FILE]"));
}

/// Only the first 65536 bytes of a file count, as of standard input.
#[test]
fn a_file_is_replayed_as_standard_input_is() {
    let directory = directory("replayed");
    let mut journal = yardstick::generate::generate(3, false);
    journal.resize(70_000, 0x99);
    fs::write(directory.join("journal"), &journal).expect("the journal is written");
    let expected = yardstick::replay::replay(&journal);
    for words in [&["replay", "journal"][..], &["replay", "-"], &["replay"]] {
        let output = run(&directory, words, &journal);
        assert!(
            output.status.success() && output.stderr.is_empty(),
            "{words:?}"
        );
        assert_eq!(output.stdout, expected.as_bytes(), "{words:?}");
    }
    fails(&directory, &["replay", "no-such-file"], "no-such-file: ");
}

#[test]
fn what_is_generated_is_replayed_and_shown() {
    let directory = directory("generated");
    let journal = run(&directory, &["generate", "--seed", "3"], &[]).stdout;
    assert_eq!(journal, yardstick::generate::generate(3, false));
    let output = run(&directory, &["replay"], &journal);
    assert!(output.status.success());
    assert_eq!(
        output.stdout,
        yardstick::replay::replay(&journal).as_bytes()
    );
    fs::write(directory.join("journal"), &journal).expect("the journal is written");
    let output = run(&directory, &["show", "journal"], &[]);
    assert_eq!(
        output.stdout,
        yardstick::show::show(&journal, usize::MAX).as_bytes()
    );
}

#[test]
fn a_picture_is_written_whole_or_not_at_all() {
    let directory = directory("picture");
    let journal = yardstick::generate::generate(3, false);
    fs::write(directory.join("journal"), &journal).expect("the journal is written");
    let shown = run(&directory, &["picture", "journal"], &[]);
    let words = ["picture", "journal", "-o", "page.html"];
    let output = run(&directory, &words, &[]);
    assert!(shown.status.success() && output.status.success());
    assert!(output.stdout.is_empty());
    let written = fs::read(directory.join("page.html")).expect("the page is written");
    assert_eq!(shown.stdout, written);
    let piped = run(&directory, &["picture", "-"], &journal).stdout;
    assert!(String::from_utf8_lossy(&piped).contains("<title>standard input - "));
    fs::create_dir(directory.join("taken")).expect("a directory is in the way");
    for words in [
        ["picture", "journal", "-o", "taken"],
        ["picture", "journal", "-o", "none/page.html"],
        ["picture", "no-such-journal", "-o", "other.html"],
    ] {
        let output = run(&directory, &words, &[]);
        assert_eq!(output.status.code(), Some(1), "{words:?}");
        assert!(!output.stderr.is_empty(), "{words:?}");
    }
    let left = fs::read_dir(&directory).expect("the directory is there");
    assert_eq!(left.count(), 3);
}

#[test]
fn stored_journals_are_written_and_checked() {
    let directory = directory("stored");
    let check = || run(&directory, &["stored", "gate", "--check"], &[]);
    assert_eq!(check().status.code(), Some(1));
    assert!(run(&directory, &["stored", "gate"], &[]).status.success());
    assert!(check().status.success());
    let other = directory.join("gate/data/other");
    fs::write(&other, "").expect("another file is written");
    assert_eq!(check().status.code(), Some(1));
    fs::remove_file(other).expect("it goes again");
    fs::write(directory.join("gate/data/m2"), "").expect("a journal is changed");
    let output = check();
    assert_eq!(output.status.code(), Some(1));
    assert!(String::from_utf8_lossy(&output.stderr).contains("m2 differs"));
}

#[test]
fn a_program_that_cannot_be_started_is_told() {
    let directory = directory("not_started");
    let output = run(&directory, &["compare", "./no-such-program"], &[]);
    assert_eq!(output.status.code(), Some(1));
    assert!(String::from_utf8_lossy(&output.stderr).contains("cannot run"));
}

/// `cat` answers with the journal itself.
#[cfg(unix)]
#[test]
fn a_difference_is_saved_and_shown() {
    let directory = directory("difference");
    let output = run(&directory, &["compare", "cat", "--from", "2"], &[]);
    assert_eq!(output.status.code(), Some(1));
    let saved = fs::read(directory.join("difference-2.journal")).expect("the journal is saved");
    assert_eq!(saved, yardstick::generate::generate(2, false));
    let words = String::from_utf8_lossy(&output.stderr);
    assert!(words.contains("seed 2") && words.contains("yardstick:   0 0 0\\n"));
}

/// A program that does the same, behind a shell.
#[cfg(unix)]
#[test]
fn the_same_program_shows_no_difference() {
    use std::os::unix::fs::PermissionsExt;
    let directory = directory("same");
    let same = directory.join("same");
    fs::write(&same, format!("#!/bin/sh\nexec '{PROGRAM}' replay\n")).expect("it is written");
    fs::set_permissions(&same, fs::Permissions::from_mode(0o755)).expect("it may run");
    let output = run(&directory, &["compare", "./same", "--count", "50"], &[]);
    assert!(output.status.success());
    let words = String::from_utf8_lossy(&output.stdout);
    assert!(words.starts_with("50 journals compared, of them 25 damaged; "));
}

/// What `yes` writes has no end.
#[cfg(unix)]
#[test]
fn a_program_that_never_stops_writing_differs() {
    let directory = directory("never_stops");
    let words = ["compare", "yes", "--from", "4", "--count", "1"];
    let output = run(&directory, &words, &[]);
    assert_eq!(output.status.code(), Some(1));
    let told = String::from_utf8_lossy(&output.stderr);
    assert!(
        told.contains("the program: y\\n\nyardstick:   0 0 0\\n\n"),
        "{told}"
    );
    assert_eq!(names(&directory), ["difference-4.journal"]);
}

/// The commands that read a file.
const READERS: [&str; 4] = ["show", "make", "explain", "picture"];

/// Those of them that run a journal, and say where its run ends early.
const JOURNAL_READERS: [&str; 3] = ["show", "explain", "picture"];

/// Sees that a command fails with status 1, says why, and writes nothing.
fn fails(directory: &Path, words: &[&str], why: &str) {
    let output = run(directory, words, &[]);
    assert_eq!(output.status.code(), Some(1), "{words:?}");
    assert!(output.stdout.is_empty(), "{words:?}");
    let told = String::from_utf8_lossy(&output.stderr);
    assert!(told.contains(why), "{words:?}: {told}");
}

/// The names in a directory, in order.
fn names(directory: &Path) -> Vec<String> {
    let entries = fs::read_dir(directory).expect("it can be read");
    let mut names: Vec<String> = entries
        .map(|entry| entry.expect("an entry").file_name())
        .map(|name| name.to_string_lossy().into_owned())
        .collect();
    names.sort();
    names
}

#[test]
fn files_that_cannot_be_read_are_named() {
    let directory = directory("unread");
    fs::create_dir(directory.join("folder")).expect("a folder is made");
    for command in READERS {
        fails(&directory, &[command, "no-such-file"], "no-such-file: ");
        fails(&directory, &[command, "folder"], "folder: ");
    }
}

/// Root may read every file, so there is nothing to see for root.
#[cfg(unix)]
#[test]
fn a_file_without_permission_is_named() {
    use std::os::unix::fs::PermissionsExt;
    let directory = directory("unpermitted");
    let file = directory.join("locked");
    fs::write(&file, "order").expect("it is written");
    fs::set_permissions(&file, fs::Permissions::from_mode(0o000)).expect("it is locked");
    if fs::read(&file).is_err() {
        for command in READERS {
            fails(&directory, &[command, "locked"], "locked: ");
        }
    }
}

/// A device without an end is given up.
#[cfg(unix)]
#[test]
fn a_file_without_an_end_is_refused() {
    let directory = directory("endless");
    for command in READERS {
        fails(
            &directory,
            &[command, "/dev/zero"],
            "/dev/zero: longer than ",
        );
    }
}

/// An empty text is an empty journal, and an empty journal has no opening.
#[test]
fn empty_files_are_read() {
    let directory = directory("empty");
    fs::write(directory.join("empty"), "").expect("it is written");
    let made = run(&directory, &["make", "empty"], &[]);
    assert!(made.status.success() && made.stdout.is_empty() && made.stderr.is_empty());
    for command in JOURNAL_READERS {
        let output = run(&directory, &[command, "empty"], &[]);
        let told = "yardstick: empty: byte 0: refusal 23, \
                    the opening is missing, wrong or repeated\n";
        assert_eq!(output.status.code(), Some(1), "{command}");
        assert_eq!(String::from_utf8_lossy(&output.stderr), told, "{command}");
        assert!(!output.stdout.is_empty(), "{command}");
    }
}

/// Damage is told with status 1, and what is asked for is written all the same.
#[test]
fn a_run_that_ends_early_is_told_and_shown() {
    let directory = directory("damaged");
    let text = "start 1 card 1 block\norder\nbytes 99 00 00\norder\n";
    fs::write(directory.join("text"), text).expect("it is written");
    let made = run(&directory, &["make", "text", "-o", "journal"], &[]);
    assert!(made.status.success());
    let journal = fs::read(directory.join("journal")).expect("the journal is made");
    let page = ["picture", "journal", "-o", "page.html"];
    for words in [&["show", "journal"][..], &["explain", "journal"], &page] {
        let output = run(&directory, words, &[]);
        let told = "yardstick: journal: byte 12: refusal 21, the tag is unknown\n";
        assert_eq!(output.status.code(), Some(1), "{words:?}");
        assert_eq!(String::from_utf8_lossy(&output.stderr), told, "{words:?}");
    }
    let shown = run(&directory, &["show", "journal"], &[]).stdout;
    assert_eq!(run(&directory, &["make", "-"], &shown).stdout, journal);
    let pictured = run(&directory, &["picture", "journal"], &[]).stdout;
    assert!(fs::read(directory.join("page.html")).is_ok_and(|page| page == pictured));
    let replayed = run(&directory, &["replay", "journal"], &[]);
    assert!(replayed.status.success() && replayed.stderr.is_empty());
    assert_eq!(replayed.stdout, b"0 0 0\n1 8 0\n2 21 12\n");
}

/// A journal longer than what is read, whose records are sound, is told as one
/// that does not run whole, and nothing says that it ends.
#[test]
fn a_journal_that_goes_on_is_told() {
    let directory = directory("goes_on");
    let mut text = "start 1 card 1 block\n".to_string();
    text.push_str(&"order\n".repeat(21_841));
    text.push_str("rejoin card 0\n");
    let made = |text: &str| run(&directory, &["make", "-"], text.as_bytes()).stdout;
    let (whole, longer) = (made(&text), made(&format!("{text}order\n")));
    assert_eq!((whole.len(), longer.len()), (65_536, 65_539));
    let told = "yardstick: standard input: past byte 65536 nothing is read: 3 bytes\n";
    for command in JOURNAL_READERS {
        let output = run(&directory, &[command, "-"], &whole);
        assert!(
            output.status.success() && output.stderr.is_empty(),
            "{command}"
        );
        let output = run(&directory, &[command, "-"], &longer);
        assert_eq!(output.status.code(), Some(1), "{command}");
        assert_eq!(String::from_utf8_lossy(&output.stderr), told, "{command}");
        let written = String::from_utf8_lossy(&output.stdout);
        assert!(!written.contains("journal ends"), "{command}");
    }
}

/// Whoever mixes up the two forms of a journal is told.
#[test]
fn a_text_is_no_journal() {
    let directory = directory("mixed_up");
    for command in JOURNAL_READERS {
        let output = run(&directory, &[command, "-"], b"start 1 card 1 block\n");
        let told = "yardstick: standard input: byte 0: refusal 21, the tag is unknown; \
                    this looks like text: `make` turns it into a journal\n";
        assert_eq!(output.status.code(), Some(1), "{command}");
        assert_eq!(String::from_utf8_lossy(&output.stderr), told, "{command}");
    }
    let output = run(
        &directory,
        &["make", "-"],
        &yardstick::generate::generate(3, false),
    );
    let told = "standard input:1:1: this is a journal, not a text: `show` turns it into one\n";
    assert_eq!(output.status.code(), Some(1));
    assert_eq!(String::from_utf8_lossy(&output.stderr), told);
}

#[test]
fn make_undoes_show_through_standard_input_and_a_file() {
    let directory = directory("undone");
    for seed in 0..20 {
        let journal = yardstick::generate::generate(seed, seed % 2 == 1);
        let shown = run(&directory, &["show", "-"], &journal).stdout;
        let made = run(&directory, &["make", "-"], &shown);
        assert!(made.status.success() && made.stdout == journal);
        let made = run(&directory, &["make", "-", "-o", "journal"], &shown);
        assert!(made.status.success() && made.stdout.is_empty());
        assert!(fs::read(directory.join("journal")).is_ok_and(|found| found == journal));
    }
    assert_eq!(names(&directory), ["journal"]);
}

#[test]
fn a_mistake_has_its_place_and_nothing_is_written() {
    let directory = directory("mistake");
    fs::write(directory.join("text"), "order\n\ndeliver foo\n").expect("it is written");
    fs::write(directory.join("old"), "as it was").expect("it is written");
    let expected = "text:3:9: a number from 0 to 255 is expected, not `foo`\n";
    for words in [
        &["make", "text"][..],
        &["make", "text", "-o", "new"],
        &["make", "-o", "old", "text"],
    ] {
        let output = run(&directory, words, &[]);
        assert_eq!(output.status.code(), Some(1));
        assert!(output.stdout.is_empty());
        assert_eq!(String::from_utf8_lossy(&output.stderr), expected);
    }
    let output = run(&directory, &["make", "-"], b"orders");
    let told = String::from_utf8_lossy(&output.stderr);
    assert!(told.starts_with("standard input:1:1: start, "));
    assert_eq!(names(&directory), ["old", "text"]);
    assert!(fs::read(directory.join("old")).is_ok_and(|found| found == b"as it was"));
}

#[test]
fn all_mistakes_are_told_in_one_go() {
    let directory = directory("mistakes");
    let text = "\u{feff}orders\norder\n".repeat(2) + &"copy\n".repeat(30);
    fs::write(directory.join("text"), text).expect("it is written");
    let output = run(&directory, &["make", "text", "-o", "journal"], &[]);
    assert_eq!(output.status.code(), Some(1));
    let told = String::from_utf8_lossy(&output.stderr);
    let lines: Vec<&str> = told.lines().collect();
    assert_eq!(lines.len(), 21);
    assert!(lines[0].starts_with("text:1:1: start, ") && lines[0].ends_with(" not `orders`"));
    assert!(lines[1].starts_with("text:3:1: start, "));
    assert_eq!(
        lines[19],
        "text:22:5: a number from 0 to 255 is expected, not the line's end"
    );
    assert_eq!(lines[20], "text: mistakes in more lines: 12");
    assert_eq!(names(&directory), ["text"]);
}

#[cfg(unix)]
#[test]
fn make_replaces_a_file_and_nothing_else() {
    let directory = directory("replaced");
    fs::write(directory.join("text"), "order").expect("it is written");
    fs::write(directory.join("old"), "old").expect("it is written");
    fs::create_dir(directory.join("folder")).expect("a folder is made");
    std::os::unix::fs::symlink("old", directory.join("link")).expect("a link is made");
    fails(
        &directory,
        &["make", "text", "-o", "text"],
        "is what is read",
    );
    for other in ["folder", "link", "/dev/null", "no/such/folder"] {
        fails(&directory, &["make", "text", "-o", other], other);
    }
    assert!(run(&directory, &["make", "text", "-o", "old"], &[])
        .status
        .success());
    assert!(fs::read(directory.join("old")).is_ok_and(|found| found == [0x14, 0, 0]));
    assert_eq!(names(&directory), ["folder", "link", "old", "text"]);
}

/// The permissions of a file, as the numbers that `chmod` takes.
#[cfg(unix)]
fn mode(path: &Path) -> u32 {
    use std::os::unix::fs::PermissionsExt;
    let found = fs::metadata(path).expect("it is there");
    found.permissions().mode() & 0o7777
}

#[cfg(unix)]
#[test]
fn a_replaced_file_keeps_its_permissions() {
    use std::os::unix::fs::PermissionsExt;
    let directory = directory("permissions");
    fs::write(directory.join("text"), "order").expect("it is written");
    let old = directory.join("old");
    let words = ["make", "text", "-o", "old"];
    for kept in [0o600, 0o640, 0o666, 0o200] {
        fs::write(&old, "old").expect("it is written");
        fs::set_permissions(&old, fs::Permissions::from_mode(kept)).expect("they are set");
        assert!(run(&directory, &words, &[]).status.success(), "{kept:o}");
        assert_eq!(mode(&old), kept);
        fs::set_permissions(&old, fs::Permissions::from_mode(0o600)).expect("they are set");
        assert!(fs::read(&old).is_ok_and(|found| found == [0x14, 0, 0]));
    }
    fs::write(&old, "old").expect("it is written");
    fs::set_permissions(&old, fs::Permissions::from_mode(0o444)).expect("it is locked");
    fails(&directory, &words, "old: read-only, so it is not replaced");
    assert!(fs::read(&old).is_ok_and(|found| found == b"old") && mode(&old) == 0o444);
    assert_eq!(names(&directory), ["old", "text"]);
}

/// Runs the program with another standard output than a pipe that is read.
#[cfg(unix)]
fn run_into(stdout: Stdio, words: &[&str], input: &[u8]) -> Output {
    let mut child = Command::new(PROGRAM)
        .args(words)
        .stdin(Stdio::piped())
        .stdout(stdout)
        .stderr(Stdio::piped())
        .spawn()
        .expect("the program starts");
    // If it is a pipe, its reader is gone before there is input.
    drop(child.stdout.take());
    let mut stdin = child.stdin.take().expect("its input is open");
    stdin.write_all(input).expect("it reads all input");
    drop(stdin);
    child.wait_with_output().expect("the program ends")
}

/// Nobody reads what is written, as where `head` has seen enough: the status
/// alone says it. A full disk is told.
#[cfg(target_os = "linux")]
#[test]
fn a_closed_output_is_quiet_and_a_full_one_is_told() {
    let journal = yardstick::generate::generate(3, false);
    let text = yardstick::show::show(&journal, usize::MAX);
    for (words, input) in [
        (&["show", "-"][..], &journal[..]),
        (&["make", "-"], text.as_bytes()),
        (&["explain", "-"], &journal),
        (&["picture", "-"], &journal),
        (&["replay"], &journal),
    ] {
        let output = run_into(Stdio::piped(), words, input);
        assert_eq!(output.status.code(), Some(1), "{words:?}");
        assert!(output.stderr.is_empty(), "{words:?}");
        let full = fs::OpenOptions::new().write(true).open("/dev/full");
        let output = run_into(full.expect("it is there").into(), words, input);
        assert_eq!(output.status.code(), Some(1), "{words:?}");
        let told = String::from_utf8_lossy(&output.stderr);
        assert!(told.starts_with("yardstick: cannot write: "), "{words:?}");
    }
}

/// Any bytes have status 0 or 1, and no colours where there is no terminal. A
/// journal has status 1 exactly where its run ends before it does.
#[test]
fn any_bytes_are_taken_or_refused() {
    let directory = directory("any_bytes");
    let mut random = yardstick::random::Random::new(5);
    for round in 0..50 {
        let mut bytes: Vec<u8> = (0..random.place(400)).map(|_| random.byte()).collect();
        if round % 2 == 0 {
            bytes = yardstick::generate::generate(round, round % 4 == 0);
        }
        let is_longer = bytes.len() > JOURNAL_LIMIT;
        let ends = is_longer || Replay::new(&bytes).any(|line| line.is_last());
        for command in READERS {
            let output = run(&directory, &[command, "-"], &bytes);
            let is_told = output.status.code() == Some(1) && !output.stderr.is_empty();
            let is_quiet = output.status.success() && output.stderr.is_empty();
            assert!(is_told || is_quiet, "{command}: {bytes:?}");
            assert!(command == "make" || is_told == ends, "{command}: {bytes:?}");
            assert!(command == "make" || !output.stdout.contains(&0x1b));
        }
    }
}
