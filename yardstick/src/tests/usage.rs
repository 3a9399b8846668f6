//! The help of the commands.

use crate::usage::{command, usage, COMMANDS};

/// How wide a terminal is.
const COLUMNS: usize = 80;

#[test]
fn every_command_is_listed_and_has_help() {
    for listed in &COMMANDS {
        let found = command(listed.name).expect("it is known");
        assert_eq!(found.verb, listed.verb);
        let line = format!("\n  yardstick {} ", listed.name);
        assert_eq!(usage().matches(&line).count(), 1, "{}", listed.name);
        let help = listed.help();
        assert!(help.starts_with(&listed.usage()), "{help}");
        assert!(help.lines().all(|line| line.len() <= COLUMNS), "{help}");
    }
}

/// The words of what a command is for stand in one column, two blanks behind
/// the longest form.
#[test]
fn the_list_has_two_columns() {
    let text = usage();
    let lines = text.lines().filter(|line| line.starts_with("  yardstick "));
    let starts: Vec<usize> = lines
        .map(|line| line.rfind("  ").expect("two blanks"))
        .collect();
    assert_eq!(starts.len(), COMMANDS.len());
    assert!(starts.iter().all(|start| *start == starts[0]), "{text}");
}

#[test]
fn an_unknown_command_is_told_with_the_nearest() {
    let told = |name| command(name).err();
    let is = |words: &str| Some(words.to_string());
    assert_eq!(told("shwo"), is("unknown command shwo; did you mean show?"));
    assert_eq!(told("frobnicate"), is("unknown command frobnicate"));
}
