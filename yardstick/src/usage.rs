//! The commands, and the help for each.

use crate::hints::hint;

/// The version that the package has.
pub const VERSION: &str = concat!("yardstick ", env!("CARGO_PKG_VERSION"));

/// What is to be done.
#[derive(Clone, Copy, PartialEq, Eq, Debug)]
pub enum Verb {
    Replay,
    Generate,
    Counts,
    Show,
    Make,
    Explain,
    Picture,
    Compare,
    Stored,
    Help,
}

/// A command, and what its help tells.
pub struct Command {
    pub verb: Verb,
    pub name: &'static str,
    /// What stands behind the name.
    form: &'static str,
    /// What it is for, in a few words.
    what: &'static str,
    /// The rest of its help.
    more: &'static str,
}

/// What is said below the list of the commands.
const NOTES: &str = "\
FILE may be - for standard input; replay reads it if nothing is said.
An option's value may also stand behind a =, as in --seed=7.
Status 0: all is well. 1: something is wrong, or the run of a journal that is
shown, explained or pictured ends early. 2: bad use.
`yardstick COMMAND --help` says more of a command, `yardstick --version` which
version this is.";

/// What is said of the commands that run a journal and show it.
macro_rules! early_end {
    () => {
        "

Ends with status 1, and says where, if the run ends before the journal does:
at numbers 14 and 20 to 23, or at byte 65,536, past which nothing is read."
    };
}

/// How wide a command's form is in the list.
const FORM_WIDTH: usize = 43;

pub const COMMANDS: [Command; 10] = [
    Command {
        verb: Verb::Replay,
        name: "replay",
        form: "[FILE]",
        what: "the output for a journal",
        more: "\
Writes a line a record: its number from 0, the refusal or 0, the value. Without
FILE, or with -, it reads standard input. The first 65,536 bytes are read, as
the proved program does, and no more. The status says nothing of the journal.",
    },
    Command {
        verb: Verb::Generate,
        name: "generate",
        form: "--seed N [--damaged] > JOURNAL",
        what: "the journal of a seed",
        more: "\
Writes the same journal for a seed on every machine. Half of the seeds are of
the MOSI edition.

  --seed N      the seed, from 0 to 2^64 - 1
  --damaged     the seed's journal with some damage",
    },
    Command {
        verb: Verb::Counts,
        name: "counts",
        form: "[--seeds N]",
        what: "how often each case is reached",
        more: "\
Counts how often generated journals reach each event and answer, in each edition
of the chassis, and what is done with owned copies. Ends with status 1 if one
that a journal can reach is missing.

  --seeds N     so many seeds, from 0 on; 2,000 if nothing is said",
    },
    Command {
        verb: Verb::Show,
        name: "show",
        form: "FILE",
        what: "a journal in a readable form",
        more: concat!(
            "\
Prints an event a line, with its number, byte place and answer after #. Damage
is pointed at by its byte place. `make` gives the same bytes again.",
            early_end!()
        ),
    },
    Command {
        verb: Verb::Make,
        name: "make",
        form: "FILE [-o JOURNAL]",
        what: "the journal of a readable form",
        more: "\
Turns a text, an event a line, into a journal; examples/README.md has the form.
A start may name its edition, as `start MOSI 2 cards 1 block`; it is MSI if it
names none.
The text is UTF-8, with a byte order mark or without. Each line with a mistake
is told with the mistake's line and column, up to twenty of them; then nothing
is written.

  -o JOURNAL    where the journal goes, whole or not at all; standard output if
                nothing is said",
    },
    Command {
        verb: Verb::Explain,
        name: "explain",
        form: "FILE",
        what: "what each record of a journal changes, and why",
        more: concat!(
            "\
Replays a journal and says after each record what it was answered and what
changed; at a refusal, or where a mask is too small, why; at a rejoin, which
stores it strikes. In colours on a terminal, unless NO_COLOR is set.",
            early_end!()
        ),
    },
    Command {
        verb: Verb::Picture,
        name: "picture",
        form: "FILE [-o PAGE.html]",
        what: "a journal as a page for the browser",
        more: concat!(
            "\
Draws a timeline of every block with the states, orders, messages and refusals,
and the whole state after each record. PAGE.html#record=N opens at a record.

  -o PAGE.html  where the page goes, whole or not at all; standard output if
                nothing is said",
            early_end!()
        ),
    },
    Command {
        verb: Verb::Compare,
        name: "compare",
        form: "PROGRAM [--from SEED] [--count N]",
        what: "another program's output with this one's",
        more: "\
Runs a program on generated journals, every second one damaged, and compares
what it writes byte for byte. Stops at the first difference and saves that
journal as difference-SEED.journal. A program that does not end within 60
seconds counts as a difference.

  --from SEED   the first seed; 0 if nothing is said
  --count N     so many seeds; 1,000 if nothing is said",
    },
    Command {
        verb: Verb::Stored,
        name: "stored",
        form: "DIR [--check]",
        what: "the stored journals, written or checked",
        more: "\
Writes the stored journals: data/NAME, args with their names, and stdout with
the output due.

  --check       writes nothing, and compares with what is there",
    },
    Command {
        verb: Verb::Help,
        name: "help",
        form: "[COMMAND]",
        what: "this text, or the help of a command",
        more: "The options --help and -h do the same, anywhere.",
    },
];

/// The list of the commands.
pub fn usage() -> String {
    let mut text = "usage:\n".to_string();
    for command in &COMMANDS {
        let Command {
            name, form, what, ..
        } = command;
        let form = format!("{name} {form}");
        text.push_str(&format!("  yardstick {form:<FORM_WIDTH$} {what}\n"));
    }
    text.push_str(NOTES);
    text
}

impl Command {
    /// How the command is used, in a line.
    pub fn usage(&self) -> String {
        format!("usage: yardstick {} {}", self.name, self.form)
    }

    /// The command's own help.
    pub fn help(&self) -> String {
        format!(
            "{}\n\n{}: {}.\n\n{}",
            self.usage(),
            self.name,
            self.what,
            self.more
        )
    }
}

/// The command of a name, or what is wrong with the name.
pub fn command(name: &str) -> Result<&'static Command, String> {
    let names = COMMANDS.iter().map(|command| command.name);
    let found = COMMANDS.iter().find(|command| command.name == name);
    found.ok_or_else(|| format!("unknown command {name}{}", hint(name, names)))
}
