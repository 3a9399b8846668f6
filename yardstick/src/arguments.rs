//! The words of a command line.

use std::ffi::OsString;

use crate::files::STANDARD;
use crate::hints::hint;

/// The options that every command takes.
const HELP: [&str; 2] = ["--help", "-h"];
const VERSION: [&str; 2] = ["--version", "-V"];

/// The words not yet taken.
pub struct Arguments {
    words: Vec<String>,
    /// The options that were asked for: a mistyped one may mean one of them.
    known: Vec<&'static str>,
}

impl Arguments {
    /// The words of a command line, without the program's name.
    pub fn new(words: impl IntoIterator<Item = OsString>) -> Result<Arguments, String> {
        let words: Result<Vec<String>, OsString> =
            words.into_iter().map(OsString::into_string).collect();
        let known = [HELP, VERSION].concat();
        match words {
            Ok(words) => Ok(Arguments { words, known }),
            Err(word) => Err(format!("{} is not UTF-8", word.display())),
        }
    }

    /// Takes every option if one of them asks for help. What is left begins
    /// with the command that the help is to be about, if there is one.
    pub fn take_help(&mut self) -> bool {
        let asks = (self.words.iter()).any(|word| HELP.contains(&parts_of(word).0));
        self.words.retain(|word| !asks || !word.starts_with('-'));
        asks
    }

    /// Whether an option anywhere asks for the version.
    pub fn asks_for_version(&self) -> bool {
        (self.words.iter()).any(|word| VERSION.contains(&parts_of(word).0))
    }

    /// Takes the flag if it is there.
    pub fn take_flag(&mut self, flag: &'static str) -> Result<bool, String> {
        match self.remove(flag) {
            Some((_, Some(_))) => Err(format!("{flag} takes no value")),
            found => Ok(found.is_some()),
        }
    }

    /// Takes the option and its number if it is there.
    pub fn take_number(&mut self, option: &'static str) -> Result<Option<u64>, String> {
        let Some(word) = self.take_option(option, "a number")? else {
            return Ok(None);
        };
        let is_number = !word.is_empty() && word.bytes().all(|digit| digit.is_ascii_digit());
        match word.parse() {
            Ok(number) => Ok(Some(number)),
            Err(_) if is_number => Err(format!(
                "{option} needs a number from 0 to {}, not {word}",
                u64::MAX
            )),
            Err(_) => Err(format!("{option} needs a number, not {word:?}")),
        }
    }

    /// Takes the option and its value if it is there: what stands behind its
    /// `=`, or the word after it.
    pub fn take_option(
        &mut self,
        option: &'static str,
        what: &str,
    ) -> Result<Option<String>, String> {
        match self.remove(option) {
            None => Ok(None),
            Some((_, Some(value))) => Ok(Some(value)),
            Some((at, None)) if at == self.words.len() => Err(format!("{option} needs {what}")),
            Some((at, None)) => Ok(Some(self.words.remove(at))),
        }
    }

    /// Takes an option out, and says where it stood and what stood behind its
    /// `=`, if it had one.
    fn remove(&mut self, option: &'static str) -> Option<(usize, Option<String>)> {
        self.known.push(option);
        let at = (self.words.iter()).position(|word| parts_of(word).0 == option)?;
        let word = self.words.remove(at);
        Some((at, parts_of(&word).1.map(str::to_string)))
    }

    /// Takes `-o` and the name of the file to write, if it is there; `-` is one.
    pub fn take_out(&mut self) -> Result<Option<String>, String> {
        match self.take_option("-o", "a file")? {
            Some(word) if word != STANDARD && (word.is_empty() || word.starts_with('-')) => {
                Err(format!("-o needs a file, not {word:?}"))
            }
            out => Ok(out),
        }
    }

    /// Takes the name of a file, which is needed; `-` is one.
    pub fn take_file(&mut self, what: &str) -> Result<String, String> {
        if self.words.first().is_some_and(|word| word == STANDARD) {
            return Ok(self.words.remove(0));
        }
        self.take_word(what)
    }

    /// Whether every word is taken.
    pub fn is_over(&self) -> bool {
        self.words.is_empty()
    }

    /// Takes the next word, which is needed and may not be empty.
    pub fn take_word(&mut self, what: &str) -> Result<String, String> {
        match self.words.first() {
            Some(word) if word.is_empty() => Err(format!("{what} needs a name, not {word:?}")),
            Some(word) if word.starts_with('-') => Err(self.unknown(word)),
            Some(_) => Ok(self.words.remove(0)),
            None => Err(format!("{what} is missing")),
        }
    }

    /// Says no to a word that is left.
    pub fn end(&self) -> Result<(), String> {
        match self.words.first() {
            Some(word) if word.starts_with('-') => Err(self.unknown(word)),
            Some(word) => Err(format!("{word} is not understood")),
            None => Ok(()),
        }
    }

    /// What is wrong with an option that is left.
    fn unknown(&self, word: &str) -> String {
        let (name, _) = parts_of(word);
        if self.known.contains(&name) {
            return format!("{name} is given twice");
        }
        let bare = word.split('=').next().unwrap_or(word);
        let hint = hint(bare, self.known.iter().copied());
        format!("unknown option {name}{hint}")
    }
}

/// A long option's name and what stands behind its `=`, if it has one; any
/// other word is whole.
fn parts_of(word: &str) -> (&str, Option<&str>) {
    match word.split_once('=') {
        Some((name, value)) if name.starts_with("--") => (name, Some(value)),
        _ => (word, None),
    }
}
