//! The lines of a text and their words, each with its place.

use std::str;

use crate::mistakes::Mistake;

/// The sign before a comment, which goes on to the line's end.
const COMMENT: char = '#';

/// A longer word is cut where it is quoted.
const LONGEST_QUOTED: usize = 40;

/// The bytes that some editors put before a text, to say that it is UTF-8.
const UTF_8_MARK: &[u8] = b"\xEF\xBB\xBF";

/// Those that say that it is UTF-16, of either order of bytes.
const UTF_16_MARKS: [&[u8]; 2] = [b"\xFF\xFE", b"\xFE\xFF"];

/// A text without the mark of its encoding, which is in no column.
pub fn unmarked(text: &[u8]) -> &[u8] {
    text.strip_prefix(UTF_8_MARK).unwrap_or(text)
}

/// Whether a text says that it is UTF-16.
pub fn is_utf_16(text: &[u8]) -> bool {
    UTF_16_MARKS.iter().any(|mark| text.starts_with(mark))
}

/// The line of this number, if its bytes are UTF-8; else the place of the
/// first that is not.
pub fn line_of(line: usize, bytes: &[u8]) -> Result<&str, Mistake> {
    str::from_utf8(bytes).map_err(|error| {
        let sound = bytes.get(..error.valid_up_to()).unwrap_or(&[]);
        Mistake {
            line,
            column: String::from_utf8_lossy(sound).chars().count() + 1,
            what: "the text is not UTF-8".to_string(),
        }
    })
}

/// A word with the column of its first character.
#[derive(Clone, Copy)]
pub struct Word<'a> {
    pub text: &'a str,
    column: usize,
}

/// The words of one line that are not yet taken, the next one last.
pub struct Words<'a> {
    line: usize,
    left: Vec<Word<'a>>,
    /// The column behind the line's last word.
    end: usize,
}

impl<'a> Words<'a> {
    /// The words of the line of this number, without the comment.
    pub fn of_line(line: usize, text: &'a str) -> Words<'a> {
        let text = text.split(COMMENT).next().unwrap_or("");
        let mut left = Vec::new();
        let (mut column, mut end) = (1, 1);
        for text in text.split(|character: char| character.is_ascii_whitespace()) {
            let after = column + text.chars().count();
            if !text.is_empty() {
                left.push(Word { text, column });
                end = after;
            }
            // One more for the blank behind it.
            column = after + 1;
        }
        left.reverse();
        Words { line, left, end }
    }

    /// Takes the next word, if there is one.
    pub fn take(&mut self) -> Option<Word<'a>> {
        self.left.pop()
    }

    /// Takes the next word if `read` makes something of it, or leaves it.
    pub fn take_if<T>(&mut self, read: impl Fn(&str) -> Option<T>) -> Option<T> {
        let found = read(self.left.last()?.text)?;
        self.take();
        Some(found)
    }

    /// Whether every word is taken.
    pub fn is_over(&self) -> bool {
        self.left.is_empty()
    }

    /// Takes the next word if `read` makes something of it.
    pub fn expect<T>(
        &mut self,
        expected: &str,
        read: impl Fn(&str) -> Option<T>,
    ) -> Result<T, Mistake> {
        let word = self.take();
        let found = word.and_then(|word| read(word.text));
        found.ok_or_else(|| self.mistake(word, expected))
    }

    /// Sees that no word is left.
    pub fn end(&mut self) -> Result<(), Mistake> {
        match self.take() {
            Some(word) => Err(self.mistake(Some(word), "the line's end is expected")),
            None => Ok(()),
        }
    }

    /// The mistake at a word, or at the line's end.
    pub fn mistake(&self, found: Option<Word<'_>>, expected: &str) -> Mistake {
        let (column, found) = match found {
            Some(word) => (word.column, quoted(word.text)),
            None => (self.end, "the line's end".to_string()),
        };
        Mistake {
            line: self.line,
            column,
            what: format!("{expected}, not {found}"),
        }
    }
}

/// A word in a message: a long one is cut, and what cannot be seen is written
/// out.
fn quoted(word: &str) -> String {
    let mut shown: String = word.chars().take(LONGEST_QUOTED).collect();
    if shown.len() < word.len() {
        shown.push_str("..");
    }
    format!("`{}`", shown.escape_debug())
}
