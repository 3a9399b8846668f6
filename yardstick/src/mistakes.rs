//! What is wrong with a text, each mistake with its place.

use std::fmt;

/// So many mistakes are told; of the others it is told how many there are.
const MOST_TOLD: usize = 20;

/// A thing in a text that is not as it should be.
#[derive(Clone, PartialEq, Eq, Debug)]
pub struct Mistake {
    /// The line and the column, in characters, both from 1.
    pub line: usize,
    pub column: usize,
    /// What is wrong, in words.
    pub what: String,
}

impl fmt::Display for Mistake {
    /// As `3:9: a number from 0 to 255 is expected, not the line's end`.
    fn fmt(&self, out: &mut fmt::Formatter<'_>) -> fmt::Result {
        write!(out, "{}:{}: {}", self.line, self.column, self.what)
    }
}

/// The mistakes of a text: the first of each line, in the order of the lines.
#[derive(Clone, PartialEq, Eq, Debug, Default)]
pub struct Mistakes {
    told: Vec<Mistake>,
    more: usize,
}

impl Mistakes {
    /// Adds one. Those that are not told are only counted.
    pub fn add(&mut self, mistake: Mistake) {
        if self.told.len() < MOST_TOLD {
            self.told.push(mistake);
        } else {
            self.more += 1;
        }
    }

    /// What was made of the text, if it has no mistake.
    pub fn or<T>(self, made: T) -> Result<T, Mistakes> {
        if self.told.is_empty() {
            Ok(made)
        } else {
            Err(self)
        }
    }

    /// A line for each mistake of the text of this name. Each begins with its
    /// place, as editors understand it.
    pub fn lines(&self, name: &str) -> String {
        let mut lines: Vec<String> = (self.told.iter())
            .map(|mistake| format!("{name}:{mistake}"))
            .collect();
        if self.more > 0 {
            lines.push(format!("{name}: mistakes in more lines: {}", self.more));
        }
        lines.join("\n")
    }
}

impl From<Mistake> for Mistakes {
    /// The only mistake.
    fn from(mistake: Mistake) -> Mistakes {
        Mistakes {
            told: vec![mistake],
            more: 0,
        }
    }
}
