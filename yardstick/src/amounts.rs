//! Numbers as people write them.

use std::fmt;

/// A number with a comma before each three digits, as the paper writes it.
pub(crate) struct Grouped(pub usize);

impl fmt::Display for Grouped {
    fn fmt(&self, out: &mut fmt::Formatter<'_>) -> fmt::Result {
        let digits = self.0.to_string();
        for (at, digit) in digits.chars().enumerate() {
            if at > 0 && (digits.len() - at).is_multiple_of(3) {
                write!(out, ",")?;
            }
            write!(out, "{digit}")?;
        }
        Ok(())
    }
}

/// A number of things, with `s` unless it is 1.
pub(crate) struct Many(pub usize, pub &'static str);

impl fmt::Display for Many {
    fn fmt(&self, out: &mut fmt::Formatter<'_>) -> fmt::Result {
        let plural = if self.0 == 1 { "" } else { "s" };
        write!(out, "{} {}{plural}", Grouped(self.0), self.1)
    }
}
