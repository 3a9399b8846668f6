//! A journal from its readable form: an event a line, as `show` writes it.
//! What follows `#` is a comment, and blank lines are passed over. A start that
//! does not name its edition is of MSI. A number is decimal, or hex after `0x`; a mask is 8 binary digits, or hex after `0x`;
//! each of the bytes after the word `bytes` is two hex digits.

use crate::edition::EDITIONS;
use crate::files::LONGEST_JOURNAL;
use crate::journal::{append, read_record, Record};
use crate::mistakes::{Mistake, Mistakes};
use crate::script::{ask, copy, deliver, drop_copy, load, order, rejoin, start_of, store};
use crate::table::{GETS, GETX, PUTX};
use crate::text::{is_utf_16, line_of, unmarked, Words};

/// What is expected where it is not found.
const AN_EVENT: &str =
    "start, load, store, ask, drop, order, deliver, copy, rejoin or bytes is expected";
const AN_EDITION: &str = "MSI, MOSI or a number of cards from 0 to 255 is expected";
const A_BYTE: &str = "a number from 0 to 255 is expected";
const A_VALUE: &str = "a number from 0 to 4294967295 is expected";
const A_KIND: &str = "GETS, GETX, PUTX or `kind` is expected";
const A_MASK: &str = "a mask of 8 binary digits, or of 0x and hex digits, is expected";
const TWO_DIGITS: &str = "a byte of two hex digits is expected";

/// The journal of a text, or the text's mistakes. A journal that the other
/// commands would not read is one, at the line that makes it too long: what
/// comes after it is not looked at.
pub fn make(text: &[u8]) -> Result<Vec<u8>, Mistakes> {
    let mut journal = Vec::new();
    let mut mistakes = Mistakes::default();
    for (number, line) in (1..).zip(text_in(text)?.split(|byte| *byte == b'\n')) {
        let added = line_of(number, line)
            .and_then(|line| add_line(&mut journal, Words::of_line(number, line)));
        if let Err(mistake) = added {
            mistakes.add(mistake);
        }
        if journal.len() > LONGEST_JOURNAL {
            mistakes.add(too_long(number));
            break;
        }
    }
    mistakes.or(journal)
}

/// The text in these bytes, if its lines can be looked at: other forms would
/// have a mistake in every line.
fn text_in(bytes: &[u8]) -> Result<&[u8], Mistake> {
    let mistake = |what: &str| {
        Err(Mistake {
            line: 1,
            column: 1,
            what: what.to_string(),
        })
    };
    if is_utf_16(bytes) {
        mistake("the text is UTF-16, not UTF-8")
    } else if matches!(read_record(bytes, 0), Ok(Some(_))) {
        mistake("this is a journal, not a text: `show` turns it into one")
    } else {
        Ok(unmarked(bytes))
    }
}

/// The mistake of a line that makes the journal too long.
fn too_long(line: usize) -> Mistake {
    Mistake {
        line,
        column: 1,
        what: format!("the journal is longer than {LONGEST_JOURNAL} bytes from here on"),
    }
}

/// Adds what a line says: a record, bytes, or nothing.
fn add_line(journal: &mut Vec<u8>, mut words: Words<'_>) -> Result<(), Mistake> {
    let Some(event) = words.take() else {
        return Ok(());
    };
    let words = &mut words;
    let record = match event.text {
        "start" => started(words)?,
        "load" => load(named(words, "card")?, named(words, "block")?),
        "store" => store(named(words, "card")?, named(words, "block")?, value(words)?),
        "ask" => ask(
            named(words, "card")?,
            named(words, "block")?,
            kind(words)?,
            mask(words)?,
        ),
        "drop" => drop_copy(named(words, "card")?, named(words, "block")?),
        "order" => order(),
        "deliver" => deliver(byte(words)?),
        "copy" => copy(byte(words)?),
        "rejoin" => rejoin(named(words, "card")?),
        "bytes" => return add_bytes(journal, words),
        _ => return Err(words.mistake(Some(event), AN_EVENT)),
    };
    words.end()?;
    append(journal, record);
    Ok(())
}

/// Adds bytes as they are, at least one.
fn add_bytes(journal: &mut Vec<u8>, words: &mut Words<'_>) -> Result<(), Mistake> {
    loop {
        journal.push(words.expect(TWO_DIGITS, two_digits)?);
        if words.is_over() {
            return Ok(());
        }
    }
}

/// A start: the edition, if it is named, and the numbers of cards and blocks.
fn started(words: &mut Words<'_>) -> Result<Record, Mistake> {
    let named = |word: &str| EDITIONS.into_iter().find(|edition| edition.name() == word);
    let edition = words.take_if(named);
    let cards_expected = edition.map_or(AN_EDITION, |_| A_BYTE);
    let cards = number_of(words, cards_expected, "card")?;
    let blocks = number_of(words, A_BYTE, "block")?;
    Ok(start_of(edition.unwrap_or_default(), cards, blocks))
}

/// A number of things, as `1 card` or `2 cards`.
fn number_of(words: &mut Words<'_>, expected: &str, thing: &str) -> Result<u8, Mistake> {
    let number = words.expect(expected, byte_in)?;
    let is_thing = |word: &str| word.strip_suffix('s').unwrap_or(word) == thing;
    words.expect(&format!("`{thing}s` is expected"), |word| {
        is_thing(word).then_some(number)
    })
}

/// A byte behind its name, as `card 0`.
fn named(words: &mut Words<'_>, name: &str) -> Result<u8, Mistake> {
    keyword(words, name)?;
    byte(words)
}

/// The value of a store.
fn value(words: &mut Words<'_>) -> Result<u32, Mistake> {
    keyword(words, "value")?;
    words.expect(A_VALUE, |word| u32::try_from(number(word)?).ok())
}

/// A kind of request, by its name or as `kind 9`.
fn kind(words: &mut Words<'_>) -> Result<u8, Mistake> {
    let named = words.expect(A_KIND, |word| match word {
        "GETS" => Some(Some(GETS)),
        "GETX" => Some(Some(GETX)),
        "PUTX" => Some(Some(PUTX)),
        "kind" => Some(None),
        _ => None,
    })?;
    named.map_or_else(|| byte(words), Ok)
}

/// A mask behind its name. A decimal number is not taken: `11` would say
/// cards 0 and 1 to one reader and eleven to another.
fn mask(words: &mut Words<'_>) -> Result<u8, Mistake> {
    keyword(words, "mask")?;
    words.expect(A_MASK, |word| {
        if word.starts_with("0x") {
            return u8::try_from(number(word)?).ok();
        }
        let is_whole = word.len() == 8 && word.bytes().all(|digit| matches!(digit, b'0' | b'1'));
        is_whole.then(|| u8::from_str_radix(word, 2).ok())?
    })
}

/// A byte.
fn byte(words: &mut Words<'_>) -> Result<u8, Mistake> {
    words.expect(A_BYTE, byte_in)
}

/// The byte that a word says.
fn byte_in(word: &str) -> Option<u8> {
    u8::try_from(number(word)?).ok()
}

/// A word that has to stand here.
fn keyword(words: &mut Words<'_>, name: &str) -> Result<(), Mistake> {
    words.expect(&format!("`{name}` is expected"), |word| {
        (word == name).then_some(())
    })
}

/// The number that a word says: digits alone, no sign.
fn number(word: &str) -> Option<u64> {
    let (digits, radix) = match word.strip_prefix("0x") {
        Some(digits) => (digits, 16),
        None => (word, 10),
    };
    let are_digits = digits.chars().all(|digit| digit.is_digit(radix));
    are_digits.then(|| u64::from_str_radix(digits, radix).ok())?
}

/// The byte that two hex digits say.
fn two_digits(word: &str) -> Option<u8> {
    let is_whole = word.len() == 2 && word.bytes().all(|digit| digit.is_ascii_hexdigit());
    is_whole.then(|| u8::from_str_radix(word, 16).ok())?
}
