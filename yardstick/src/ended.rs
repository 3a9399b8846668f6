//! Why a run ends before its journal does, in a line for whoever ran it.

use crate::amounts::Many;
use crate::cases::Subject;
use crate::refusal::Refusal;
use crate::replay::{unread_count, Line, Replay, JOURNAL_LIMIT};
use crate::text::unmarked;

/// How many bytes are looked at to see whether they are text.
const BYTES_LOOKED_AT: usize = 16;

/// Where and why the run ends before the journal does; nothing if it runs
/// whole.
pub fn early_end(journal: &[u8]) -> Option<String> {
    let last = Replay::new(journal).last().filter(Line::is_last);
    let Some((line, refusal)) = last.and_then(|line| Some((line, line.answer.err()?))) else {
        return unread(journal);
    };
    let hint = if is_text_read(journal, &line) {
        "; this looks like text: `make` turns it into a journal".to_string()
    } else {
        let cut = unread(journal).filter(|_| refusal == Refusal::CutShort);
        cut.map_or(String::new(), |unread| format!("; {unread}"))
    };
    Some(format!("byte {}: {refusal}{hint}", line.place))
}

/// That only the reading ends and the journal goes on, if it does.
pub fn unread(journal: &[u8]) -> Option<String> {
    let left = Many(unread_count(journal), "byte");
    (left.0 > 0).then(|| format!("past byte {JOURNAL_LIMIT} nothing is read: {left}"))
}

/// Whether not even the first record can be read, and there are letters in
/// its place: somebody has mixed up the two forms of a journal.
fn is_text_read(journal: &[u8], line: &Line) -> bool {
    let is_text = |byte: &u8| byte.is_ascii_graphic() || byte.is_ascii_whitespace();
    let is_first = line.number == 0 && line.subject == Subject::Reading;
    is_first && unmarked(journal).iter().take(BYTES_LOOKED_AT).all(is_text)
}
