//! The word that somebody may have meant who mistyped it.

/// The end of a message about a mistyped word: the one that may be meant.
pub fn hint<'a>(word: &str, known: impl IntoIterator<Item = &'a str>) -> String {
    nearest(word, known).map_or(String::new(), |meant| format!("; did you mean {meant}?"))
}

/// The known word that is nearest to a mistyped one, if one is near: fewer than
/// half of the letters are other ones. Dashes in front and capitals do not
/// count.
pub(crate) fn nearest<'a>(word: &str, known: impl IntoIterator<Item = &'a str>) -> Option<&'a str> {
    let typed = letters(word);
    let far = |known: &str| {
        let meant = letters(known);
        (distance(&typed, &meant), typed.len().max(meant.len()))
    };
    (known.into_iter())
        .map(|known| (far(known), known))
        .filter(|((edits, length), _)| edits * 2 < *length)
        .min_by_key(|((edits, _), _)| *edits)
        .map(|(_, known)| known)
}

/// The letters of a word that are compared.
fn letters(word: &str) -> Vec<char> {
    let bare = word.trim_start_matches('-');
    bare.chars().flat_map(char::to_lowercase).collect()
}

/// How many letters have to be put in, left out, changed or swapped with the
/// next to make one word of another. Each row is of one more letter of the
/// first word, and is made from the two before it.
fn distance(one: &[char], other: &[char]) -> usize {
    let mut before: Vec<usize> = Vec::new();
    let mut row: Vec<usize> = (0..=other.len()).collect();
    for at in 0..one.len() {
        let mut next = vec![at + 1];
        for to in 0..other.len() {
            let changed = row[to] + usize::from(one[at] != other[to]);
            let mut least = changed.min(row[to + 1] + 1).min(next[to] + 1);
            let is_swap = at > 0 && to > 0 && one[at] == other[to - 1] && one[at - 1] == other[to];
            if is_swap {
                least = least.min(before[to - 1] + 1);
            }
            next.push(least);
        }
        before = row;
        row = next;
    }
    row[other.len()]
}
