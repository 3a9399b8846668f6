//! The word that somebody may have meant.

use crate::hints::nearest;

const WORDS: [&str; 8] = [
    "show", "explain", "stored", "--seed", "--seeds", "--from", "-o", "-h",
];

#[test]
fn a_mistyped_word_is_near() {
    for (typed, meant) in [
        ("explian", "explain"),
        ("exlain", "explain"),
        ("explaain", "explain"),
        ("Explein", "explain"),
        ("sohw", "show"),
        ("SHOW", "show"),
        ("store", "stored"),
        ("--sed", "--seed"),
        ("-seed", "--seed"),
        ("seeds", "--seeds"),
        ("--form", "--from"),
        ("--o", "-o"),
    ] {
        assert_eq!(nearest(typed, WORDS), Some(meant), "{typed}");
    }
}

#[test]
fn another_word_is_not_near() {
    for typed in [
        "", "-", "--", "-x", "x", "picture", "sw", "shxx", "--count", "\u{e9}",
    ] {
        assert_eq!(nearest(typed, WORDS), None, "{typed}");
    }
    assert_eq!(nearest("show", []), None);
}

/// Each way to mistype one letter is one step: with three letters two steps
/// are too many.
#[test]
fn a_swap_is_one_step() {
    assert_eq!(nearest("abc", ["acb"]), Some("acb"));
    assert_eq!(nearest("abc", ["ab"]), Some("ab"));
    assert_eq!(nearest("abc", ["abx"]), Some("abx"));
    assert_eq!(nearest("abc", ["cab"]), None);
    assert_eq!(nearest("abc", ["axx"]), None);
}
