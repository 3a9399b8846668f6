//! What each record changes, in words: the paper's sequences, and the rest.

use crate::changes::changes;
use crate::explain::{explain, Look};
use crate::generate::generate;
use crate::marked::marked_sequences;
use crate::random::Random;
use crate::replay::{replay, JOURNAL_LIMIT};
use crate::script::{ask, copy, deliver, journal_of, order, rejoin, start, store};
use crate::tests::started;
use crate::told::told;

/// M2, whole.
const M2: &str = "\
0 start 2 cards 1 block                        # at byte 0
  answer 0 0: the chassis is started
  all    edition MSI (0), cells I (0), values 0, memory 0, owners home (255), no sharers, line and pool empty, last order number 0

1 ask card 0 block 0 GETX mask 00000000        # at byte 9
  answer 0 0: done
  cell   card 0 block 0: I to IM_AD (0 to 4)
  line   joined at place 0: card 0 block 0 GETX (2) mask 00000000 retry 0

2 order                                        # at byte 16
  answer 0 1: outcome 1, granted
  cell   card 0 block 0: IM_AD to IM_D (4 to 7), awaited number 0 to 1
  home   block 0: owner home (255) to card 0
  line   left place 0: card 0 block 0 GETX (2) mask 00000000 retry 0
  pool   sent to place 0: home (255) to card 0, block 0, value 0, order number 1
  last   order number 0 to 1

3 deliver 0                                    # at byte 19
  answer 0 1: outcome 1, taken
  cell   card 0 block 0: IM_D to M (7 to 2), awaited number 1 to 0
  pool   taken from place 0: home (255) to card 0, block 0, value 0, order number 1

4 store card 0 block 0 value 7                 # at byte 23
  answer 0 0: done
  cell   card 0 block 0: M (2) stays, value 0 to 7

5 load card 1 block 0                          # at byte 32
  answer 3 0: refusal 3, the state gives no right to this
  why    card 1 is in I (0) for block 0, which gives no right to load
  nothing changed

6 load card 0 block 0                          # at byte 37
  answer 0 7: the value loaded
  nothing changed

The journal ends at byte 42.
";

/// M3 after the records of M2.
const M3_AFTER_M2: &str = "\
7 ask card 1 block 0 GETS mask 00000000        # at byte 42
  answer 0 0: done
  cell   card 1 block 0: I to IS_AD (0 to 3)
  line   joined at place 0: card 1 block 0 GETS (1) mask 00000000 retry 0

8 order                                        # at byte 49
  answer 0 2: outcome 2, too small a mask
  why    the mask 00000000 misses card 0 (owner)
  line   came back at place 0: card 1 block 0 GETS (1) mask 00000000 to 00000001 retry 0 to 1
  last   order number 1 to 2

9 order                                        # at byte 52
  answer 0 1: outcome 1, granted
  cell   card 0 block 0: M to S (2 to 1)
  cell   card 1 block 0: IS_AD to IS_D (3 to 6), awaited number 0 to 3
  home   block 0: memory 0 to 7, owner card 0 to home (255), sharers none to cards 0 and 1 (00000000 to 00000011)
  line   left place 0: card 1 block 0 GETS (1) mask 00000001 retry 1
  pool   sent to place 0: card 0 to card 1, block 0, value 7, order number 3
  last   order number 2 to 3

10 deliver 0                                   # at byte 55
  answer 0 1: outcome 1, taken
  cell   card 1 block 0: IS_D to S (6 to 1), value 0 to 7, awaited number 3 to 0
  pool   taken from place 0: card 0 to card 1, block 0, value 7, order number 3

11 load card 1 block 0                         # at byte 59
  answer 0 7: the value loaded
  nothing changed

The journal ends at byte 64.
";

/// M5 from the rejoin on.
const M5_FROM_THE_REJOIN: &str = "\
3 rejoin card 0                                # at byte 19
  answer 0 0: done
  cell   card 0 block 0: IM_D to I (7 to 0), awaited number 1 to 0
  home   block 0: owner card 0 to home (255)

4 ask card 0 block 0 GETX mask 00000000        # at byte 23
  answer 0 0: done
  cell   card 0 block 0: I to IM_AD (0 to 4)
  line   joined at place 0: card 0 block 0 GETX (2) mask 00000000 retry 0

5 order                                        # at byte 30
  answer 0 1: outcome 1, granted
  cell   card 0 block 0: IM_AD to IM_D (4 to 7), awaited number 0 to 2
  home   block 0: owner home (255) to card 0
  line   left place 0: card 0 block 0 GETX (2) mask 00000000 retry 0
  pool   sent to place 1: home (255) to card 0, block 0, value 0, order number 2
  last   order number 1 to 2

6 deliver 0                                    # at byte 33
  answer 0 2: outcome 2, stale
  pool   stale, gone from place 0: home (255) to card 0, block 0, value 0, order number 1
  pool   card 0 is in IM_D (7) and awaits number 2

7 deliver 0                                    # at byte 37
  answer 0 1: outcome 1, taken
  cell   card 0 block 0: IM_D to M (7 to 2), awaited number 2 to 0
  pool   taken from place 0: home (255) to card 0, block 0, value 0, order number 2

The journal ends at byte 41.
";

/// M8 from the GETX with too small a mask on.
const M8_FROM_THE_GETX: &str = "\
7 ask card 2 block 0 GETX mask 00000001        # at byte 37
  answer 0 0: done
  cell   card 2 block 0: I to IM_AD (0 to 4)
  line   joined at place 0: card 2 block 0 GETX (2) mask 00000001 retry 0

8 order                                        # at byte 44
  answer 0 2: outcome 2, too small a mask
  why    the mask 00000001 misses card 1 (sharer)
  cell   card 0 block 0: S to I (1 to 0)
  line   came back at place 0: card 2 block 0 GETX (2) mask 00000001 to 00000011 retry 0 to 1
  last   order number 2 to 3

9 load card 0 block 0                          # at byte 47
  answer 3 0: refusal 3, the state gives no right to this
  why    card 0 is in I (0) for block 0, which gives no right to load
  nothing changed

10 load card 1 block 0                         # at byte 52
  answer 0 0: the value loaded
  nothing changed

11 order                                       # at byte 57
  answer 0 1: outcome 1, granted
  cell   card 1 block 0: S to I (1 to 0)
  cell   card 2 block 0: IM_AD to IM_D (4 to 7), awaited number 0 to 4
  home   block 0: owner home (255) to card 2, sharers cards 0 and 1 to none (00000011 to 00000000)
  line   left place 0: card 2 block 0 GETX (2) mask 00000011 retry 1
  pool   sent to place 0: home (255) to card 2, block 0, value 0, order number 4
  last   order number 3 to 4

The journal ends at byte 60.
";

/// M6 from the rejoin to the order: the store of 7 is struck, and card 1 is
/// sent memory's 0.
const M6_FROM_THE_REJOIN: &str = "\
7 rejoin card 0                                # at byte 42
  answer 0 0: done
  cell   card 0 block 0: M to I (2 to 0), value 7 to 0
  home   block 0: owner card 0 to home (255)
  struck block 0: 1 store of card 0, of value 7

8 ask card 1 block 0 GETS mask 00000000        # at byte 46
";

/// M7 at the order that is refused.
const M7_AT_THE_REFUSAL: &str = "\
10 order                                       # at byte 59
  answer 9 0: refusal 9, the head's block has data on its way
  why    the head is card 0 block 0 PUTX (3), and for that block card 1 is in IM_D (7) and awaits number 2
  nothing changed

";

/// A marked sequence explained, without colours.
fn explained(name: &str) -> String {
    let mut all = marked_sequences().into_iter();
    let marked = all.find(|marked| marked.name == name);
    explain(
        &marked.expect("a name from the list").journal(),
        Look::Plain,
    )
}

#[test]
fn m2() {
    assert_eq!(explained("m2"), M2);
}

#[test]
fn m3() {
    let end = M2.find("The journal ends").expect("it is there");
    assert_eq!(explained("m3"), format!("{}{M3_AFTER_M2}", &M2[..end]));
}

#[test]
fn m5() {
    assert!(explained("m5").ends_with(M5_FROM_THE_REJOIN));
}

#[test]
fn m6() {
    assert!(explained("m6").contains(M6_FROM_THE_REJOIN));
}

#[test]
fn m7() {
    assert!(explained("m7").contains(M7_AT_THE_REFUSAL));
}

#[test]
fn m8() {
    assert!(explained("m8").ends_with(M8_FROM_THE_GETX));
}

#[test]
fn a_rejoin_takes_requests_sharers_and_ownership() {
    let journal = journal_of([
        start(3, 2),
        ask(1, 0, 1, 0),
        order(),
        deliver(0),
        ask(1, 1, 2, 0),
        ask(0, 0, 2, 0),
        ask(1, 0, 2, 1),
        rejoin(1),
    ]);
    let expected = "\
7 rejoin card 1                                # at byte 44
  answer 0 0: done
  cell   card 1 block 0: SM_AD to I (5 to 0)
  cell   card 1 block 1: IM_AD to I (4 to 0)
  home   block 0: sharers card 1 to none (00000010 to 00000000)
  line   left place 0: card 1 block 1 GETX (2) mask 00000000 retry 0
  line   left place 2: card 1 block 0 GETX (2) mask 00000001 retry 0

The journal ends at byte 48.
";
    let text = explain(&journal, Look::Plain);
    assert!(text.ends_with(expected), "{text}");
}

#[test]
fn a_copy_and_a_put_are_told() {
    let journal = journal_of([
        start(1, 1),
        ask(0, 0, 2, 0),
        order(),
        copy(0),
        deliver(1),
        store(0, 0, 5),
        ask(0, 0, 3, 0),
        order(),
        deliver(0),
    ]);
    let text = explain(&journal, Look::Plain);
    for part in [
        "  pool   copied from place 0 to place 1: home (255) to card 0, block 0, value 0, order number 1\n",
        "  pool   taken from place 1: home (255)",
        "  answer 0 3: outcome 3, the put is taken\n  cell   card 0 block 0: MI_A to I (9 to 0), value 5 to 0\n  \
           home   block 0: memory 0 to 5, owner card 0 to home (255)\n",
        "  pool   stale, gone from place 0: home (255) to card 0, block 0, value 0, order number 1\n  \
           pool   card 0 is in I (0) and awaits nothing\n",
    ] {
        assert!(text.contains(part), "{part}\n{text}");
    }
}

#[test]
fn why_the_run_ends_is_told() {
    let end = |journal: &[u8]| {
        let text = explain(journal, Look::Plain);
        let from = text.rfind("\n\n").map_or(0, |at| at + 2);
        text[from..].to_string()
    };
    assert_eq!(end(&[]), "The run ends at byte 0, with 0 bytes left.\n");
    let second = journal_of([start(1, 1), start(1, 1), order()]);
    assert_eq!(
        end(&second),
        "The run ends at byte 9, with 12 bytes left.\n"
    );
    let mut long = journal_of(vec![start(1, 1)]);
    long.extend(journal_of(vec![order(); JOURNAL_LIMIT / 3]));
    let expected = "The run ends at byte 65535, with 9 bytes left.\n\
                    Past byte 65536 nothing is read: 8 bytes.\n";
    assert_eq!(end(&long), expected);
    let refused = explain(&journal_of([start(0, 1)]), Look::Plain);
    assert!(refused.contains(
        "  answer 14 0: refusal 14, cards are not 1 to 8 or blocks not 1 to 32\n  nothing changed\n"
    ));
}

/// The reading ends between two records, and the journal only where it is not
/// longer.
#[test]
fn where_only_the_reading_ends_the_journal_does_not() {
    let mut journal = journal_of(vec![start(1, 1)]);
    journal.extend(journal_of(vec![order(); (JOURNAL_LIMIT - 13) / 3]));
    journal.extend(journal_of([rejoin(0)]));
    let whole = explain(&journal, Look::Plain);
    assert!(whole.ends_with("The journal ends at byte 65536.\n"));
    journal.extend(journal_of([order()]));
    let longer = explain(&journal, Look::Plain);
    let end = "The run ends at byte 65536, with 3 bytes left.\n\
               Past byte 65536 nothing is read: 3 bytes.\n";
    assert!(longer.ends_with(end) && !longer.contains("The journal ends"));
}

/// The bytes that are no record stand in its place, up to 16 of them.
#[test]
fn damage_is_told_with_its_bytes() {
    let mut journal = journal_of([start(1, 1)]);
    journal.extend([0x15, 0, 2, 0, 0xab]);
    let expected = "\
1 bytes 15 00 02 00 ab                         # at byte 9
  answer 22 9: refusal 22, the length does not fit the tag
  why    tag 15 has length 1, and the length here is 2
  nothing changed

The run ends at byte 9, with 5 bytes left.
";
    let text = explain(&journal, Look::Plain);
    assert!(text.ends_with(expected), "{text}");
    let all = "bytes 15 00 02 00 ab 01 01 01 01 01 01 01 01 01 01 01";
    journal.extend([1; 11]);
    assert!(explain(&journal, Look::Plain).contains(&format!("1 {all} # at byte 9\n")));
    journal.push(1);
    assert!(explain(&journal, Look::Plain).contains(&format!("1 {all} ... # at byte 9\n")));
    assert!(explain(&[], Look::Plain).starts_with("0 no bytes  "));
}

/// The colours are put in and nothing else.
#[test]
fn colours_are_only_where_they_are_asked_for() {
    let journal = generate(3, false);
    let (plain, mut coloured) = (
        explain(&journal, Look::Plain),
        explain(&journal, Look::Coloured),
    );
    assert!(!plain.contains('\u{1b}') && coloured.contains("\u{1b}[1m"));
    for colour in ["0", "1", "2", "31"] {
        coloured = coloured.replace(&format!("\u{1b}[{colour}m"), "");
    }
    assert_eq!(coloured, plain);
}

/// A change is told exactly where the chassis changed.
#[test]
fn nothing_is_told_exactly_where_nothing_changed() {
    for seed in 0..100 {
        let Some((mut chassis, events)) = started(&generate(seed, false)) else {
            continue;
        };
        for event in events {
            let before = chassis.clone();
            let answer = chassis.apply(event);
            let found = changes(&before, &chassis, event);
            let told = told(&before, event, answer, &found);
            assert_eq!(told.is_empty(), before == chassis, "{event}");
        }
    }
}

/// Any bytes are explained, a part for each line of the replay.
#[test]
fn any_bytes_are_explained() {
    let mut random = Random::new(4);
    for seed in 0..200 {
        let mut journal = generate(seed, true);
        if random.percent(30) {
            journal = (0..random.place(100)).map(|_| random.byte()).collect();
        }
        let lines = replay(&journal).lines().count();
        let text = explain(&journal, Look::Plain);
        assert_eq!(text.matches("\n  answer ").count(), lines, "seed {seed}");
    }
}
