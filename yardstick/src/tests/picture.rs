//! The picture: its data gives back every state, and its page is safe.

use crate::chassis::{Cell, Chassis, HomeBlock, Message, OrderNumber, Request, Retry};
use crate::edition::Edition;
use crate::generate::generate;
use crate::marked::marked_sequences;
use crate::picture::{page, Picture};
use crate::random::Random;
use crate::replay::{replay, Replay, JOURNAL_LIMIT};
use crate::script::{ask, copy, deliver, journal_of, order, rejoin, start, start_of, store};
use crate::table::{self, GETX};
use crate::tests::each_journal;

/// The page of a journal.
fn page_of(journal: &[u8]) -> String {
    page("a journal", &Picture::of(journal))
}

/// The lines of the page's data that are records.
fn record_lines(page: &str) -> Vec<&str> {
    let (_, after) = page.split_once("\"records\":[\n").expect("records");
    let (lines, _) = after.split_once("\n]}").expect("their end");
    let lines = lines.lines();
    lines.map(|line| line.trim_end_matches(',')).collect()
}

/// The numbers of a record before its changes, and the changes.
fn numbers(line: &str) -> (Vec<i64>, Vec<Vec<u64>>) {
    let inner = line
        .strip_prefix('[')
        .and_then(|line| line.strip_suffix("]]"));
    let (head, changes) = inner.and_then(|inner| inner.split_once(",[")).expect(line);
    let head = head.split(',').map(|word| word.parse().expect(line));
    let changes = changes.split("],[").filter(|change| !change.is_empty());
    let changes = changes.map(|change| {
        let words = change.trim_matches(['[', ']']).split(',');
        words.map(|word| word.parse().expect(line)).collect()
    });
    (head.collect(), changes.collect())
}

/// Does to a chassis what the page's script does to its state.
fn apply(chassis: &mut Chassis, change: &[u64]) {
    let byte = |number: u64| u8::try_from(number).expect("a byte");
    let word = |number: u64| u32::try_from(number).expect("a word");
    match *change {
        [0, block, card, state, value, awaited] => {
            *chassis.cell_mut(byte(card), byte(block)) = Cell {
                state: byte(state),
                value: word(value),
                awaited: OrderNumber(awaited),
            };
        }
        [1, block, memory, owner, sharers] => {
            chassis.home[block as usize] = HomeBlock {
                memory: word(memory),
                owner: byte(owner),
                sharers: byte(sharers),
            };
        }
        [2, position] => chassis.line.remove(position as usize),
        [3, card, block, kind, mask, retry] => chassis.line.push(Request {
            card: byte(card),
            block: byte(block),
            kind: byte(kind),
            mask: byte(mask),
            retry: Retry(byte(retry)),
        }),
        [4, position] => chassis.pool.remove(position as usize),
        [5, sender, receiver, block, value, number] => chassis.pool.push(Message {
            sender: byte(sender),
            receiver: byte(receiver),
            block: byte(block),
            value: word(value),
            number: OrderNumber(number),
        }),
        [6, number] => chassis.last_order = OrderNumber(number),
        _ => panic!("{change:?} is no change"),
    }
}

/// Compares the state after every record with the one rebuilt from the page,
/// and the answers with the lines of the output.
fn check(journal: &[u8]) {
    let page = page_of(journal);
    let mut lines = record_lines(&page).into_iter();
    let mut run = Replay::new(journal);
    let mut rebuilt = None;
    let mut output = String::new();
    while let Some(line) = run.next() {
        let (head, changes) = numbers(lines.next().expect("a record for each line"));
        if rebuilt.is_none() {
            rebuilt = run
                .chassis()
                .and_then(|first| Chassis::start(first.edition, first.cards, first.blocks).ok());
        }
        if let Some(rebuilt) = &mut rebuilt {
            changes.iter().for_each(|change| apply(rebuilt, change));
        }
        assert_eq!(rebuilt.as_ref(), run.chassis(), "record {}", line.number);
        let [_, place, _, _, _, refusal, value, ..] = head[..] else {
            panic!("{head:?} is too short");
        };
        let is_end = matches!(refusal, 14 | 20..);
        let value = if is_end { place } else { value };
        output.push_str(&format!("{} {refusal} {value}\n", line.number));
    }
    assert_eq!(lines.next(), None);
    assert_eq!(output, replay(journal));
}

#[test]
fn the_data_gives_back_every_state() {
    each_journal(check);
}

/// Copies look the same: the page is told which one was delivered.
#[test]
fn the_message_delivered_is_the_one_that_leaves() {
    let fetch = [start(1, 1), ask(0, 0, GETX, 0), order(), copy(0)];
    let first = journal_of(fetch.into_iter().chain([deliver(0)]));
    let second = journal_of(fetch.into_iter().chain([deliver(1)]));
    let changes = |journal: &[u8]| numbers(record_lines(&page_of(journal))[4]).1;
    assert!(changes(&first).contains(&vec![4, 0]));
    assert!(changes(&second).contains(&vec![4, 1]));
    check(&first);
    check(&second);
}

#[test]
fn a_record_is_marked_where_it_is_about() {
    let journal = journal_of([
        start(2, 2),
        ask(1, 1, GETX, 0),
        order(),
        deliver(0),
        store(1, 1, 7),
        store(5, 1, 7),
        store(1, 5, 7),
        rejoin(1),
        order(),
    ]);
    let page = page_of(&journal);
    let lines = record_lines(&page);
    let places: Vec<Vec<i64>> = lines
        .iter()
        .map(|line| numbers(line).0[7..].into())
        .collect();
    let expected = [
        [-1, -1],
        [1, 1],
        [1, 1],
        [1, 1],
        [1, 1],
        [1, -1],
        [-1, 1],
        [-1, 1],
        [-1, -1],
    ];
    assert_eq!(places, expected);
}

#[test]
fn the_answers_stand_in_words() {
    let page = page_of(&journal_of([
        start(2, 1),
        ask(0, 0, GETX, 0),
        order(),
        rejoin(0),
        deliver(0),
        store(0, 0, 7),
    ]));
    for words in [
        "the cell goes from I to IM_AD",
        "order number 1, GETX of card 0 for block 0: outcome 1, granted; home sends 0",
        "outcome 2, stale: card 0 does not await order number 1 for block 0",
        "refusal 3, the state gives no right to this; nothing changes",
    ] {
        assert!(page.contains(words), "{words}");
    }
}

#[test]
fn the_names_of_the_states_are_in_the_tables_order() {
    let in_order = [
        (table::I, "I"),
        (table::S, "S"),
        (table::M, "M"),
        (table::IS_AD, "IS_AD"),
        (table::IM_AD, "IM_AD"),
        (table::SM_AD, "SM_AD"),
        (table::IS_D, "IS_D"),
        (table::IM_D, "IM_D"),
        (table::SM_D, "SM_D"),
        (table::MI_A, "MI_A"),
        (table::II_A, "II_A"),
        (table::O, "O"),
        (table::OM_AD, "OM_AD"),
        (table::OI_A, "OI_A"),
    ];
    assert_eq!(in_order.len(), table::STATES);
    for (state, name) in in_order {
        assert_eq!(table::NAMES[usize::from(state)], name);
    }
}

/// A page names the edition, and the states that the edition has alone.
#[test]
fn the_edition_is_told_with_its_states() {
    let last = "[\"OI_A\",\"owner asked PUTX, still loads\",1]";
    for (edition, name, has_owned) in [(Edition::Msi, "MSI", false), (Edition::Mosi, "MOSI", true)]
    {
        let journal = journal_of([start_of(edition, 2, 1)]);
        let head = format!("<small>{name}, 2 cards, 1 block, 1 record, 0 refusals, 9 bytes<");
        assert!(head_of(&journal).contains(&head));
        assert_eq!(page_of(&journal).contains(last), has_owned);
    }
}

/// Each state has a hue in the page's script.
#[test]
fn each_state_has_a_hue() {
    let script = include_str!("../picture/page/colours.js");
    let (_, hues) = script.split_once("const HUES = [").expect("the hues");
    let (hues, _) = hues.split_once("];").expect("their end");
    assert_eq!(hues.matches('[').count(), table::STATES);
}

/// Who sends the data, and who keeps the block: the owner at a GETS, home at
/// an upgrade.
#[test]
fn what_becomes_of_an_owned_copy_is_told() {
    let told = |name: &str, words: &str| {
        let mut marked = marked_sequences().into_iter();
        let marked = marked.find(|marked| marked.name == name).expect(name);
        assert!(page_of(&marked.journal()).contains(words), "{words}");
    };
    told(
        "m3",
        "order number 3, GETS of card 1 for block 0: outcome 1, granted; card 0 sends 7\"",
    );
    told(
        "m11",
        "GETS of card 1 for block 0: outcome 1, granted; card 0 sends 7 and keeps the block",
    );
    told(
        "m12",
        "GETX of card 0 for block 0: outcome 1, granted; home sends 7\"",
    );
    told(
        "m14",
        "outcome 3, the put is taken; memory has 7, the sharers stay listed",
    );
}

#[test]
fn a_name_is_text_whatever_it_holds() {
    let plain = page_of(&[]);
    let name = "</title><script>alert('1')</script>&\"{{data}}{{script}}";
    let page = page(name, &Picture::of(&[]));
    assert!(!page.contains(name) && !page.contains("<script>alert"));
    assert!(page.contains("&lt;/title&gt;&lt;script&gt;alert(&#39;1&#39;)"));
    assert!(page.contains("&amp;&quot;{{data}}{{script}}"));
    for tag in ["<script", "</script>", "</style>", "</title>"] {
        assert_eq!(page.matches(tag).count(), plain.matches(tag).count());
    }
}

#[test]
fn a_page_needs_nothing_else() {
    let page = page_of(&generate(3, false));
    for sign in [
        "http:", "https:", " src=", "@import", "url(", "import(", "fetch(",
    ] {
        assert!(!page.contains(sign), "{sign}");
    }
    assert!(page.starts_with("<!DOCTYPE html>\n<html lang=\"en\">"));
    assert!(page.ends_with("</html>\n") && !page.contains("{{"));
}

#[test]
fn a_journal_that_does_not_run_gets_a_page_that_says_so() {
    let tells = |journal: &[u8], words: &str| {
        let page = page_of(journal);
        assert!(page.contains(words), "{words}");
        check(journal);
    };
    tells(&[], "The journal is empty: it has no opening record");
    tells(
        &[0x99, 0, 0],
        "The journal is damaged at byte 0, where record 0",
    );
    tells(
        &journal_of([order()]),
        "The run ends at byte 0, record 0 (order)",
    );
    tells(
        &journal_of([start(9, 1)]),
        "The start is refused, so nothing runs",
    );
    tells(
        &journal_of([start(1, 1), start(1, 1)]),
        "The run ends at byte 9, record 1",
    );
    let mut cut = journal_of([start(1, 1), order()]);
    cut.extend([0x14, 0]);
    tells(&cut, "The journal is damaged at byte 12, where record 2");
}

/// The heading and the notices of a page.
fn head_of(journal: &[u8]) -> String {
    let page = page_of(journal);
    let (head, _) = page.split_once("<noscript>").expect("a head");
    let (_, head) = head.split_once("<h1>").expect("a heading");
    check(journal);
    head.to_string()
}

/// A start and so many orders, of 3 bytes each.
fn orders(count: usize) -> Vec<u8> {
    let orders = vec![order(); count];
    journal_of([start(1, 1)].into_iter().chain(orders))
}

#[test]
fn a_journal_longer_than_what_is_read_is_not_called_damaged() {
    let long = orders(33_942);
    assert_eq!(long.len(), 101_835);
    let head = head_of(&long);
    let notice = "Only the first 65,536 of 101,835 bytes are read; \
                  the record at byte 65,535 is cut short by that.";
    assert!(head.contains(notice) && head.contains(", 101,835 bytes<"));
    assert_eq!(head.matches("class=\"notice").count(), 1);
    assert!(!head.contains("damage") && !head.contains("Not run"));
    assert!(!page_of(&long).contains("\"damage\""));
}

#[test]
fn a_limit_between_two_records_cuts_none_short() {
    let mut journal = orders(21_841);
    journal.extend(journal_of([rejoin(0)]));
    assert_eq!(journal.len(), JOURNAL_LIMIT);
    assert!(!head_of(&journal).contains("notice"));
    journal.extend(journal_of([order()]));
    let head = head_of(&journal);
    assert!(head.contains("Only the first 65,536 of 65,539 bytes are read.<"));
    assert_eq!(head.matches("class=\"notice").count(), 1);
}

#[test]
fn damage_before_the_limit_is_told_beside_what_is_not_read() {
    let mut journal = orders(30_000);
    journal[3_000] = 0x99;
    let head = head_of(&journal);
    let damage = "The journal is damaged at byte 3,000, where record 998 should begin: \
                  refusal 21";
    assert!(head.contains(damage), "{head}");
    assert!(head.contains("Not run from there on: 62,536 bytes."));
    assert!(head.contains("Only the first 65,536 of 90,009 bytes are read.<"));
}

/// A journal of no more than what is read, with its last record cut short.
#[test]
fn a_record_cut_short_by_the_journals_own_end_is_damage() {
    let mut journal = orders(10);
    journal.pop();
    let head = head_of(&journal);
    assert!(head.contains("The journal is damaged at byte 36, where record 10"));
    assert!(!head.contains("Only the first") && head.contains(", 38 bytes<"));
}

#[test]
fn any_bytes_get_a_page() {
    let mut random = Random::new(7);
    for round in 0..400 {
        let mut journal = if round % 2 == 0 {
            Vec::new()
        } else {
            generate(round, true)
        };
        for _ in 0..random.below(200) {
            journal.push(random.byte());
        }
        check(&journal);
    }
}
