//! What is told in words is whole: from it alone, every state can be built again.

use crate::chassis::{Chassis, HomeBlock, Message, OrderNumber, Request, Retry};
use crate::explain::{explain, Look};
use crate::replay::Replay;
use crate::tests::each_journal;

/// The numbers of a text, in decimal.
fn numbers(text: &str) -> Vec<u64> {
    let words = text.split(|sign: char| !sign.is_ascii_digit());
    let words = words.filter(|word| !word.is_empty());
    words.map(|word| word.parse().expect(word)).collect()
}

/// The last number of a text that is cut where the next thing is told.
fn last_number(text: &str, end: &str) -> u64 {
    let cut = text.split(end).next().expect("a split has a part");
    *numbers(cut).last().expect(text)
}

fn byte(number: u64) -> u8 {
    u8::try_from(number).expect("a byte")
}

fn word(number: u64) -> u32 {
    u32::try_from(number).expect("a word")
}

/// The mask after the last `to` of a text, or after its `mask`.
fn mask(text: &str) -> u8 {
    let bits = text.rsplit("mask ").next().expect("a split has a part");
    let bits = bits.split(" retry").next().expect("a split has a part");
    let bits = bits.rsplit(" to ").next().expect("a split has a part");
    u8::from_str_radix(bits.trim_end_matches(')'), 2).expect(text)
}

/// A cell: `card 0 block 1: I to IM_AD (0 to 4), value 5 to 0, awaited number 0 to 1`.
fn move_cell(chassis: &mut Chassis, how: &str) {
    let mut parts = how.split(", ");
    let head = numbers(parts.next().expect("the state comes first"));
    let cell = chassis.cell_mut(byte(head[0]), byte(head[1]));
    cell.state = byte(head[head.len() - 1]);
    for part in parts {
        let now = last_number(part, ",");
        if part.starts_with("value") {
            cell.value = word(now);
        } else {
            cell.awaited = OrderNumber(now);
        }
    }
}

/// Home's part: `block 0: memory 0 to 7, owner card 0 to home (255), sharers none to card 1 (00000000 to 00000010)`.
fn change_home(chassis: &mut Chassis, how: &str) {
    let (block, parts) = how.split_once(": ").expect(how);
    let home: &mut HomeBlock = &mut chassis.home[numbers(block)[0] as usize];
    if let Some((_, memory)) = parts.split_once("memory ") {
        home.memory = word(last_number(memory, ","));
    }
    if let Some((_, owner)) = parts.split_once("owner ") {
        home.owner = byte(last_number(owner, ","));
    }
    if let Some((_, sharers)) = parts.split_once("sharers ") {
        home.sharers = mask(sharers);
    }
}

/// The line: `joined at place 0: card 0 block 0 GETX (2) mask 00000000 retry 0`, or `left`, or `came back`.
fn change_line(chassis: &mut Chassis, how: &str) {
    let (what, request) = how.split_once(": ").expect(how);
    let place = last_number(what, ":") as usize;
    let fields = numbers(request);
    let request = Request {
        card: byte(fields[0]),
        block: byte(fields[1]),
        kind: byte(fields[2]),
        mask: mask(request),
        retry: Retry(byte(fields[fields.len() - 1])),
    };
    if what.starts_with("left") {
        let gone = chassis.line.items().iter().position(|old| *old == request);
        chassis.line.remove(gone.expect(how));
        return;
    }
    if what.starts_with("came back") {
        chassis.line.remove(0);
    }
    assert_eq!(place, chassis.line.count(), "{how}");
    chassis.line.push(request);
}

/// The pool: `sent to place 0: home (255) to card 0, block 0, value 0, order number 1`, or `taken`, `stale`, `copied`.
fn change_pool(chassis: &mut Chassis, how: &str) {
    let Some((what, message)) = how.split_once(": ") else {
        // What the receiver of a stale message is in.
        return;
    };
    let place = last_number(what, ":") as usize;
    let [sender, receiver, block, value, number] = numbers(message)[..] else {
        panic!("{how}");
    };
    let message = Message {
        sender: byte(sender),
        receiver: byte(receiver),
        block: byte(block),
        value: word(value),
        number: OrderNumber(number),
    };
    if what.contains(" from ") && !what.starts_with("copied") {
        assert_eq!(chassis.pool.get(place), Some(message), "{how}");
        chassis.pool.remove(place);
    } else {
        assert_eq!(place, chassis.pool.count(), "{how}");
        chassis.pool.push(message);
    }
}

/// Does to a chassis what a line of the text tells.
fn make_told(chassis: &mut Chassis, told: &str) {
    let (part, how) = told.trim_start().split_once(' ').expect(told);
    let how = how.trim_start();
    match part {
        "cell" => move_cell(chassis, how),
        "home" => change_home(chassis, how),
        "line" => change_line(chassis, how),
        "pool" => change_pool(chassis, how),
        "last" => chassis.last_order = OrderNumber(last_number(how, ",")),
        // These say nothing of the state after the record.
        _ => assert!(
            ["answer", "why", "all", "struck", "nothing"].contains(&part),
            "{told}"
        ),
    }
}

/// Builds every state from the text and compares it with the run's.
fn check(journal: &[u8]) {
    let text = explain(journal, Look::Plain);
    let mut parts = text.split("\n\n");
    let mut run = Replay::new(journal);
    let mut built = None;
    while let Some(line) = run.next() {
        let part = parts.next().expect("a part for each line");
        match &mut built {
            Some(chassis) => part
                .lines()
                .skip(1)
                .for_each(|told| make_told(chassis, told)),
            None => built = run.chassis().cloned(),
        }
        assert_eq!(
            built.as_ref(),
            run.chassis(),
            "record {}: {part}",
            line.number
        );
    }
}

#[test]
fn the_words_give_back_every_state() {
    each_journal(check);
}
