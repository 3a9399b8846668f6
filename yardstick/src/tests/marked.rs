//! M1 to M16.

use crate::chassis::{Chassis, HomeBlock, Message, OrderNumber, Retry, HOME};
use crate::edition::EDITIONS;
use crate::journal::Record;
use crate::marked::{marked_sequences, Marked, Step};
use crate::refusal::Refusal;
use crate::replay::replay;
use crate::table::{I, IM_AD, O, OI_A, OM_AD, S, SM_D};

/// The output that the paper gives for M2, whole.
const M2_OUTPUT: &str = "0 0 0\n1 0 0\n2 0 1\n3 0 1\n4 0 0\n5 3 0\n6 0 7\n";

/// The paper's journal, record by record.
#[rustfmt::skip]
const M2_JOURNAL: [u8; 42] = [
    0x01, 0x00, 0x06, 0x63, 0x6F, 0x68, 0x31, 0x02, 0x01,
    0x12, 0x00, 0x04, 0x00, 0x00, 0x02, 0x00,
    0x14, 0x00, 0x00,
    0x15, 0x00, 0x01, 0x00,
    0x11, 0x00, 0x06, 0x00, 0x00, 0x00, 0x00, 0x00, 0x07,
    0x10, 0x00, 0x02, 0x01, 0x00,
    0x10, 0x00, 0x02, 0x00, 0x00,
];

fn sequence(name: &str) -> Marked {
    let mut all = marked_sequences().into_iter();
    let found = all.find(|marked| marked.name == name);
    found.expect("a name from the list")
}

/// Runs steps, checks their answers and gives the chassis reached.
fn run(steps: &[Step]) -> Chassis {
    let mut chassis = Chassis::unused();
    for &(record, refusal, value) in steps {
        let answer = match record {
            Record::Opening {
                edition,
                cards,
                blocks,
            } => Chassis::start(edition, cards, blocks).map(|started| {
                chassis = started;
                0
            }),
            Record::Event(event) => chassis.apply(event),
        };
        let numbers = answer.map_or_else(|refusal| (refusal.number(), 0), |value| (0, value));
        assert_eq!(numbers, (refusal, value), "{record}");
    }
    chassis
}

/// Runs a sequence up to its step of this number, that one included.
fn run_to(name: &str, last: usize) -> Chassis {
    run(&sequence(name).steps[..=last])
}

#[test]
fn m1() {
    for edition in EDITIONS {
        for (cards, blocks) in [(0, 1), (9, 1), (8, 33), (1, 0)] {
            let started = Chassis::start(edition, cards, blocks);
            assert_eq!(started, Err(Refusal::SizeOutOfRange));
        }
        let largest = Chassis::start(edition, 8, 32).expect("accepted");
        assert_eq!((largest.cards(), largest.blocks()), (8, 32));
        assert!(largest.well_formed());
    }
    assert!(!Chassis::unused().well_formed());
}

#[test]
fn m2() {
    assert_eq!(sequence("m2").journal(), M2_JOURNAL);
    assert_eq!(replay(&M2_JOURNAL), M2_OUTPUT);
}

#[test]
fn m3() {
    let head = run_to("m3", 8).head().expect("the GETS waits");
    assert_eq!((head.retry, head.mask), (Retry(1), 1));
    let chassis = run_to("m3", 9);
    assert_eq!(chassis.last_order, OrderNumber(3));
    assert_eq!(chassis.cell(0, 0).state, S);
    let shared = HomeBlock {
        memory: 7,
        owner: HOME,
        sharers: 0b11,
    };
    assert_eq!(chassis.home[0], shared);
    let message = Message {
        sender: 0,
        receiver: 1,
        block: 0,
        value: 7,
        number: OrderNumber(3),
    };
    assert_eq!(chassis.pool.items(), [message]);
    let chassis = run_to("m3", 11);
    let reader = chassis.cell(1, 0);
    assert_eq!((reader.state, reader.value), (S, 7));
}

#[test]
fn m8() {
    let chassis = run_to("m8", 8);
    assert_eq!(chassis.cell(0, 0).state, I);
    assert_eq!(chassis.cell(1, 0).state, S);
    assert_eq!(chassis.head().map(|head| head.mask), Some(3));
    let home = run_to("m8", 11).home[0];
    assert_eq!((home.owner, home.sharers), (2, 0));
}

#[test]
fn m9() {
    let chassis = run(&sequence("m9").steps);
    assert_eq!(chassis.cell(1, 0).state, IM_AD);
}

#[test]
fn m11() {
    let chassis = run_to("m11", 6);
    assert_eq!(chassis.cell(0, 0).state, O);
    let kept = HomeBlock {
        memory: 7,
        owner: 0,
        sharers: 0b10,
    };
    assert_eq!(chassis.home[0], kept);
    assert_eq!(chassis.pool.items().last().map(|sent| sent.sender), Some(0));
}

#[test]
fn m12() {
    let chassis = run_to("m12", 12);
    let cell = chassis.cell(0, 0);
    assert_eq!((cell.state, cell.value), (SM_D, 7));
    let home = chassis.home[0];
    assert_eq!((home.owner, home.sharers), (0, 0));
    let sent = chassis.pool.items().last().expect("a message");
    assert_eq!((sent.sender, sent.value), (HOME, 7));
}

#[test]
fn m13() {
    assert_eq!(run_to("m13", 9).cell(0, 0).state, OM_AD);
    let chassis = run_to("m13", 11);
    assert_eq!(chassis.cell(0, 0).state, IM_AD);
    assert_eq!(chassis.home[0].owner, 1);
}

#[test]
fn m14() {
    assert_eq!(run_to("m14", 8).cell(0, 0).state, OI_A);
    let given_back = HomeBlock {
        memory: 7,
        owner: HOME,
        sharers: 0b10,
    };
    assert_eq!(run_to("m14", 10).home[0], given_back);
    let head = run_to("m14", 14).head().expect("the GETX waits");
    assert_eq!((head.retry, head.mask), (Retry(1), 0b10));
}

#[test]
fn m15() {
    let home = run_to("m15", 8).home[0];
    assert_eq!((home.owner, home.sharers), (HOME, 0b10));
}

#[test]
fn m16() {
    let chassis = run_to("m16", 8);
    assert_eq!(chassis.cell(0, 0).state, OI_A);
    assert_eq!(chassis.home[0].owner, 0);
}

/// M2 to M16 answer as marked, engine and text alike.
#[test]
fn all_marked_sequences() {
    for marked in marked_sequences() {
        run(&marked.steps);
        let numbered = marked.steps.iter().enumerate();
        let lines =
            numbered.map(|(number, (_, refusal, value))| format!("{number} {refusal} {value}\n"));
        assert_eq!(
            replay(&marked.journal()),
            lines.collect::<String>(),
            "{}",
            marked.name
        );
    }
}
