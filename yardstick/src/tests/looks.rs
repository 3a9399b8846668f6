//! Looking: what is seen of a chassis that is known, and what is refused.

use crate::chassis::Chassis;
use crate::edition::Edition;
use crate::events::Event;
use crate::looks::Look;
use crate::refusal::Refusal;
use crate::table::GETX;

/// Two cards and a block; card 1's GETX is granted, and card 0's waits.
fn granted(edition: Edition) -> Chassis {
    let mut chassis = Chassis::start(edition, 2, 1).expect("sizes in range");
    for (card, mask) in [(1, 0), (0, 2)] {
        let ask = Event::Ask {
            card,
            block: 0,
            kind: GETX,
            mask,
        };
        chassis.apply(ask).expect("an ask that is allowed");
    }
    chassis.apply(Event::Order).expect("a request that waits");
    chassis
}

#[test]
fn what_is_there_is_seen() {
    let chassis = granted(Edition::Msi);
    let seen = |look| chassis.look(look);
    assert_eq!(seen(Look::Counts), Ok([0, 2, 1, 1, 1, 1]));
    let mosi = granted(Edition::Mosi);
    assert_eq!(mosi.look(Look::Counts), Ok([1, 2, 1, 1, 1, 1]));
    let (message, request) = (Look::Message { position: 0 }, Look::Request { position: 0 });
    assert_eq!(seen(message), Ok([255, 1, 0, 0, 1, 0]));
    assert_eq!(seen(request), Ok([0, 0, 2, 2, 0, 0]));
    let cell = Look::Cell { card: 1, block: 0 };
    assert_eq!(seen(cell), Ok([7, 0, 1, 0, 0, 0]));
    assert_eq!(seen(Look::Home { block: 0 }), Ok([0, 1, 0, 0, 0, 0]));
}

#[test]
fn what_is_not_there_is_refused() {
    let chassis = granted(Edition::Msi);
    let refused = |look, refusal| assert_eq!(chassis.look(look), Err(refusal));
    refused(Look::Message { position: 1 }, Refusal::NoSuchPosition);
    refused(Look::Request { position: 1 }, Refusal::NoSuchPosition);
    refused(Look::Cell { card: 2, block: 1 }, Refusal::NoSuchCard);
    refused(Look::Cell { card: 1, block: 1 }, Refusal::NoSuchBlock);
    refused(Look::Home { block: 1 }, Refusal::NoSuchBlock);
}
