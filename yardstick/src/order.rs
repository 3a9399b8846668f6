//! The Order event: the line's head is granted, sent back or put away.

use crate::chassis::{card_bit, Chassis, Mask, Message, OrderNumber, Request, HOME, LAST_RETRY};
use crate::events::Ordered;
use crate::refusal::Refusal;
use crate::table::{self, GETS, GETX, I, II_A, IM_AD, IS_AD, MI_A, OI_A, OM_AD, PUTX, S, SM_AD};

impl Chassis {
    /// **Order**: takes the line's head and the next order number.
    pub fn order(&mut self) -> Result<Ordered, Refusal> {
        let head = self.head().ok_or(Refusal::LineEmpty)?;
        let number = self.last_order.next().ok_or(Refusal::OrderNumbersSpent)?;
        self.test_head(&head)?;
        self.line.remove(0);
        self.last_order = number;
        if head.kind == PUTX {
            Ok(self.put(&head))
        } else if self.suffices(&head) {
            self.grant(&head, number);
            Ok(Ordered::Granted)
        } else {
            self.send_back(&head);
            Ok(Ordered::MaskTooSmall)
        }
    }

    /// Refusals 9, 13 and 10, in this order: the owner of a held block may be
    /// in IM_D, which is not impossible.
    fn test_head(&self, head: &Request) -> Result<(), Refusal> {
        if self.is_held(head.block) {
            return Err(Refusal::BlockHeld);
        }
        if self.is_impossible(head) {
            return Err(Refusal::Impossible);
        }
        if head.kind != PUTX && self.pool.is_full() {
            return Err(Refusal::PoolFull);
        }
        Ok(())
    }

    /// Whether data for the block is on its way.
    fn is_held(&self, block: u8) -> bool {
        let cells = self.cells_of(block);
        cells.iter().any(|cell| table::awaits_data(cell.state))
    }

    /// Whether the head does not fit its card's state or the block's owner.
    fn is_impossible(&self, head: &Request) -> bool {
        let state = self.cell(head.card, head.block).state;
        let owner = self.owner(head.block);
        match head.kind {
            GETS => state != IS_AD || !self.can_give(owner, head),
            GETX => match state {
                IM_AD | SM_AD => !self.can_give(owner, head),
                OM_AD => owner != head.card,
                _ => true,
            },
            _ => match state {
                MI_A | OI_A => owner != head.card,
                II_A => owner == head.card,
                _ => true,
            },
        }
    }

    /// Whether the owner is home or another card that has the data to give.
    fn can_give(&self, owner: u8, head: &Request) -> bool {
        owner == HOME || (owner != head.card && table::can_give(self.cell(owner, head.block).state))
    }

    /// Whether the mask suffices.
    fn suffices(&self, head: &Request) -> bool {
        self.needed(head) & !head.mask == 0
    }

    /// The cards that a mask has to name: for GETS the owner, if a card, for
    /// GETX also every sharer. An upgrade's asker, who is the owner, and a
    /// sharer that asks need not name themselves.
    pub(crate) fn needed(&self, head: &Request) -> Mask {
        match head.kind {
            GETX => self.holders(head.block) & !card_bit(head.card),
            _ => card_bit(self.owner(head.block)),
        }
    }

    /// Grants a GETS or GETX: the asker awaits a message with memory's value.
    fn grant(&mut self, head: &Request, number: OrderNumber) {
        let sender = self.giver(head);
        if sender != HOME {
            self.give(sender, head);
        }
        if head.kind == GETS {
            self.share(head);
        } else {
            self.hand_over(head);
        }
        let cell = self.cell_mut(head.card, head.block);
        if let Some(state) = table::when_granted(cell.state) {
            cell.go_to(state);
            cell.awaited = number;
        }
        self.pool.push(Message {
            sender,
            receiver: head.card,
            block: head.block,
            value: self.home[usize::from(head.block)].memory,
            number,
        });
    }

    /// Who gives the data: the owner, but an upgrade's comes from home.
    pub(crate) fn giver(&self, head: &Request) -> u8 {
        match self.owner(head.block) {
            owner if owner == head.card => HOME,
            owner => owner,
        }
    }

    /// An owning card gives its value to memory and moves as the table says.
    fn give(&mut self, owner: u8, head: &Request) {
        let edition = self.edition;
        let cell = self.cell_mut(owner, head.block);
        let value = cell.value;
        let row = table::row(cell.state);
        let seen = if head.kind == GETS {
            row.sees_gets_as_owner(edition)
        } else {
            row.sees_getx
        };
        if let Some(state) = seen {
            cell.go_to(state);
        }
        self.home[usize::from(head.block)].memory = value;
    }

    /// A granted GETS: the asker joins the sharers. If a card was the owner
    /// and has not kept the block, it becomes the only other sharer and home
    /// the owner.
    fn share(&mut self, head: &Request) {
        let owner = self.owner(head.block);
        let keeps = owner == HOME || table::owns_shared(self.cell(owner, head.block).state);
        let home = &mut self.home[usize::from(head.block)];
        if !keeps {
            home.owner = HOME;
            home.sharers = card_bit(owner);
        }
        home.sharers |= card_bit(head.card);
    }

    /// A granted GETX: the copies of the cards that see it end, and the asker
    /// becomes the owner.
    fn hand_over(&mut self, head: &Request) {
        self.end_copies_in_mask(head);
        let home = &mut self.home[usize::from(head.block)];
        home.owner = head.card;
        home.sharers = 0;
    }

    /// The cards in the mask of a GETX, other than the asker, that are in S or
    /// SM_AD lose their copy.
    fn end_copies_in_mask(&mut self, head: &Request) {
        let seen_by = head.mask & !card_bit(head.card);
        for (card, cell) in (0u8..).zip(&mut self.cells[usize::from(head.block)]) {
            if seen_by & card_bit(card) == 0 || !matches!(cell.state, S | SM_AD) {
                continue;
            }
            if let Some(state) = table::row(cell.state).sees_getx {
                cell.go_to(state);
            }
        }
    }

    /// A request with too small a mask goes to the line's tail, one retry
    /// higher, with the mask that home knows to be needed, at last every card.
    fn send_back(&mut self, head: &Request) {
        if head.kind == GETX {
            self.end_copies_in_mask(head);
        }
        let retry = head.retry.next();
        let mask = if retry < LAST_RETRY {
            self.holders(head.block)
        } else {
            self.every_card()
        };
        self.line.push(Request {
            mask,
            retry,
            ..*head
        });
    }

    /// An ordered PUTX: taken if the asker is still the owner. The sharers of
    /// one that let others load beside it stay listed.
    fn put(&mut self, head: &Request) -> Ordered {
        let cell = self.cell_mut(head.card, head.block);
        let (state, value) = (cell.state, cell.value);
        cell.go_to(I);
        if state == II_A {
            return Ordered::PutLapsed;
        }
        let home = &mut self.home[usize::from(head.block)];
        home.memory = value;
        home.owner = HOME;
        if !table::owns_shared(state) {
            home.sharers = 0;
        }
        Ordered::PutTaken
    }

    /// The block's owner, a card or home.
    pub(crate) fn owner(&self, block: u8) -> u8 {
        self.home[usize::from(block)].owner
    }
}
