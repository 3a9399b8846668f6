//! Whether a state is well formed: row 15 of the paper, a function a clause.
//! A clause that speaks of several fields has a function for each of them.

use crate::chassis::{
    sizes_fit, Cell, Chassis, HomeBlock, Mask, Message, OrderNumber, Request, CELL_AT_START, HOME,
    HOME_BLOCK_AT_START, LAST_RETRY, LINE_ROOM, POOL_ROOM,
};
use crate::table::{self, GETS, PUTX, STATES};

/// A clause: what is wrong where a chassis does not keep it, and whether it does.
type Clause = (&'static str, fn(&Chassis) -> bool);

/// The clauses that come first: the others look only at the places in use, or
/// only at those that are not.
const OF_SIZES: [Clause; 4] = [
    ("number of cards", Chassis::cards_in_range),
    ("number of blocks", Chassis::blocks_in_range),
    ("count of the line", Chassis::line_in_range),
    ("count of the pool", Chassis::pool_in_range),
];

/// The other clauses.
const OF_PLACES: [Clause; 24] = [
    ("code of a state", Chassis::states_are_known),
    ("state of MOSI in MSI", Chassis::states_are_of_the_edition),
    ("code of a kind", Chassis::kinds_are_known),
    ("card that owns", Chassis::owners_are_there),
    ("card that asks", Chassis::askers_are_there),
    ("card that sends", Chassis::senders_are_there),
    ("card that receives", Chassis::receivers_are_there),
    ("block of a request", Chassis::asked_blocks_are_there),
    ("block of a message", Chassis::sent_blocks_are_there),
    ("mask of sharers", Chassis::sharers_are_there),
    ("mask of a request", Chassis::masks_are_of_cards),
    ("retry", Chassis::retries_in_range),
    ("awaited, not given", Chassis::awaited_have_been_given),
    ("sent, not given", Chassis::sent_have_been_given),
    ("sent number 0", Chassis::sent_are_not_0),
    ("awaited number 0", Chassis::awaited_are_not_0_where_due),
    ("awaited, not due", Chassis::awaited_are_0_where_not_due),
    ("value without Load", Chassis::values_are_0_without_load),
    ("last retry's mask", Chassis::last_retries_ask_every_card),
    ("unused cell", Chassis::unused_cells_are_as_at_start),
    ("unused block's cell", Chassis::unused_rows_are_as_at_start),
    ("unused block", Chassis::unused_homes_are_as_at_start),
    ("unused line place", Chassis::unused_line_is_as_at_start),
    ("unused pool place", Chassis::unused_pool_is_as_at_start),
];

/// The names of all clauses.
pub fn clause_names() -> impl Iterator<Item = &'static str> {
    OF_SIZES.iter().chain(&OF_PLACES).map(|(name, _)| *name)
}

impl Chassis {
    /// Whether nothing that row 15 names is wrong.
    pub fn well_formed(&self) -> bool {
        let keeps = |(_, keeps): &Clause| keeps(self);
        OF_SIZES.iter().all(keeps) && OF_PLACES.iter().all(keeps)
    }

    /// The names of the clauses that are not kept. With a size or a count out
    /// of range nothing can be said of the places.
    pub fn broken_clauses(&self) -> Vec<&'static str> {
        let broken = |clauses: &[Clause]| -> Vec<&'static str> {
            let broken = clauses.iter().filter(|(_, keeps)| !keeps(self));
            broken.map(|(name, _)| *name).collect()
        };
        let of_sizes = broken(&OF_SIZES);
        if of_sizes.is_empty() {
            broken(&OF_PLACES)
        } else {
            of_sizes
        }
    }

    fn cards_in_range(&self) -> bool {
        sizes_fit(self.cards, 1)
    }

    fn blocks_in_range(&self) -> bool {
        sizes_fit(1, self.blocks)
    }

    fn line_in_range(&self) -> bool {
        self.line.count <= LINE_ROOM
    }

    fn pool_in_range(&self) -> bool {
        self.pool.count <= POOL_ROOM
    }

    fn states_are_known(&self) -> bool {
        self.all_cells(|cell| usize::from(cell.state) < STATES)
    }

    /// Of the states that there are: one that is none is another clause's.
    fn states_are_of_the_edition(&self) -> bool {
        let is_known = |state: u8| usize::from(state) < STATES;
        self.all_cells(|cell| table::has_state(self.edition, cell.state) || !is_known(cell.state))
    }

    fn kinds_are_known(&self) -> bool {
        self.all_requests(|request| (GETS..=PUTX).contains(&request.kind))
    }

    fn owners_are_there(&self) -> bool {
        self.all_homes(|home| self.has_card(home.owner) || home.owner == HOME)
    }

    fn askers_are_there(&self) -> bool {
        self.all_requests(|request| self.has_card(request.card))
    }

    fn senders_are_there(&self) -> bool {
        self.all_messages(|message| self.has_card(message.sender) || message.sender == HOME)
    }

    fn receivers_are_there(&self) -> bool {
        self.all_messages(|message| self.has_card(message.receiver))
    }

    fn asked_blocks_are_there(&self) -> bool {
        self.all_requests(|request| request.block < self.blocks)
    }

    fn sent_blocks_are_there(&self) -> bool {
        self.all_messages(|message| message.block < self.blocks)
    }

    fn sharers_are_there(&self) -> bool {
        self.all_homes(|home| self.has_cards(home.sharers))
    }

    fn masks_are_of_cards(&self) -> bool {
        self.all_requests(|request| self.has_cards(request.mask))
    }

    fn retries_in_range(&self) -> bool {
        self.all_requests(|request| request.retry <= LAST_RETRY)
    }

    fn awaited_have_been_given(&self) -> bool {
        self.all_cells(|cell| cell.awaited <= self.last_order)
    }

    fn sent_have_been_given(&self) -> bool {
        self.all_messages(|message| message.number <= self.last_order)
    }

    fn sent_are_not_0(&self) -> bool {
        self.all_messages(|message| message.number != OrderNumber(0))
    }

    fn awaited_are_not_0_where_due(&self) -> bool {
        self.all_cells(|cell| !table::awaits_data(cell.state) || cell.awaited != OrderNumber(0))
    }

    fn awaited_are_0_where_not_due(&self) -> bool {
        self.all_cells(|cell| table::awaits_data(cell.state) || cell.awaited == OrderNumber(0))
    }

    fn values_are_0_without_load(&self) -> bool {
        self.all_cells(|cell| table::row(cell.state).load || cell.value == 0)
    }

    fn last_retries_ask_every_card(&self) -> bool {
        let every_card = self.every_card();
        self.all_requests(|request| request.retry != LAST_RETRY || request.mask == every_card)
    }

    /// The cells, in the blocks in use, of cards that are not there.
    fn unused_cells_are_as_at_start(&self) -> bool {
        let cards = usize::from(self.cards);
        let used = &self.cells[..usize::from(self.blocks)];
        let unused = used.iter().flat_map(|cells| &cells[cards..]);
        all_are(unused, CELL_AT_START)
    }

    /// The cells of blocks that are not there.
    fn unused_rows_are_as_at_start(&self) -> bool {
        let unused = &self.cells[usize::from(self.blocks)..];
        all_are(unused.iter().flatten(), CELL_AT_START)
    }

    fn unused_homes_are_as_at_start(&self) -> bool {
        let unused = &self.home[usize::from(self.blocks)..];
        all_are(unused, HOME_BLOCK_AT_START)
    }

    fn unused_line_is_as_at_start(&self) -> bool {
        all_are(self.line.unused(), Request::default())
    }

    fn unused_pool_is_as_at_start(&self) -> bool {
        all_are(self.pool.unused(), Message::default())
    }

    /// Whether a card is there.
    fn has_card(&self, card: u8) -> bool {
        card < self.cards
    }

    /// Whether every card of a mask is there.
    fn has_cards(&self, mask: Mask) -> bool {
        mask & !self.every_card() == 0
    }

    /// Whether every cell in use passes.
    fn all_cells(&self, pass: impl Fn(&Cell) -> bool) -> bool {
        (0..self.blocks).all(|block| self.cells_of(block).iter().all(&pass))
    }

    /// Whether what home has for every block in use passes.
    fn all_homes(&self, pass: impl Fn(&HomeBlock) -> bool) -> bool {
        self.home[..usize::from(self.blocks)].iter().all(pass)
    }

    /// Whether every waiting request passes.
    fn all_requests(&self, pass: impl Fn(&Request) -> bool) -> bool {
        self.line.items().iter().all(pass)
    }

    /// Whether every message in the pool passes.
    fn all_messages(&self, pass: impl Fn(&Message) -> bool) -> bool {
        self.pool.items().iter().all(pass)
    }
}

/// Whether all places are as Start makes them.
fn all_are<'a, T: PartialEq + 'a>(places: impl IntoIterator<Item = &'a T>, at_start: T) -> bool {
    places.into_iter().all(|place| *place == at_start)
}
