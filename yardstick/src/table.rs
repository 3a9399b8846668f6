//! The card state table and the kinds of request, as data.

use crate::edition::Edition;

/// A state's number in the paper's table.
pub const I: u8 = 0;
pub const S: u8 = 1;
pub const M: u8 = 2;
pub const IS_AD: u8 = 3;
pub const IM_AD: u8 = 4;
pub const SM_AD: u8 = 5;
pub const IS_D: u8 = 6;
pub const IM_D: u8 = 7;
pub const SM_D: u8 = 8;
pub const MI_A: u8 = 9;
pub const II_A: u8 = 10;
pub const O: u8 = 11;
pub const OM_AD: u8 = 12;
pub const OI_A: u8 = 13;

/// The number of states. An MSI chassis has those below O alone.
pub const STATES: usize = 14;

/// The states' names, in the order of their numbers.
pub const NAMES: [&str; STATES] = [
    "I", "S", "M", "IS_AD", "IM_AD", "SM_AD", "IS_D", "IM_D", "SM_D", "MI_A", "II_A", "O", "OM_AD",
    "OI_A",
];

/// A kind of request.
pub const GETS: u8 = 1;
pub const GETX: u8 = 2;
pub const PUTX: u8 = 3;

/// One row of the table. `None` and `false` are the paper's empty places.
#[derive(Clone, Copy)]
pub struct Row {
    pub load: bool,
    pub store: bool,
    pub ask_gets: Option<u8>,
    pub ask_getx: Option<u8>,
    pub ask_putx: Option<u8>,
    pub sees_gets_as_owner: Option<ByEdition>,
    pub sees_getx: Option<u8>,
}

/// A move that is another in each edition.
#[derive(Clone, Copy)]
pub struct ByEdition {
    msi: u8,
    mosi: u8,
}

/// A row with every place empty.
const EMPTY: Row = Row {
    load: false,
    store: false,
    ask_gets: None,
    ask_getx: None,
    ask_putx: None,
    sees_gets_as_owner: None,
    sees_getx: None,
};

/// The rows, in the order of the state numbers.
#[rustfmt::skip]
const TABLE: [Row; STATES] = [
    /* I     */ Row { ask_gets: Some(IS_AD), ask_getx: Some(IM_AD), ..EMPTY },
    /* S     */ Row { load: true, ask_getx: Some(SM_AD), sees_getx: Some(I), ..EMPTY },
    /* M     */ Row { load: true, store: true, ask_putx: Some(MI_A),
                      sees_gets_as_owner: Some(ByEdition { msi: S, mosi: O }),
                      sees_getx: Some(I), ..EMPTY },
    /* IS_AD */ EMPTY,
    /* IM_AD */ EMPTY,
    /* SM_AD */ Row { load: true, sees_getx: Some(IM_AD), ..EMPTY },
    /* IS_D  */ EMPTY,
    /* IM_D  */ EMPTY,
    /* SM_D  */ Row { load: true, ..EMPTY },
    /* MI_A  */ Row { load: true, store: true,
                      sees_gets_as_owner: Some(ByEdition { msi: II_A, mosi: OI_A }),
                      sees_getx: Some(II_A), ..EMPTY },
    /* II_A  */ EMPTY,
    /* O     */ Row { load: true, ask_getx: Some(OM_AD), ask_putx: Some(OI_A),
                      sees_getx: Some(I), ..EMPTY },
    /* OM_AD */ Row { load: true, sees_getx: Some(IM_AD), ..EMPTY },
    /* OI_A  */ Row { load: true, sees_getx: Some(II_A), ..EMPTY },
];

/// The row of a state. A code outside the table has no right and no move.
pub fn row(state: u8) -> &'static Row {
    TABLE.get(usize::from(state)).unwrap_or(&EMPTY)
}

impl Row {
    /// Where an ask of this kind leads, if it is allowed.
    pub fn ask(&self, kind: u8) -> Option<u8> {
        match kind {
            GETS => self.ask_gets,
            GETX => self.ask_getx,
            PUTX => self.ask_putx,
            _ => None,
        }
    }

    /// Where an owner's seeing a GETS leads in an edition, if it moves.
    pub fn sees_gets_as_owner(&self, edition: Edition) -> Option<u8> {
        self.sees_gets_as_owner.map(|leads| match edition {
            Edition::Msi => leads.msi,
            Edition::Mosi => leads.mosi,
        })
    }
}

/// Whether a cell of a chassis of this edition may be in a state.
pub fn has_state(edition: Edition, state: u8) -> bool {
    match edition {
        Edition::Msi => state < O,
        Edition::Mosi => usize::from(state) < STATES,
    }
}

/// Whether an owner in this state has the block's value to give.
pub fn can_give(state: u8) -> bool {
    matches!(state, M | MI_A) || owns_shared(state)
}

/// Whether an owner in this state lets other cards load the block beside it:
/// a GETS leaves it the owner.
pub fn owns_shared(state: u8) -> bool {
    matches!(state, O | OM_AD | OI_A)
}

/// Whether a card in this state waits for data on its way.
pub fn awaits_data(state: u8) -> bool {
    matches!(state, IS_D | IM_D | SM_D)
}

/// Where a grant takes the asker, from a state in which it waits to be ordered.
pub fn when_granted(state: u8) -> Option<u8> {
    match state {
        IS_AD => Some(IS_D),
        IM_AD => Some(IM_D),
        SM_AD | OM_AD => Some(SM_D),
        _ => None,
    }
}

/// Where awaited data takes the receiver, from a state in which it awaits data.
pub fn when_data_comes(state: u8) -> Option<u8> {
    match state {
        IS_D => Some(S),
        IM_D | SM_D => Some(M),
        _ => None,
    }
}
