//! The edition of a chassis, chosen at its start.

/// Which of the two protocols a chassis runs, by its number.
#[derive(Clone, Copy, PartialEq, Eq, PartialOrd, Ord, Debug, Default)]
#[repr(u8)]
pub enum Edition {
    /// An owner that is asked for a copy gives the block back to home.
    #[default]
    Msi = 0,
    /// An owner that is asked for a copy keeps the block, and loads it beside
    /// the others.
    Mosi = 1,
}

/// The editions, in the order of their numbers.
pub const EDITIONS: [Edition; 2] = [Edition::Msi, Edition::Mosi];

impl Edition {
    /// The edition of a number, if it is one's.
    pub fn of(number: u64) -> Option<Edition> {
        EDITIONS
            .into_iter()
            .find(|edition| u64::from(edition.number()) == number)
    }

    /// The edition's number.
    pub const fn number(self) -> u8 {
        self as u8
    }

    /// The edition's name.
    pub const fn name(self) -> &'static str {
        match self {
            Edition::Msi => "MSI",
            Edition::Mosi => "MOSI",
        }
    }
}
