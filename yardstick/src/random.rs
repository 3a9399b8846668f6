//! A small seeded generator, the same on every machine (splitmix64).

/// A stream of numbers that its seed decides.
pub struct Random {
    state: u64,
}

impl Random {
    /// The stream of a seed.
    pub fn new(seed: u64) -> Random {
        Random { state: seed }
    }

    /// The next 64 bits.
    pub fn bits(&mut self) -> u64 {
        self.state = self.state.wrapping_add(0x9E37_79B9_7F4A_7C15);
        let mut mixed = self.state;
        mixed = (mixed ^ (mixed >> 30)).wrapping_mul(0xBF58_476D_1CE4_E5B9);
        mixed = (mixed ^ (mixed >> 27)).wrapping_mul(0x94D0_49BB_1331_11EB);
        mixed ^ (mixed >> 31)
    }

    /// 32 bits.
    pub fn word(&mut self) -> u32 {
        (self.bits() >> 32) as u32
    }

    /// A byte.
    pub fn byte(&mut self) -> u8 {
        (self.bits() >> 56) as u8
    }

    /// A number below a limit; 0 if the limit is 0.
    pub fn below(&mut self, limit: u32) -> u32 {
        ((u64::from(self.word()) * u64::from(limit)) >> 32) as u32
    }

    /// A byte below a limit; 0 if the limit is 0.
    pub fn byte_below(&mut self, limit: u8) -> u8 {
        self.below(u32::from(limit)) as u8
    }

    /// A number from the first to the last, both included.
    pub fn between(&mut self, first: u32, last: u32) -> u32 {
        first.saturating_add(self.below(last.saturating_sub(first).saturating_add(1)))
    }

    /// A byte from the first to the last, both included.
    pub fn byte_between(&mut self, first: u8, last: u8) -> u8 {
        self.between(u32::from(first), u32::from(last)) as u8
    }

    /// A place in something of this length; 0 if the length is 0.
    pub fn place(&mut self, length: usize) -> usize {
        self.below(u32::try_from(length).unwrap_or(u32::MAX)) as usize
    }

    /// True this many times in a hundred.
    pub fn percent(&mut self, percent: u32) -> bool {
        self.below(100) < percent
    }

    /// One of the options, by their weights; none if all weights are 0.
    pub fn weighted<T: Copy>(&mut self, options: &[(T, u32)]) -> Option<T> {
        let total = options.iter().map(|(_, weight)| weight).sum();
        let mut left = self.below(total);
        for &(option, weight) in options {
            if left < weight {
                return Some(option);
            }
            left -= weight;
        }
        None
    }
}
