//! The numbers that the engine, the reader and the writer say no with.

/// A refusal, by the paper's number. No event of a `Chassis` answers 15: one
/// that is ill formed comes from words alone, and `Chassis::handed_in` takes
/// none.
#[derive(Clone, Copy, PartialEq, Eq, Debug)]
#[repr(u8)]
pub enum Refusal {
    NoSuchCard = 1,
    NoSuchBlock = 2,
    NoRight = 3,
    AskNotAllowed = 4,
    NoSuchKind = 5,
    MaskTooWide = 6,
    LineFull = 7,
    LineEmpty = 8,
    BlockHeld = 9,
    PoolFull = 10,
    NoSuchPosition = 11,
    OrderNumbersSpent = 12,
    Impossible = 13,
    SizeOutOfRange = 14,
    IllFormed = 15,
    CutShort = 20,
    UnknownTag = 21,
    WrongLength = 22,
    WrongOpening = 23,
    NoRoom = 24,
}

impl Refusal {
    /// The paper's number.
    pub const fn number(self) -> u8 {
        self as u8
    }

    /// The refusal in words.
    pub const fn words(self) -> &'static str {
        match self {
            Refusal::NoSuchCard => "no such card",
            Refusal::NoSuchBlock => "no such block",
            Refusal::NoRight => "the state gives no right to this",
            Refusal::AskNotAllowed => "the state does not allow this kind of ask",
            Refusal::NoSuchKind => "the kind is not 1 to 3",
            Refusal::MaskTooWide => "the mask names a card that is not there",
            Refusal::LineFull => "the line is full",
            Refusal::LineEmpty => "the line is empty",
            Refusal::BlockHeld => "the head's block has data on its way",
            Refusal::PoolFull => "the pool is full",
            Refusal::NoSuchPosition => "the pool has no such position",
            Refusal::OrderNumbersSpent => "the last order number has been given",
            Refusal::Impossible => "the head does not fit the state",
            Refusal::SizeOutOfRange => "cards are not 1 to 8 or blocks not 1 to 32",
            Refusal::IllFormed => "the state handed in is ill formed",
            Refusal::CutShort => "the record is cut short",
            Refusal::UnknownTag => "the tag is unknown",
            Refusal::WrongLength => "the length does not fit the tag",
            Refusal::WrongOpening => "the opening is missing, wrong or repeated",
            Refusal::NoRoom => "the buffer has no room for the record",
        }
    }

    /// Whether the program stops after this refusal and gives the record's
    /// byte place as its value.
    pub const fn ends_the_run(self) -> bool {
        matches!(
            self,
            Refusal::SizeOutOfRange
                | Refusal::CutShort
                | Refusal::UnknownTag
                | Refusal::WrongLength
                | Refusal::WrongOpening
        )
    }
}
