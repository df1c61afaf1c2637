//! Why a text or a call is turned down, and where.

/// A cause, with the number that REFUSALS.md gives it.
#[derive(Clone, Copy, Debug, PartialEq, Eq)]
#[repr(u8)]
pub enum Cause {
    BrokenForm = 11,
    TooManyAdders = 12,
    ShiftOutOfRange = 13,
    SourceNotLower = 14,
    ValueOutOfRange = 15,
    NotAsRead = 16,
    CodeAboveFifteen = 20,
    CodeLive = 21,
    BlockTooSmall = 22,
    CodeIdle = 23,
    AdderUnused = 24,
    AmountOutOfRange = 25,
    WidthOutOfRange = 26,
    UnitTooHigh = 28,
    BothTooCheap = 29,
    SheetTooLong = 40,
    SheetForm = 41,
    SheetLimit = 42,
    InputRepeated = 43,
    InputAbsent = 44,
    RowBroken = 45,
    InputUnselected = 46,
}

impl Cause {
    pub fn number(self) -> u8 {
        self as u8
    }

    pub fn at(self, place: usize) -> Refusal {
        Refusal { cause: self, place }
    }
}

/// A cause and its place: a byte, an adder, or 0.
#[derive(Clone, Copy, Debug, PartialEq, Eq)]
pub struct Refusal {
    pub cause: Cause,
    pub place: usize,
}
