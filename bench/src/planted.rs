//! Rules of the reference that can be turned on purpose, to see that the
//! driver notices.
//!
//! A driver that compares the wrong things agrees with everything. So each
//! program has a rule here which, once turned, makes the reference wrong in
//! some rare way, and `compare --plant all` demands that each is caught.

use std::sync::atomic::{AtomicUsize, Ordering};

#[derive(Clone, Copy, Debug, PartialEq, Eq)]
pub enum Plant {
    /// The highest unread adder of a chain is told and not the lowest.
    HighestUnread,
    /// A negative sample leaves a remainder by 257 that is one less.
    NegativeRemainder,
    /// The highest reader that a move breaks is told and not the lowest.
    HighestReader,
    /// A repeated input is told before a limit that its line breaks.
    RepeatBeforeLimit,
    /// The levels of a port's multiplexer are left out of the depth.
    NoLevels,
    /// The value of a port's widest operand is taken for its adder's.
    WidthOfPort,
    /// Of equally cheap placements the last is taken and not the first.
    LastOfEquals,
    /// An amount of -30 is out of range.
    AmountThirty,
    /// Equally cheap lists of places are compared from the last adder.
    PlacesFromLast,
    /// The values of a row are judged before which slots are filled.
    ValuesFirst,
    /// The last port line with an input that no row selects is told.
    LastUnselected,
    /// The chain of a script's line is judged before its unit prices.
    ChainFirst,
    /// A move that takes an operand out of its range is told at the output.
    MovedAtOutput,
}

impl Plant {
    pub const ALL: [Plant; 13] = [
        Plant::HighestUnread,
        Plant::NegativeRemainder,
        Plant::HighestReader,
        Plant::RepeatBeforeLimit,
        Plant::NoLevels,
        Plant::WidthOfPort,
        Plant::LastOfEquals,
        Plant::AmountThirty,
        Plant::PlacesFromLast,
        Plant::ValuesFirst,
        Plant::LastUnselected,
        Plant::ChainFirst,
        Plant::MovedAtOutput,
    ];

    pub fn name(self) -> &'static str {
        match self {
            Plant::HighestUnread => "highest-unread",
            Plant::NegativeRemainder => "negative-remainder",
            Plant::HighestReader => "highest-reader",
            Plant::RepeatBeforeLimit => "repeat-before-limit",
            Plant::NoLevels => "no-levels",
            Plant::WidthOfPort => "width-of-port",
            Plant::LastOfEquals => "last-of-equals",
            Plant::AmountThirty => "amount-thirty",
            Plant::PlacesFromLast => "places-from-last",
            Plant::ValuesFirst => "values-first",
            Plant::LastUnselected => "last-unselected",
            Plant::ChainFirst => "chain-first",
            Plant::MovedAtOutput => "moved-at-output",
        }
    }

    pub fn named(name: &str) -> Option<Self> {
        Plant::ALL.into_iter().find(|plant| plant.name() == name)
    }
}

/// One more than the index of the plant that is turned, 0 for none.
static TURNED: AtomicUsize = AtomicUsize::new(0);

pub fn turn(plant: Option<Plant>) {
    let place = plant.and_then(|plant| Plant::ALL.into_iter().position(|other| other == plant));
    TURNED.store(place.map_or(0, |place| place + 1), Ordering::SeqCst);
}

pub fn is(plant: Plant) -> bool {
    let turned = TURNED.load(Ordering::Relaxed);
    turned > 0 && Plant::ALL[turned - 1] == plant
}
