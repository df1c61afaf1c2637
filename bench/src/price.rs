//! Widths, price lists, and what a block costs.

use std::fmt;

use crate::adder::{Sign, Value};
use crate::block::Block;
use crate::cursor::{Broken, Cursor};
use crate::planted::{self, Plant};
use crate::port::Port;
use crate::refusal::{Cause, Refusal};

const HIGHEST_UNIT: u64 = 1000;

/// The exponent of the lowest power of two that the value does not exceed.
pub fn bits(value: Value) -> u32 {
    (0..63).find(|&b| 1 << b >= value).unwrap_or(63)
}

/// What the live rows make of an adder.
#[derive(Clone, Copy, Debug, PartialEq, Eq)]
pub enum Kind {
    Adds,
    Subtracts,
    Both,
}

impl Kind {
    fn of(signs: impl Iterator<Item = Sign>) -> Option<Self> {
        signs
            .map(Kind::from)
            .reduce(|one, other| if one == other { one } else { Kind::Both })
    }
}

impl From<Sign> for Kind {
    fn from(sign: Sign) -> Self {
        match sign {
            Sign::Plus => Kind::Adds,
            Sign::Minus => Kind::Subtracts,
        }
    }
}

impl fmt::Display for Kind {
    fn fmt(&self, f: &mut fmt::Formatter) -> fmt::Result {
        f.write_str(match self {
            Kind::Adds => "adds",
            Kind::Subtracts => "subtracts",
            Kind::Both => "both",
        })
    }
}

/// What one bit of each part costs.
#[derive(Clone, Copy, Debug, PartialEq, Eq)]
pub struct UnitPrices {
    pub adds: u64,
    pub subtracts: u64,
    pub both: u64,
    pub two_way: u64,
}

impl UnitPrices {
    pub fn new([adds, subtracts, both, two_way]: [u64; 4]) -> Result<Self, Refusal> {
        if [adds, subtracts, both, two_way]
            .into_iter()
            .any(|unit| unit > HIGHEST_UNIT)
        {
            return Err(Cause::UnitTooHigh.at(0));
        }
        if both < adds || both < subtracts {
            return Err(Cause::BothTooCheap.at(0));
        }
        Ok(UnitPrices {
            adds,
            subtracts,
            both,
            two_way,
        })
    }

    /// Reads a line of unit prices.
    pub fn read(line: &[u8]) -> Result<Self, Refusal> {
        let units = parse_units(line).map_err(|Broken(place)| Cause::BrokenForm.at(place))?;
        UnitPrices::new(units)
    }
}

fn parse_units(line: &[u8]) -> Result<[u64; 4], Broken> {
    let mut cursor = Cursor::new(line);
    cursor.key(b"units=")?;
    let mut units = [0; 4];
    for (index, unit) in units.iter_mut().enumerate() {
        if index > 0 {
            cursor.byte(b' ')?;
        }
        *unit = cursor.number(9)?;
    }
    cursor.end()?;
    Ok(units)
}

#[derive(Clone, Copy, Debug, PartialEq, Eq)]
pub enum PriceList {
    /// As many as there are two-way multiplexers.
    Count,
    PerBit(UnitPrices),
}

impl PriceList {
    fn adder(self, part: AdderPart) -> u64 {
        let PriceList::PerBit(units) = self else {
            return 0;
        };
        let unit = match part.kind {
            Kind::Adds => units.adds,
            Kind::Subtracts => units.subtracts,
            Kind::Both => units.both,
        };
        unit * u64::from(part.width)
    }

    fn multiplexer(self, part: Multiplexer) -> u64 {
        let two_way = part.inputs as u64 - 1;
        match self {
            PriceList::Count => two_way,
            PriceList::PerBit(units) => units.two_way * two_way * u64::from(part.width),
        }
    }
}

#[derive(Clone, Copy, Debug, PartialEq, Eq)]
pub struct AdderPart {
    pub kind: Kind,
    pub width: u32,
}

impl AdderPart {
    /// The adder of a number, where some live row uses it.
    pub fn at(block: &Block, number: usize) -> Option<Self> {
        let adders = || block.live_rows().filter(|row| row.adder(number).is_some());
        let kind = Kind::of(
            adders()
                .filter_map(|row| row.adder(number))
                .map(|adder| adder.sign),
        )?;
        let largest = match planted::is(Plant::WidthOfPort) {
            false => adders().map(|row| row.value(number)).max()?,
            true => largest_at(block, Port::Left(number))?,
        };
        Some(AdderPart {
            kind,
            width: block.width() + bits(largest),
        })
    }
}

#[derive(Clone, Copy, Debug, PartialEq, Eq)]
pub struct Multiplexer {
    pub inputs: usize,
    pub width: u32,
}

impl Multiplexer {
    /// The multiplexer of a port, where the port has inputs.
    pub fn at(block: &Block, port: Port) -> Option<Self> {
        let inputs = port.inputs(block).as_slice().len();
        let width = block.width() + bits(largest_at(block, port)?);
        Some(Multiplexer { inputs, width })
    }
}

/// The largest value that a live row has on the wire that leaves a port.
fn largest_at(block: &Block, port: Port) -> Option<Value> {
    let value = |row: &crate::row::Row| port.operand(row).map(|operand| row.operand_value(operand));
    block.live_rows().filter_map(value).max()
}

/// The sum over the parts that the block takes.
pub fn price(block: &Block, list: PriceList) -> u64 {
    let adders = (1..=block.adders()).filter_map(|number| AdderPart::at(block, number));
    let multiplexers = Port::of(block.adders()).filter_map(|port| Multiplexer::at(block, port));
    let adders: u64 = adders.map(|part| list.adder(part)).sum();
    let multiplexers: u64 = multiplexers.map(|part| list.multiplexer(part)).sum();
    adders + multiplexers
}

#[cfg(test)]
mod tests {
    use super::*;

    #[test]
    fn the_bits_of_the_prices() {
        let cases = [
            (1, 0),
            (2, 1),
            (3, 2),
            (4, 2),
            (5, 3),
            (8, 3),
            (2_147_483_647, 31),
        ];
        for (value, expected) in cases {
            assert_eq!(bits(value), expected, "{value}");
        }
    }

    #[test]
    fn the_unit_prices_of_the_formats() {
        let read = |line: &str| UnitPrices::read(line.as_bytes()).map(|units| units.both);
        assert_eq!(read("units=4 5 6 2"), Ok(6));
        assert_eq!(read("units=4 5 6"), Err(Cause::BrokenForm.at(11)));
        assert_eq!(read("units=4 5 06 2"), Err(Cause::BrokenForm.at(11)));
        assert_eq!(read("units=1001 0 0 0"), Err(Cause::UnitTooHigh.at(0)));
        assert_eq!(read("units=4 5 4 2"), Err(Cause::BothTooCheap.at(0)));
    }
}
