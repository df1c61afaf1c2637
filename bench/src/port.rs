//! Ports of a block, and the inputs of their multiplexers.

use std::fmt;

use crate::adder::Operand;
use crate::block::{Block, CODES};
use crate::row::Row;

/// The left and the right of an adder, or the output of the block.
#[derive(Clone, Copy, Debug, PartialEq, Eq)]
pub enum Port {
    Left(usize),
    Right(usize),
    Output,
}

impl Port {
    /// The ports of a block of so many adders, in their order.
    pub fn of(adders: usize) -> impl Iterator<Item = Port> {
        let sides = (1..=adders).flat_map(|number| [Port::Left(number), Port::Right(number)]);
        sides.chain([Port::Output])
    }

    /// The operand that a row puts here.
    pub fn operand(self, row: &Row) -> Option<Operand> {
        match self {
            Port::Left(number) => row.adder(number).map(|adder| adder.left),
            Port::Right(number) => row.adder(number).map(|adder| adder.right),
            Port::Output => Some(row.output()),
        }
    }

    /// What live rows put here, each operand once, ascending.
    pub fn inputs(self, block: &Block) -> Inputs {
        let mut inputs = Inputs::none();
        block
            .live_rows()
            .filter_map(|row| self.operand(row))
            .for_each(|operand| inputs.put(operand));
        inputs
    }
}

impl fmt::Display for Port {
    fn fmt(&self, f: &mut fmt::Formatter) -> fmt::Result {
        match self {
            Port::Left(number) => write!(f, "{number}L"),
            Port::Right(number) => write!(f, "{number}R"),
            Port::Output => f.write_str("out"),
        }
    }
}

/// At most one operand for each code, so the list has a fixed place: the
/// plain search prices every port of a block for each placement.
#[derive(Clone, Copy, Debug)]
pub struct Inputs {
    list: [Operand; CODES],
    count: usize,
}

impl Inputs {
    fn none() -> Self {
        Inputs {
            list: [Operand {
                source: 0,
                shift: 0,
            }; CODES],
            count: 0,
        }
    }

    pub fn as_slice(&self) -> &[Operand] {
        &self.list[..self.count]
    }

    fn put(&mut self, operand: Operand) {
        if let Err(place) = self.as_slice().binary_search(&operand) {
            self.list.copy_within(place..self.count, place + 1);
            self.list[place] = operand;
            self.count += 1;
        }
    }
}
