//! Operands, signs and adders, and the values that they have for a sample of 1.

use std::fmt;

/// The largest shift of an operand or an output.
pub const LARGEST_SHIFT: u8 = 30;

/// The most adders of a chain, a row or a block.
pub const MOST_ADDERS: usize = 8;

/// What an operand, an adder or an output is for a sample of 1.
pub type Value = i64;

/// The largest value of an operand, an adder or an output.
pub const LARGEST_VALUE: Value = 2_147_483_647;

pub fn in_range(value: Value) -> bool {
    (1..=LARGEST_VALUE).contains(&value)
}

/// The sample (source 0) or an adder, under a shift.
///
/// They compare by source and then by shift, as the inputs of a port do.
#[derive(Clone, Copy, Debug, PartialEq, Eq, PartialOrd, Ord)]
pub struct Operand {
    pub source: u8,
    pub shift: u8,
}

impl Operand {
    pub fn new(source: u8, shift: u8) -> Self {
        Operand { source, shift }
    }

    /// Its value, where `values[j]` is that of source j.
    pub fn value(self, values: &[Value]) -> Value {
        values[usize::from(self.source)] << self.shift
    }
}

impl fmt::Display for Operand {
    fn fmt(&self, f: &mut fmt::Formatter) -> fmt::Result {
        write!(f, "{}.{}", self.source, self.shift)
    }
}

#[derive(Clone, Copy, Debug, PartialEq, Eq)]
pub enum Sign {
    Plus,
    Minus,
}

impl Sign {
    pub fn from_byte(byte: u8) -> Option<Self> {
        match byte {
            b'+' => Some(Sign::Plus),
            b'-' => Some(Sign::Minus),
            _ => None,
        }
    }
}

impl fmt::Display for Sign {
    fn fmt(&self, f: &mut fmt::Formatter) -> fmt::Result {
        f.write_str(match self {
            Sign::Plus => "+",
            Sign::Minus => "-",
        })
    }
}

#[derive(Clone, Copy, Debug, PartialEq, Eq)]
pub struct Adder {
    pub left: Operand,
    pub sign: Sign,
    pub right: Operand,
}

impl Adder {
    pub fn operands(self) -> [Operand; 2] {
        [self.left, self.right]
    }

    pub fn reads(self, source: usize) -> bool {
        self.operands()
            .iter()
            .any(|operand| usize::from(operand.source) == source)
    }

    /// Its value, or nothing where it or one of its operands is out of range.
    pub fn value(self, values: &[Value]) -> Option<Value> {
        let (left, right) = (self.left.value(values), self.right.value(values));
        let value = match self.sign {
            Sign::Plus => left + right,
            Sign::Minus => left - right,
        };
        [left, right, value]
            .into_iter()
            .all(in_range)
            .then_some(value)
    }

    pub fn swapped(self) -> Self {
        Adder {
            left: self.right,
            sign: self.sign,
            right: self.left,
        }
    }
}

impl fmt::Display for Adder {
    fn fmt(&self, f: &mut fmt::Formatter) -> fmt::Result {
        write!(f, "{}{}{}", self.left, self.sign, self.right)
    }
}
