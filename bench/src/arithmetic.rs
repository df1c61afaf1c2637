//! Arithmetics, and running a row on a sample of any of them.

use crate::adder::{Sign, MOST_ADDERS};
use crate::planted::{self, Plant};
use crate::row::Row;

pub trait Arithmetic: Copy {
    fn neutral() -> Self;
    fn sum(self, other: Self) -> Self;
    fn difference(self, other: Self) -> Self;

    /// Doubled so many times. The output of a row is always a shift, so this
    /// has to settle its sample even where the shift is 0.
    fn shifted(self, shift: u8) -> Self {
        (0..shift).fold(self, |sample, _| sample.sum(sample))
    }
}

/// 64 bits, two's complement.
#[derive(Clone, Copy, Debug, PartialEq, Eq)]
pub struct Word(pub i64);

impl Arithmetic for Word {
    fn neutral() -> Self {
        Word(0)
    }

    fn sum(self, other: Self) -> Self {
        Word(self.0.wrapping_add(other.0))
    }

    fn difference(self, other: Self) -> Self {
        Word(self.0.wrapping_sub(other.0))
    }
}

/// A remainder by M.
#[derive(Clone, Copy, Debug, PartialEq, Eq)]
pub struct Residue<const M: u32>(pub u32);

impl<const M: u32> Residue<M> {
    pub fn from_integer(integer: i64) -> Self {
        let remainder = integer.rem_euclid(i64::from(M)) as u32;
        if planted::is(Plant::NegativeRemainder) && M == 257 && integer < 0 {
            return Residue((remainder + M - 1) % M);
        }
        Residue(remainder)
    }

    fn reduced(number: u64) -> Self {
        Residue((number % u64::from(M)) as u32)
    }
}

impl<const M: u32> Arithmetic for Residue<M> {
    fn neutral() -> Self {
        Residue(0)
    }

    fn sum(self, other: Self) -> Self {
        Self::reduced(u64::from(self.0) + u64::from(other.0))
    }

    fn difference(self, other: Self) -> Self {
        let other = Self::reduced(u64::from(other.0)).0;
        Self::reduced(u64::from(self.0) + u64::from(M - other))
    }

    fn shifted(self, shift: u8) -> Self {
        (0..shift).fold(Self::reduced(u64::from(self.0)), |sample, _| {
            sample.sum(sample)
        })
    }
}

/// Two samples side by side.
#[derive(Clone, Copy, Debug, PartialEq, Eq)]
pub struct Frame<L, R>(pub L, pub R);

impl<L: Arithmetic, R: Arithmetic> Arithmetic for Frame<L, R> {
    fn neutral() -> Self {
        Frame(L::neutral(), R::neutral())
    }

    fn sum(self, other: Self) -> Self {
        Frame(self.0.sum(other.0), self.1.sum(other.1))
    }

    fn difference(self, other: Self) -> Self {
        Frame(self.0.difference(other.0), self.1.difference(other.1))
    }

    fn shifted(self, shift: u8) -> Self {
        Frame(self.0.shifted(shift), self.1.shifted(shift))
    }
}

/// What a row makes of a sample, adder by adder.
pub fn run<A: Arithmetic>(row: &Row, sample: A) -> A {
    let mut made = [A::neutral(); MOST_ADDERS + 1];
    made[0] = sample;
    for number in 1..=MOST_ADDERS {
        let Some(adder) = row.adder(number) else {
            continue;
        };
        let [left, right] = adder
            .operands()
            .map(|operand| made[usize::from(operand.source)].shifted(operand.shift));
        made[number] = match adder.sign {
            Sign::Plus => left.sum(right),
            Sign::Minus => left.difference(right),
        };
    }
    let output = row.output();
    made[usize::from(output.source)].shifted(output.shift)
}

#[cfg(test)]
mod tests {
    use super::*;
    use crate::chain::Chain;

    fn row(line: &str) -> Row {
        Row::from_chain(&Chain::read(line.as_bytes()).expect("a chain")).expect("a row")
    }

    #[test]
    fn the_multiples_of_the_formats() {
        let by45 = row("chain=0.0+0.2 1.0+1.3 0");
        assert_eq!(run(&by45, Word(-7)), Word(-315));
        assert_eq!(Residue::<255>::from_integer(-7), Residue(248));
        assert_eq!(run(&by45, Residue::<255>::from_integer(-7)), Residue(195));
        assert_eq!(run(&by45, Residue::<257>::from_integer(-7)), Residue(199));
    }

    #[test]
    fn a_residue_that_is_not_reduced() {
        assert_eq!(run(&row("chain=0"), Residue::<255>(300)), Residue(45));
    }
}
