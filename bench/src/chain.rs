//! Chains: read from a line, judged by their rules, valued.

use std::fmt;

use crate::adder::{in_range, Adder, Operand, Sign, Value, LARGEST_SHIFT, MOST_ADDERS};
use crate::cursor::{Broken, Cursor};
use crate::planted::{self, Plant};
use crate::refusal::{Cause, Refusal};

/// The most bytes of a chain line, and of the generator's width line.
pub const LONGEST_LINE: usize = 200;

/// Adders and an output shift that keep every rule of a chain.
#[derive(Clone, Debug, PartialEq, Eq)]
pub struct Chain {
    adders: Vec<Adder>,
    shift: u8,
    constant: Value,
}

impl Chain {
    pub fn read(line: &[u8]) -> Result<Self, Refusal> {
        if line.len() > LONGEST_LINE {
            return Err(Cause::BrokenForm.at(LONGEST_LINE));
        }
        let (adders, shift) = parse(line).map_err(|Broken(place)| Cause::BrokenForm.at(place))?;
        Chain::new(adders, shift)
    }

    pub fn new(adders: Vec<Adder>, shift: u8) -> Result<Self, Refusal> {
        if adders.len() > MOST_ADDERS {
            return Err(Cause::TooManyAdders.at(MOST_ADDERS + 1));
        }
        let mut values = vec![1];
        for (index, &adder) in adders.iter().enumerate() {
            judge_operands(adder, index + 1)?;
            let value = adder
                .value(&values)
                .ok_or(Cause::ValueOutOfRange.at(index + 1))?;
            values.push(value);
        }
        let constant = output(values[adders.len()], shift)?;
        match unread(&adders) {
            Some(adder) => Err(Cause::NotAsRead.at(adder)),
            None => Ok(Chain {
                adders,
                shift,
                constant,
            }),
        }
    }

    pub fn adders(&self) -> &[Adder] {
        &self.adders
    }

    pub fn shift(&self) -> u8 {
        self.shift
    }

    pub fn constant(&self) -> Value {
        self.constant
    }
}

impl fmt::Display for Chain {
    fn fmt(&self, f: &mut fmt::Formatter) -> fmt::Result {
        f.write_str(&text(&self.adders, self.shift))
    }
}

/// The chain line of adders and an output shift, whether or not they keep rules.
pub fn text(adders: &[Adder], shift: u8) -> String {
    let adders: String = adders.iter().map(|adder| format!("{adder} ")).collect();
    format!("chain={adders}{shift}")
}

/// The four rules of an adder's operands, which a row has in common.
pub fn judge_operands(adder: Adder, number: usize) -> Result<(), Refusal> {
    for operand in adder.operands() {
        if usize::from(operand.source) >= number {
            return Err(Cause::SourceNotLower.at(number));
        }
        if operand.shift > LARGEST_SHIFT {
            return Err(Cause::ShiftOutOfRange.at(number));
        }
    }
    Ok(())
}

fn output(last: Value, shift: u8) -> Result<Value, Refusal> {
    if shift > LARGEST_SHIFT {
        return Err(Cause::ShiftOutOfRange.at(0));
    }
    let value = last << shift;
    if in_range(value) {
        Ok(value)
    } else {
        Err(Cause::ValueOutOfRange.at(0))
    }
}

/// The lowest adder before the last that no later one reads.
fn unread(adders: &[Adder]) -> Option<usize> {
    let mut candidates = 1..adders.len();
    if planted::is(Plant::HighestUnread) {
        return candidates.rev().find(|&number| !is_read(adders, number));
    }
    candidates.find(|&number| !is_read(adders, number))
}

fn is_read(adders: &[Adder], number: usize) -> bool {
    adders[number..].iter().any(|later| later.reads(number))
}

fn parse(line: &[u8]) -> Result<(Vec<Adder>, u8), Broken> {
    let mut cursor = Cursor::new(line);
    cursor.key(b"chain=")?;
    let mut adders = Vec::new();
    loop {
        let number = cursor.short()?;
        if cursor.is_at_end() {
            return Ok((adders, number));
        }
        adders.push(adder_from(&mut cursor, number)?);
        cursor.byte(b' ')?;
    }
}

/// An adder whose left source was read already, since only what follows tells
/// a source from the output shift.
fn adder_from(cursor: &mut Cursor, source: u8) -> Result<Adder, Broken> {
    let left = operand_from(cursor, source)?;
    let sign = sign(cursor)?;
    let right = operand(cursor)?;
    Ok(Adder { left, sign, right })
}

pub fn operand(cursor: &mut Cursor) -> Result<Operand, Broken> {
    let source = cursor.short()?;
    operand_from(cursor, source)
}

fn operand_from(cursor: &mut Cursor, source: u8) -> Result<Operand, Broken> {
    cursor.byte(b'.')?;
    let shift = cursor.short()?;
    Ok(Operand { source, shift })
}

pub fn sign(cursor: &mut Cursor) -> Result<Sign, Broken> {
    match cursor.peek().and_then(Sign::from_byte) {
        Some(Sign::Plus) => cursor.byte(b'+').map(|()| Sign::Plus),
        Some(Sign::Minus) => cursor.byte(b'-').map(|()| Sign::Minus),
        None => cursor.broken(),
    }
}

#[cfg(test)]
mod tests {
    use super::*;

    fn constant(line: &str) -> Result<Value, Refusal> {
        Chain::read(line.as_bytes()).map(|chain| chain.constant())
    }

    #[test]
    fn the_chain_of_the_formats() {
        assert_eq!(
            constant("chain=0.0+0.2 1.0+1.11 2.0+0.5 3.0-0.8 0"),
            Ok(10_021)
        );
        assert_eq!(constant("chain=0.0+0.2 1.0+1.3 0"), Ok(45));
    }

    #[test]
    fn the_lines_of_the_refusals() {
        let cases = [
            ("chain=", Cause::BrokenForm.at(6)),
            ("chain=00", Cause::BrokenForm.at(7)),
            ("chain=100", Cause::BrokenForm.at(8)),
            ("chain=0.0+0.2  0", Cause::BrokenForm.at(14)),
            ("chain=31", Cause::ShiftOutOfRange.at(0)),
            ("chain=1.0+0.0 0", Cause::SourceNotLower.at(1)),
            ("chain=0.30+0.30 0", Cause::ValueOutOfRange.at(1)),
            ("chain=0.0+0.2 0.0+0.1 0", Cause::NotAsRead.at(1)),
        ];
        for (line, refusal) in cases {
            assert_eq!(constant(line), Err(refusal), "{line}");
        }
    }

    #[test]
    fn a_line_past_its_length_is_told_first() {
        let line = "x".repeat(201);
        assert_eq!(constant(&line), Err(Cause::BrokenForm.at(200)));
    }

    #[test]
    fn a_chain_prints_as_its_line() {
        let line = "chain=0.0+0.2 1.0+1.11 2.0+0.5 3.0-0.8 0";
        let chain = Chain::read(line.as_bytes()).map(|chain| chain.to_string());
        assert_eq!(chain, Ok(line.to_string()));
    }
}
