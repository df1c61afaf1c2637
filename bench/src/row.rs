//! Rows: what one select code makes of a sample.

use crate::adder::{in_range, Adder, Operand, Value, LARGEST_SHIFT, MOST_ADDERS};
use crate::chain::{judge_operands, Chain};
use crate::planted::{self, Plant};
use crate::refusal::{Cause, Refusal};

const LARGEST_AMOUNT: i64 = 30;

/// Slot `j - 1` is that of adder j.
pub type Slots = [Option<Adder>; MOST_ADDERS];

/// Slots and an output operand that keep every rule of a row.
#[derive(Clone, Copy, Debug, PartialEq, Eq)]
pub struct Row {
    slots: Slots,
    output: Operand,
    /// The sample's 1 and the value of each adder, 0 for one that is not used.
    values: [Value; MOST_ADDERS + 1],
}

impl Row {
    pub fn new(slots: Slots, output: Operand) -> Result<Self, Refusal> {
        judge_sources_and_shifts(&slots, output)?;
        if planted::is(Plant::ValuesFirst) {
            values(&slots)?;
        }
        judge_filling(&slots, output)?;
        let values = values(&slots)?;
        if !in_range(output.value(&values)) {
            return Err(Cause::ValueOutOfRange.at(0));
        }
        Ok(Row {
            slots,
            output,
            values,
        })
    }

    pub fn from_chain(chain: &Chain) -> Result<Self, Refusal> {
        let mut slots = [None; MOST_ADDERS];
        for (slot, &adder) in slots.iter_mut().zip(chain.adders()) {
            *slot = Some(adder);
        }
        Row::new(
            slots,
            Operand::new(chain.adders().len() as u8, chain.shift()),
        )
    }

    /// The adder of a number from 1 to 8, where the row uses it.
    pub fn adder(&self, number: usize) -> Option<Adder> {
        self.slots[number - 1]
    }

    pub fn output(&self) -> Operand {
        self.output
    }

    pub fn value(&self, number: usize) -> Value {
        self.values[number]
    }

    pub fn operand_value(&self, operand: Operand) -> Value {
        operand.value(&self.values)
    }

    pub fn constant(&self) -> Value {
        self.operand_value(self.output)
    }

    /// The number of the highest adder that the row uses, or 0.
    pub fn highest(&self) -> usize {
        (1..=MOST_ADDERS)
            .rev()
            .find(|&number| self.adder(number).is_some())
            .unwrap_or(0)
    }

    /// The row after both shifts of an adder rose by an amount, and whatever
    /// reads it fell by as much.
    pub fn moved(&self, adder: u64, amount: i64) -> Result<Row, Refusal> {
        let (number, own) = self.used(adder).ok_or(Cause::AdderUnused.at(0))?;
        let lowest = -LARGEST_AMOUNT + i64::from(planted::is(Plant::AmountThirty));
        if !(lowest..=LARGEST_AMOUNT).contains(&amount) {
            return Err(Cause::AmountOutOfRange.at(0));
        }
        let mut slots = self.slots;
        let own = shift_both(own, |_| amount).ok_or(Cause::ShiftOutOfRange.at(number))?;
        slots[number - 1] = Some(own);
        let fall = |source: u8| {
            if usize::from(source) == number {
                -amount
            } else {
                0
            }
        };
        for reader in self.readers(number) {
            let moved = slots[reader - 1].and_then(|adder| shift_both(adder, fall));
            slots[reader - 1] = Some(moved.ok_or(Cause::ShiftOutOfRange.at(reader))?);
        }
        let output = shifted(self.output, fall(self.output.source));
        let output = output.ok_or(Cause::ShiftOutOfRange.at(0))?;
        let row = Row::new(slots, output);
        if planted::is(Plant::MovedAtOutput) {
            return row.map_err(|refusal| refusal.cause.at(0));
        }
        row
    }

    fn used(&self, adder: u64) -> Option<(usize, Adder)> {
        let number = usize::try_from(adder)
            .ok()
            .filter(|number| (1..=MOST_ADDERS).contains(number))?;
        self.adder(number).map(|own| (number, own))
    }

    fn readers(&self, number: usize) -> Vec<usize> {
        let reads = |&reader: &usize| self.adder(reader).is_some_and(|adder| adder.reads(number));
        let mut readers: Vec<usize> = (1..=MOST_ADDERS).filter(reads).collect();
        if planted::is(Plant::HighestReader) {
            readers.reverse();
        }
        readers
    }
}

fn shifted(operand: Operand, amount: i64) -> Option<Operand> {
    let shift = u8::try_from(i64::from(operand.shift) + amount).ok()?;
    (shift <= LARGEST_SHIFT).then_some(Operand { shift, ..operand })
}

/// Both operands of an adder, each shifted by what its source asks for.
fn shift_both(adder: Adder, amount: impl Fn(u8) -> i64) -> Option<Adder> {
    let left = shifted(adder.left, amount(adder.left.source))?;
    let right = shifted(adder.right, amount(adder.right.source))?;
    Some(Adder {
        left,
        right,
        ..adder
    })
}

fn judge_sources_and_shifts(slots: &Slots, output: Operand) -> Result<(), Refusal> {
    for (index, slot) in slots.iter().enumerate() {
        slot.map_or(Ok(()), |adder| judge_operands(adder, index + 1))?;
    }
    if usize::from(output.source) > MOST_ADDERS {
        return Err(Cause::SourceNotLower.at(0));
    }
    if output.shift > LARGEST_SHIFT {
        return Err(Cause::ShiftOutOfRange.at(0));
    }
    Ok(())
}

/// An adder has to be there exactly if the output reads it.
fn judge_filling(slots: &Slots, output: Operand) -> Result<(), Refusal> {
    let mut read = [false; MOST_ADDERS + 1];
    read[usize::from(output.source)] = true;
    for number in (1..=MOST_ADDERS)
        .rev()
        .filter(|&number| slots[number - 1].is_some())
    {
        let sources = slots[number - 1].map(|adder| adder.operands().map(|operand| operand.source));
        for source in sources
            .into_iter()
            .flatten()
            .filter(|_| read[number])
            .collect::<Vec<_>>()
        {
            read[usize::from(source)] = true;
        }
    }
    match (1..=MOST_ADDERS).find(|&number| read[number] != slots[number - 1].is_some()) {
        Some(number) => Err(Cause::NotAsRead.at(number)),
        None => Ok(()),
    }
}

fn values(slots: &Slots) -> Result<[Value; MOST_ADDERS + 1], Refusal> {
    let mut values = [0; MOST_ADDERS + 1];
    values[0] = 1;
    for (index, slot) in slots.iter().enumerate() {
        if let Some(adder) = slot {
            values[index + 1] = adder
                .value(&values)
                .ok_or(Cause::ValueOutOfRange.at(index + 1))?;
        }
    }
    Ok(values)
}

#[cfg(test)]
mod tests {
    use super::*;

    fn row(line: &str) -> Row {
        Row::from_chain(&Chain::read(line.as_bytes()).expect("a chain")).expect("a row")
    }

    #[test]
    fn a_move_as_blocks_tells_it() {
        let ten = row("chain=0.0+0.2 1");
        assert_eq!(ten.constant(), 10);
        assert_eq!(ten.moved(1, 1), Ok(row("chain=0.1+0.3 0")));
        assert_eq!(ten.moved(1, 2), Err(Cause::ShiftOutOfRange.at(0)));
        assert_eq!(ten.moved(2, 1), Err(Cause::AdderUnused.at(0)));
        assert_eq!(ten.moved(1, 31), Err(Cause::AmountOutOfRange.at(0)));
    }

    #[test]
    fn a_minus_adder_may_leave_its_range_when_moved() {
        let large = row("chain=0.29-0.28 2");
        assert_eq!(large.moved(1, 1).map(|row| row.constant()), Ok(1 << 30));
        let too_large = row("chain=0.4+0.0 1.26-0.30 1");
        assert_eq!(too_large.moved(2, 1), Err(Cause::ShiftOutOfRange.at(2)));
        let operand = row("chain=0.1+0.1 1.28-0.29 1");
        assert_eq!(operand.moved(2, 1), Err(Cause::ValueOutOfRange.at(2)));
    }

    #[test]
    fn the_lowest_adder_not_as_read_is_told() {
        let adder = |text: &str| {
            let chain = Chain::read(format!("chain={text} 0").as_bytes()).expect("a chain");
            Some(chain.adders()[0])
        };
        let mut slots = [None; MOST_ADDERS];
        slots[0] = adder("0.0+0.2");
        assert_eq!(
            Row::new(slots, Operand::new(0, 0)),
            Err(Cause::NotAsRead.at(1))
        );
        assert_eq!(
            Row::new(slots, Operand::new(2, 0)),
            Err(Cause::NotAsRead.at(1))
        );
        assert_eq!(
            Row::new(slots, Operand::new(9, 31)),
            Err(Cause::SourceNotLower.at(0))
        );
    }
}
