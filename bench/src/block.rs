//! Blocks: shared adders, and sixteen select codes with a row each, or none.

use crate::adder::MOST_ADDERS;
use crate::chain::Chain;
use crate::refusal::{Cause, Refusal};
use crate::row::Row;

/// The number of select codes.
pub const CODES: usize = 16;

const LARGEST_WIDTH: u64 = 32;

#[derive(Clone, Debug, PartialEq, Eq)]
pub struct Block {
    adders: usize,
    width: u32,
    rows: [Option<Row>; CODES],
}

impl Block {
    /// The place that is not yet founded.
    pub fn unfounded() -> Self {
        Block {
            adders: 0,
            width: 1,
            rows: [None; CODES],
        }
    }

    /// A block without a live code.
    pub fn bare(adders: usize, width: u64) -> Result<Self, Refusal> {
        if adders > MOST_ADDERS {
            return Err(Cause::TooManyAdders.at(MOST_ADDERS + 1));
        }
        Ok(Block {
            adders,
            width: judge_width(width)?,
            rows: [None; CODES],
        })
    }

    /// Starts anew with a chain at a code; whatever was there is discarded.
    pub fn found(&mut self, chain: &Chain, code: u64, width: u64) -> Result<(), Refusal> {
        let code = judge_code(code)?;
        let mut block = Block::bare(chain.adders().len(), width)?;
        block.rows[code] = Some(Row::from_chain(chain)?);
        *self = block;
        Ok(())
    }

    pub fn retire(&mut self, code: u64) -> Result<(), Refusal> {
        let code = self.live(code)?.0;
        self.rows[code] = None;
        Ok(())
    }

    pub fn move_shifts(&mut self, code: u64, adder: u64, amount: i64) -> Result<(), Refusal> {
        let (code, row) = self.live(code)?;
        self.rows[code] = Some(row.moved(adder, amount)?);
        Ok(())
    }

    /// The code as an index, where it is one of the sixteen and idle.
    pub fn idle(&self, code: u64) -> Result<usize, Refusal> {
        let code = judge_code(code)?;
        match self.rows[code] {
            Some(_) => Err(Cause::CodeLive.at(0)),
            None => Ok(code),
        }
    }

    /// Puts a row at an idle code.
    pub fn fill(&mut self, code: u64, row: Row) -> Result<(), Refusal> {
        let code = self.idle(code)?;
        if row.highest() > self.adders {
            return Err(Cause::BlockTooSmall.at(0));
        }
        self.rows[code] = Some(row);
        Ok(())
    }

    pub fn adders(&self) -> usize {
        self.adders
    }

    pub fn width(&self) -> u32 {
        self.width
    }

    pub fn row(&self, code: usize) -> Option<&Row> {
        self.rows[code].as_ref()
    }

    pub fn live_rows(&self) -> impl Iterator<Item = &Row> {
        self.rows.iter().flatten()
    }

    /// The live codes with their rows, ascending.
    pub fn live_codes(&self) -> impl Iterator<Item = (usize, &Row)> {
        self.rows
            .iter()
            .enumerate()
            .filter_map(|(code, row)| row.as_ref().map(|row| (code, row)))
    }

    fn live(&self, code: u64) -> Result<(usize, Row), Refusal> {
        let code = judge_code(code)?;
        self.rows[code]
            .map(|row| (code, row))
            .ok_or(Cause::CodeIdle.at(0))
    }
}

fn judge_code(code: u64) -> Result<usize, Refusal> {
    usize::try_from(code)
        .ok()
        .filter(|&code| code < CODES)
        .ok_or(Cause::CodeAboveFifteen.at(0))
}

pub fn judge_width(width: u64) -> Result<u32, Refusal> {
    if (1..=LARGEST_WIDTH).contains(&width) {
        Ok(width as u32)
    } else {
        Err(Cause::WidthOutOfRange.at(0))
    }
}

#[cfg(test)]
mod tests {
    use super::*;

    fn chain(line: &str) -> Chain {
        Chain::read(line.as_bytes()).expect("a chain")
    }

    #[test]
    fn a_founding_discards_what_was_there() {
        let mut block = Block::unfounded();
        assert_eq!(block.found(&chain("chain=0.0+0.2 0"), 3, 16), Ok(()));
        assert_eq!(block.found(&chain("chain=1"), 0, 32), Ok(()));
        assert_eq!(
            (block.adders(), block.width(), block.live_rows().count()),
            (0, 32, 1)
        );
    }

    #[test]
    fn a_code_is_judged_before_a_width() {
        let mut block = Block::unfounded();
        assert_eq!(
            block.found(&chain("chain=0"), 16, 33),
            Err(Cause::CodeAboveFifteen.at(0))
        );
        assert_eq!(
            block.found(&chain("chain=0"), 15, 33),
            Err(Cause::WidthOutOfRange.at(0))
        );
        assert_eq!(block.retire(15), Err(Cause::CodeIdle.at(0)));
        assert_eq!(block, Block::unfounded());
    }
}
