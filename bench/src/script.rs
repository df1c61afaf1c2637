//! Lines of a script of calls, and the generator's width line.

use crate::block::{judge_width, Block};
use crate::chain::{Chain, LONGEST_LINE};
use crate::cursor::{Broken, Cursor};
use crate::fusing::fuse;
use crate::planted::{self, Plant};
use crate::price::{PriceList, UnitPrices};
use crate::refusal::{Cause, Refusal};

/// A call on a block by its arguments.
#[derive(Clone, Debug, PartialEq, Eq)]
pub enum Call {
    Found {
        chain: Chain,
        code: u64,
        width: u64,
    },
    Fuse {
        chain: Chain,
        code: u64,
        list: PriceList,
    },
    Retire {
        code: u64,
    },
    Move {
        code: u64,
        adder: u64,
        amount: i64,
    },
}

/// Why a line of a script makes no call.
#[derive(Clone, Copy, Debug, PartialEq, Eq)]
pub enum NoCall {
    Unreadable,
    Refused(Refusal),
}

impl From<Broken> for NoCall {
    fn from(_: Broken) -> Self {
        NoCall::Unreadable
    }
}

impl From<Refusal> for NoCall {
    fn from(refusal: Refusal) -> Self {
        NoCall::Refused(refusal)
    }
}

impl Call {
    pub fn read(line: &[u8]) -> Result<Self, NoCall> {
        let space = line
            .iter()
            .position(|&byte| byte == b' ')
            .ok_or(NoCall::Unreadable)?;
        let mut cursor = Cursor::new(&line[space + 1..]);
        match &line[..space] {
            b"found" => Call::read_found(&mut cursor),
            b"fuse" => Call::read_fuse(&mut cursor),
            b"retire" => {
                let code = cursor.number(9)?;
                cursor.end()?;
                Ok(Call::Retire { code })
            }
            b"move" => Ok(Call::read_move(&mut cursor)?),
            _ => Err(NoCall::Unreadable),
        }
    }

    fn read_found(cursor: &mut Cursor) -> Result<Self, NoCall> {
        let code = word(cursor)?;
        let width = word(cursor)?;
        let chain = Chain::read(chain_line(cursor)?)?;
        Ok(Call::Found { chain, code, width })
    }

    /// Unit prices are judged before the chain is read, but only in a line
    /// that says a call.
    fn read_fuse(cursor: &mut Cursor) -> Result<Self, NoCall> {
        let code = word(cursor)?;
        let units = units(cursor)?;
        let line = chain_line(cursor)?;
        if planted::is(Plant::ChainFirst) {
            Chain::read(line)?;
        }
        let list = match units {
            Some(units) => PriceList::PerBit(UnitPrices::new(units)?),
            None => PriceList::Count,
        };
        Ok(Call::Fuse {
            chain: Chain::read(line)?,
            code,
            list,
        })
    }

    fn read_move(cursor: &mut Cursor) -> Result<Self, Broken> {
        let code = word(cursor)?;
        let adder = word(cursor)?;
        let is_negative = cursor.skip(b'-');
        let amount = cursor.number(9)? as i64;
        cursor.end()?;
        Ok(Call::Move {
            code,
            adder,
            amount: if is_negative { -amount } else { amount },
        })
    }

    /// Makes the call, and answers the price where it is a fusing.
    pub fn make(&self, block: &mut Block) -> Result<Option<u64>, Refusal> {
        match self {
            Call::Found { chain, code, width } => block.found(chain, *code, *width).map(|()| None),
            Call::Fuse { chain, code, list } => fuse(block, chain, *code, *list).map(Some),
            Call::Retire { code } => block.retire(*code).map(|()| None),
            Call::Move {
                code,
                adder,
                amount,
            } => block.move_shifts(*code, *adder, *amount).map(|()| None),
        }
    }
}

/// A number and the space after it.
fn word(cursor: &mut Cursor) -> Result<u64, Broken> {
    let number = cursor.number(9)?;
    cursor.byte(b' ')?;
    Ok(number)
}

/// The four unit prices, or nothing for `count`.
fn units(cursor: &mut Cursor) -> Result<Option<[u64; 4]>, Broken> {
    if cursor.peek() == Some(b'c') {
        cursor.key(b"count ")?;
        return Ok(None);
    }
    Ok(Some([
        word(cursor)?,
        word(cursor)?,
        word(cursor)?,
        word(cursor)?,
    ]))
}

fn chain_line<'a>(cursor: &mut Cursor<'a>) -> Result<&'a [u8], Broken> {
    let line = cursor.rest();
    cursor.key(b"chain=")?;
    Ok(line)
}

/// Reads the generator's width line.
pub fn read_width(line: &[u8]) -> Result<u32, Refusal> {
    if line.len() > LONGEST_LINE {
        return Err(Cause::BrokenForm.at(LONGEST_LINE));
    }
    let width = parse_width(line).map_err(|Broken(place)| Cause::BrokenForm.at(place))?;
    judge_width(width)
}

fn parse_width(line: &[u8]) -> Result<u64, Broken> {
    let mut cursor = Cursor::new(line);
    cursor.key(b"width=")?;
    let width = cursor.number(2)?;
    cursor.end()?;
    Ok(width)
}

#[cfg(test)]
mod tests {
    use super::*;

    #[test]
    fn the_unreadable_lines_of_the_formats() {
        for line in [
            "found 0 16",
            "found 0 16 chain",
            "retire 03",
            "retire 3 ",
            "move 0 2 +1",
            "move 0 2 --1",
            "",
        ] {
            assert_eq!(
                Call::read(line.as_bytes()),
                Err(NoCall::Unreadable),
                "{line}"
            );
        }
    }

    #[test]
    fn the_readable_lines_of_the_formats() {
        let refused = |line: &str| Call::read(line.as_bytes()).err();
        assert_eq!(
            refused("found 0 16 chain=07"),
            Some(NoCall::Refused(Cause::BrokenForm.at(7)))
        );
        assert_eq!(
            refused("fuse 0 1001 5 6 2 chain="),
            Some(NoCall::Refused(Cause::UnitTooHigh.at(0)))
        );
        assert_eq!(
            Call::read(b"retire 999999999"),
            Ok(Call::Retire { code: 999_999_999 })
        );
        assert_eq!(
            Call::read(b"move 0 2 -0"),
            Ok(Call::Move {
                code: 0,
                adder: 2,
                amount: 0
            })
        );
    }

    #[test]
    fn the_widths_of_the_formats() {
        assert_eq!(read_width(b"width=16"), Ok(16));
        let cases: [(&[u8], Refusal); 5] = [
            (b"width=100", Cause::BrokenForm.at(8)),
            (b"width=07", Cause::BrokenForm.at(7)),
            (b"width=", Cause::BrokenForm.at(6)),
            (b"width=0", Cause::WidthOutOfRange.at(0)),
            (b"width=33", Cause::WidthOutOfRange.at(0)),
        ];
        for (line, refusal) in cases {
            assert_eq!(read_width(line), Err(refusal));
        }
    }

    #[test]
    fn a_width_line_of_more_than_200_bytes_is_too_long() {
        let line = [b"width=" as &[u8], &[b'1'; 200]].concat();
        assert_eq!(read_width(&line[..200]), Err(Cause::BrokenForm.at(8)));
        assert_eq!(read_width(&line[..201]), Err(Cause::BrokenForm.at(200)));
    }
}
