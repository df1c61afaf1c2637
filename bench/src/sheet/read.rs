//! Reading a sheet, line by line.

use crate::adder::{Adder, Operand, Sign, LARGEST_SHIFT, MOST_ADDERS};
use crate::block::{judge_width, Block, CODES};
use crate::chain::{operand, sign};
use crate::cursor::{Broken, Cursor};
use crate::planted::{self, Plant};
use crate::port::Port;
use crate::refusal::{Cause, Refusal};
use crate::row::{Row, Slots};
use crate::sheet::LONGEST;

/// A cause, its line, and for a broken row the row's own refusal.
#[derive(Clone, Copy, Debug, PartialEq, Eq)]
pub struct SheetRefusal {
    pub cause: Cause,
    pub line: usize,
    pub row: Option<Refusal>,
}

/// What may be said against a line, before its number is known.
enum Fault {
    Cause(Cause),
    Row(Refusal),
}

impl From<Broken> for Fault {
    fn from(_: Broken) -> Self {
        Fault::Cause(Cause::SheetForm)
    }
}

impl Fault {
    fn at(self, line: usize) -> SheetRefusal {
        match self {
            Fault::Cause(cause) => SheetRefusal {
                cause,
                line,
                row: None,
            },
            Fault::Row(refusal) => SheetRefusal {
                cause: Cause::RowBroken,
                line,
                row: Some(refusal),
            },
        }
    }
}

/// The inputs that the line of a port names, and which of them a row selects.
struct PortLine {
    port: Port,
    inputs: Vec<Operand>,
    selected: Vec<bool>,
}

impl PortLine {
    fn select(&mut self, number: u8) -> Result<Operand, Fault> {
        let number = usize::from(number);
        let input = *self
            .inputs
            .get(number)
            .ok_or(Fault::Cause(Cause::InputAbsent))?;
        self.selected[number] = true;
        Ok(input)
    }
}

/// What a code line says: for each adder an entry, and the output's input.
struct CodeLine {
    code: u8,
    entries: Vec<Option<(u8, Sign, u8)>>,
    output: u8,
}

pub fn read(sheet: &[u8]) -> Result<Block, SheetRefusal> {
    if sheet.len() > LONGEST {
        return Err(Fault::Cause(Cause::SheetTooLong).at(0));
    }
    let mut cursor = Cursor::new(sheet);
    let adders = adder_count(&mut cursor).map_err(|fault| fault.at(1))?;
    let width = width(&mut cursor).map_err(|fault| fault.at(2))?;
    let mut ports = Vec::new();
    let mut line = 3;
    for port in Port::of(adders) {
        ports.push(port_line(&mut cursor, port, adders).map_err(|fault| fault.at(line))?);
        line += 1;
    }
    let mut block =
        Block::bare(adders, width).map_err(|_| Fault::Cause(Cause::SheetLimit).at(2))?;
    let mut lowest = 0;
    while !cursor.is_at_end() {
        let code =
            add_row(&mut cursor, &mut ports, &mut block, lowest).map_err(|fault| fault.at(line))?;
        lowest = code + 1;
        line += 1;
    }
    let mut lines = (0..ports.len()).filter(|&index| ports[index].selected.contains(&false));
    let unselected = if planted::is(Plant::LastUnselected) {
        lines.next_back()
    } else {
        lines.next()
    };
    match unselected {
        Some(index) => Err(Fault::Cause(Cause::InputUnselected).at(index + 3)),
        None => Ok(block),
    }
}

fn adder_count(cursor: &mut Cursor) -> Result<usize, Fault> {
    cursor.key(b"adders=")?;
    let adders = usize::from(cursor.short()?);
    cursor.byte(b'\n')?;
    limit(adders <= MOST_ADDERS)?;
    Ok(adders)
}

fn width(cursor: &mut Cursor) -> Result<u64, Fault> {
    cursor.key(b"width=")?;
    let width = u64::from(cursor.short()?);
    cursor.byte(b'\n')?;
    limit(judge_width(width).is_ok())?;
    Ok(width)
}

fn limit(kept: bool) -> Result<(), Fault> {
    if kept {
        Ok(())
    } else {
        Err(Fault::Cause(Cause::SheetLimit))
    }
}

fn port_line(cursor: &mut Cursor, port: Port, adders: usize) -> Result<PortLine, Fault> {
    cursor.key(format!("{port}=").as_bytes())?;
    let mut inputs = Vec::new();
    if !cursor.skip(b'\n') {
        inputs.push(operand(cursor)?);
        while !cursor.skip(b'\n') {
            cursor.byte(b' ')?;
            inputs.push(operand(cursor)?);
        }
    }
    let repeated = (1..inputs.len()).any(|index| inputs[..index].contains(&inputs[index]));
    if repeated && planted::is(Plant::RepeatBeforeLimit) {
        return Err(Fault::Cause(Cause::InputRepeated));
    }
    limit(inputs.len() <= CODES && inputs.iter().all(|&input| is_allowed(input, port, adders)))?;
    if repeated {
        return Err(Fault::Cause(Cause::InputRepeated));
    }
    let selected = vec![false; inputs.len()];
    Ok(PortLine {
        port,
        inputs,
        selected,
    })
}

fn is_allowed(input: Operand, port: Port, adders: usize) -> bool {
    let highest = match port {
        Port::Left(number) | Port::Right(number) => number - 1,
        Port::Output => adders,
    };
    usize::from(input.source) <= highest && input.shift <= LARGEST_SHIFT
}

/// Reads a code line and puts its row into the block.
fn add_row(
    cursor: &mut Cursor,
    ports: &mut [PortLine],
    block: &mut Block,
    lowest: u8,
) -> Result<u8, Fault> {
    let line = code_line(cursor, block.adders())?;
    if line.code < lowest || usize::from(line.code) >= CODES {
        return Err(Fault::Cause(Cause::SheetForm));
    }
    let row = selected_row(&line, ports)?;
    block.fill(u64::from(line.code), row).map_err(Fault::Row)?;
    Ok(line.code)
}

fn code_line(cursor: &mut Cursor, adders: usize) -> Result<CodeLine, Broken> {
    cursor.byte(b's')?;
    let code = cursor.digit()? * 10 + cursor.digit()?;
    cursor.byte(b'=')?;
    let entries = (0..adders)
        .map(|_| entry(cursor))
        .collect::<Result<_, _>>()?;
    let output = cursor.short()?;
    cursor.byte(b'\n')?;
    Ok(CodeLine {
        code,
        entries,
        output,
    })
}

fn entry(cursor: &mut Cursor) -> Result<Option<(u8, Sign, u8)>, Broken> {
    if cursor.skip(b'-') {
        cursor.byte(b' ')?;
        return Ok(None);
    }
    let entry = (cursor.short()?, sign(cursor)?, cursor.short()?);
    cursor.byte(b' ')?;
    Ok(Some(entry))
}

fn selected_row(line: &CodeLine, ports: &mut [PortLine]) -> Result<Row, Fault> {
    let mut slots: Slots = [None; MOST_ADDERS];
    let mut output = Operand::new(0, 0);
    for port in ports {
        match port.port {
            Port::Left(number) => {
                let Some((left, sign, _)) = line.entries[number - 1] else {
                    continue;
                };
                let left = port.select(left)?;
                slots[number - 1] = Some(Adder {
                    left,
                    sign,
                    right: left,
                });
            }
            Port::Right(number) => {
                let Some((_, _, right)) = line.entries[number - 1] else {
                    continue;
                };
                let right = port.select(right)?;
                slots[number - 1] = slots[number - 1].map(|adder| Adder { right, ..adder });
            }
            Port::Output => output = port.select(line.output)?,
        }
    }
    Row::new(slots, output).map_err(Fault::Row)
}

#[cfg(test)]
mod tests {
    use super::*;

    const SHEET: &str = "adders=2\nwidth=16\n1L=0.0\n1R=0.2 0.1\n2L=1.0\n2R=1.3 0.4\nout=2.0\n\
                         s00=0+0 0+0 0\ns01=0+1 0+1 0\n";

    fn told(sheet: &str) -> Option<(u8, usize)> {
        read(sheet.as_bytes())
            .err()
            .map(|refusal| (refusal.cause.number(), refusal.line))
    }

    #[test]
    fn the_sheets_of_the_refusals() {
        let cases = [
            ("2L=1.0\n", "", (41, 5)),
            ("adders=2", "adders=02", (41, 1)),
            ("adders=2", "adders=9", (42, 1)),
            ("1L=0.0", "1L=1.0", (42, 3)),
            ("1R=0.2 0.1", "1R=0.2 0.1 0.2", (43, 4)),
            ("s01=0+1 0+1 0", "s01=0+2 0+1 0", (44, 9)),
            ("s01=0+1 0+1 0", "s01=- 0+1 0", (45, 9)),
            ("1R=0.2 0.1", "1R=0.2 0.1 0.5", (46, 4)),
            ("s01=0+1 0+1 0\n", "", (46, 4)),
            (
                "s01=0+1 0+1 0\n",
                "s01=0+1 0+1 0\ns16=0+0 0+0 0\n",
                (41, 10),
            ),
        ];
        for (from, to, refusal) in cases {
            assert_eq!(told(&SHEET.replace(from, to)), Some(refusal), "{to}");
        }
        assert_eq!(told(&SHEET[..SHEET.len() - 1]), Some((41, 9)));
    }

    #[test]
    fn a_broken_row_carries_its_own_refusal() {
        let sheet = SHEET.replace("s01=0+1 0+1 0", "s01=- 0+1 0");
        let row = read(sheet.as_bytes()).err().and_then(|refusal| refusal.row);
        assert_eq!(row, Some(Cause::NotAsRead.at(1)));
    }

    #[test]
    fn the_sheet_is_that_of_its_block() {
        let block = read(SHEET.as_bytes()).expect("a sheet");
        let constants: Vec<i64> = block.live_rows().map(Row::constant).collect();
        assert_eq!(constants, [45, 19]);
        let ascending = SHEET
            .replace("1R=0.2 0.1", "1R=0.1 0.2")
            .replace("2R=1.3 0.4", "2R=0.4 1.3");
        let ascending = ascending
            .replace("s00=0+0 0+0", "s00=0+1 0+1")
            .replace("s01=0+1 0+1", "s01=0+0 0+0");
        assert_eq!(
            String::from_utf8(crate::sheet::write(&block)),
            Ok(ascending)
        );
        assert_eq!(crate::depth::depth(&block), 4);
    }
}
