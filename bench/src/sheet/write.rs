//! Writing a block's sheet.

use std::io::Write;

use crate::adder::{Adder, Operand};
use crate::block::Block;
use crate::port::Port;
use crate::row::Row;

/// The sheet with each port's inputs ascending.
pub fn write(block: &Block) -> Vec<u8> {
    let mut sheet = Vec::new();
    write_into(block, &mut sheet);
    sheet
}

/// The same, over what a buffer held.
pub fn write_into(block: &Block, sheet: &mut Vec<u8>) {
    sheet.clear();
    write_in_order(block, sheet, |port| port.inputs(block).as_slice().to_vec());
}

/// The sheet with the inputs of each port in the order handed in, put at the
/// end of a buffer.
pub fn write_in_order(
    block: &Block,
    sheet: &mut Vec<u8>,
    inputs: impl FnMut(Port) -> Vec<Operand>,
) {
    let inputs: Vec<Vec<Operand>> = Port::of(block.adders()).map(inputs).collect();
    // Nothing that is written into memory fails, so what `write!` answers is left.
    let _ = write!(
        sheet,
        "adders={}\nwidth={}\n",
        block.adders(),
        block.width()
    );
    for (port, inputs) in Port::of(block.adders()).zip(&inputs) {
        port_line(sheet, port, inputs);
    }
    for (code, row) in block.live_codes() {
        code_line(sheet, code, row, block.adders(), &inputs);
    }
}

fn port_line(sheet: &mut Vec<u8>, port: Port, inputs: &[Operand]) {
    let _ = write!(sheet, "{port}=");
    for (index, input) in inputs.iter().enumerate() {
        let _ = write!(sheet, "{}{input}", if index == 0 { "" } else { " " });
    }
    sheet.push(b'\n');
}

fn code_line(sheet: &mut Vec<u8>, code: usize, row: &Row, adders: usize, inputs: &[Vec<Operand>]) {
    let number = |port: usize, operand: Operand| {
        let place = inputs[port].iter().position(|&input| input == operand);
        place.unwrap_or_default()
    };
    let _ = write!(sheet, "s{code:02}=");
    for index in 0..adders {
        let _ = match row.adder(index + 1) {
            Some(Adder { left, sign, right }) => {
                write!(
                    sheet,
                    "{}{sign}{} ",
                    number(2 * index, left),
                    number(2 * index + 1, right)
                )
            }
            None => write!(sheet, "- "),
        };
    }
    let _ = writeln!(sheet, "{}", number(2 * adders, row.output()));
}
