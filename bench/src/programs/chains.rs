//! `constants`, `multiples`, `products` and the host on chain lines: chains and what they make of samples.

use crate::arithmetic::{run, Frame, Residue, Word};
use crate::block::Block;
use crate::chain::Chain;
use crate::cursor::{lines, Broken};
use crate::integer::read_integer;
use crate::programs::Fault;
use crate::refusal::{Cause, Refusal};
use crate::row::Row;

pub fn constants(input: &[u8]) -> Vec<u8> {
    let report = |line| match Chain::read(line) {
        Ok(chain) => format!("constant={}\n", chain.constant()),
        Err(Refusal { cause, place }) => format!("fault={}\nplace={place}\n", cause.number()),
    };
    lines(input).map(report).collect::<String>().into_bytes()
}

/// A host is told no places.
pub fn host(input: &[u8]) -> Vec<u8> {
    let report = |line| match Chain::read(line) {
        Ok(chain) => format!("constant={}\n", chain.constant()),
        Err(refusal) => format!("fault={}\n", refusal.cause.number()),
    };
    lines(input).map(report).collect::<String>().into_bytes()
}

pub fn multiples(input: &[u8]) -> Vec<u8> {
    let mut text = String::new();
    let mut lines = lines(input).zip(1..);
    let row = match first_chain(lines.next()) {
        Ok(row) => row,
        Err(fault) => return fault.to_string().into_bytes(),
    };
    text += &format!("constant={}\n", row.constant());
    for (line, number) in lines {
        text += &match integer(line, number) {
            Ok(sample) => multiple(&row, sample),
            Err(fault) => fault.to_string(),
        };
    }
    text.into_bytes()
}

fn first_chain(line: Option<(&[u8], usize)>) -> Result<Row, Fault> {
    let (line, number) = line.ok_or(Fault::missing(1))?;
    let chain = Chain::read(line).and_then(|chain| Row::from_chain(&chain));
    chain.map_err(|refusal| refusal.on(number))
}

fn multiple(row: &Row, sample: i64) -> String {
    let word = Word(sample);
    let residues = Frame(
        Residue::<255>::from_integer(sample),
        Residue::<257>::from_integer(sample),
    );
    let framed = run(row, Frame(word, residues));
    let word = run(row, word).0;
    let (mod255, mod257) = (run(row, residues.0).0, run(row, residues.1).0);
    let frame = format!("{} {} {}", framed.0 .0, framed.1 .0 .0, framed.1 .1 .0);
    format!("word={word}\nmod255={mod255}\nmod257={mod257}\nframe={frame}\n")
}

fn integer(line: &[u8], number: usize) -> Result<i64, Fault> {
    read_integer(line).map_err(|Broken(place)| Cause::BrokenForm.at(place).on(number))
}

pub fn products(input: &[u8]) -> Vec<u8> {
    let mut text = String::new();
    if let Err(fault) = products_into(input, &mut text) {
        text += &fault.to_string();
    }
    text.into_bytes()
}

/// What the first four lines of `products` say.
struct Head {
    chain: Chain,
    code: u64,
    adder: u64,
    amount: i64,
}

/// Writes what is printed; the fault that it answers is the last to be told.
fn products_into(input: &[u8], text: &mut String) -> Result<(), Fault> {
    let mut lines = lines(input).zip(1..);
    let Head {
        chain,
        code,
        adder,
        amount,
    } = head(&mut lines)?;
    let mut block = Block::unfounded();
    block
        .found(&chain, code, 32)
        .map_err(|refusal| refusal.on(2))?;
    *text += &format!("constant={}\n", chain.constant());
    let before = block.clone();
    if let Err(refusal) = block.move_shifts(code, adder, amount) {
        let line = if refusal.cause == Cause::AdderUnused {
            3
        } else {
            4
        };
        *text += &refusal.on(line).to_string();
    }
    for (line, number) in lines {
        *text += &match integer(line, number) {
            Ok(sample) => {
                let product = |block: &Block| {
                    block
                        .row(code as usize)
                        .map_or(0, |row| run(row, Word(sample)).0)
                };
                format!("before={}\nafter={}\n", product(&before), product(&block))
            }
            Err(fault) => fault.to_string(),
        };
    }
    Ok(())
}

fn head<'a>(lines: &mut impl Iterator<Item = (&'a [u8], usize)>) -> Result<Head, Fault> {
    let (line, _) = lines.next().ok_or(Fault::missing(1))?;
    let chain = Chain::read(line).map_err(|refusal| refusal.on(1))?;
    let mut next = |number| {
        let (line, _) = lines.next().ok_or(Fault::missing(number))?;
        integer(line, number)
    };
    // A number below 0 names no code and no adder, as one above all of them.
    let code = u64::try_from(next(2)?).unwrap_or(u64::MAX);
    let adder = u64::try_from(next(3)?).unwrap_or(u64::MAX);
    Ok(Head {
        chain,
        code,
        adder,
        amount: next(4)?,
    })
}
