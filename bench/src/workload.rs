//! Work that is timed, the same in both implementations.
//!
//! The first line of the input names the work and how often it is done, and
//! the rest is its material. What stands around the work, reading the input
//! above all, is done once, so the time of two repeat counts tells the time of
//! one repetition.

use std::error::Error;
use std::hint::black_box;

use crate::block::Block;
use crate::chain::Chain;
use crate::cursor::lines;
use crate::fusing::fuse;
use crate::price::{price, PriceList};
use crate::row::Row;
use crate::script::read_width;
use crate::sheet;

type Answer = Result<String, Box<dyn Error>>;

/// Does the work of an input, and answers the line to print.
pub fn perform(input: &[u8]) -> Answer {
    let end = input
        .iter()
        .position(|&byte| byte == b'\n')
        .ok_or("there is no first line")?;
    let first = std::str::from_utf8(&input[..end])?;
    let material = &input[end + 1..];
    let (work, count) = first
        .split_once(' ')
        .ok_or("the first line is a work and a count")?;
    let count: u64 = count.parse()?;
    if count == 0 {
        return Err("the count is at least 1".into());
    }
    match work {
        "fuse" => fuse_all(material, count),
        "run" => multiply_all(material, count),
        "read" => read_sheet(material, count),
        "write" => write_sheet(material, count),
        _ => Err(format!("no work is called {work}").into()),
    }
}

/// Founds a block with the first chain and fuses the others.
fn fuse_all(material: &[u8], count: u64) -> Answer {
    let mut lines = lines(material);
    let width = read_width(lines.next().ok_or("there is no width")?).map_err(told)?;
    let chains: Vec<Chain> = lines
        .map(Chain::read)
        .collect::<Result<_, _>>()
        .map_err(told)?;
    let mut block = Block::unfounded();
    for _ in 0..count {
        block = fused(black_box(&chains), u64::from(width))?;
        black_box(&block);
    }
    Ok(format!("price={}\n", price(&block, PriceList::Count)))
}

fn fused(chains: &[Chain], width: u64) -> Result<Block, Box<dyn Error>> {
    let (first, others) = chains.split_first().ok_or("there is no chain")?;
    let mut block = Block::unfounded();
    block.found(first, 0, width).map_err(told)?;
    for (chain, code) in others.iter().zip(1..) {
        fuse(&mut block, chain, code, PriceList::Count).map_err(told)?;
    }
    Ok(block)
}

/// A plain loop of multiplications over a buffer of samples.
fn multiply_all(material: &[u8], count: u64) -> Answer {
    let mut lines = lines(material);
    let chain = Chain::read(lines.next().ok_or("there is no chain")?).map_err(told)?;
    let samples = lines.next().and_then(|line| line.strip_prefix(b"samples="));
    let samples: usize =
        std::str::from_utf8(samples.ok_or("there is no count of samples")?)?.parse()?;
    let input: Vec<u64> = (0..samples as u64).map(sample).collect();
    let mut output = vec![0; samples];
    let last = samples.checked_sub(1).ok_or("there are no samples")?;
    let mut digest: u64 = 0;
    for round in 0..count {
        multiply(
            black_box(chain.constant() as u64),
            black_box(&input),
            &mut output,
        );
        let output = black_box(&output);
        let folded = output[last].wrapping_add(output[(round % samples as u64) as usize]);
        digest = digest.wrapping_add(folded);
    }
    Ok(format!("digest={digest}\n"))
}

fn sample(index: u64) -> u64 {
    index
        .wrapping_mul(6_364_136_223_846_793_005)
        .wrapping_add(1_442_695_040_888_963_407)
}

fn multiply(constant: u64, input: &[u64], output: &mut [u64]) {
    for (product, sample) in output.iter_mut().zip(input) {
        *product = sample.wrapping_mul(constant);
    }
}

fn read_sheet(material: &[u8], count: u64) -> Answer {
    let mut sum = 0;
    for _ in 0..count {
        let block = sheet::read(black_box(material)).map_err(told)?;
        sum = black_box(&block).live_rows().map(Row::constant).sum();
    }
    Ok(format!("sum={sum}\n"))
}

fn write_sheet(material: &[u8], count: u64) -> Answer {
    let block = sheet::read(material).map_err(told)?;
    let mut buffer = Vec::new();
    for _ in 0..count {
        sheet::write_into(black_box(&block), &mut buffer);
        black_box(&buffer);
    }
    Ok(format!("length={}\n", buffer.len()))
}

fn told(refusal: impl std::fmt::Debug) -> Box<dyn Error> {
    format!("{refusal:?}").into()
}

#[cfg(test)]
mod tests {
    use super::*;

    fn answer(input: &str) -> Option<String> {
        perform(input.as_bytes()).ok()
    }

    #[test]
    fn each_work_answers() {
        let sheet = "adders=2\nwidth=16\n1L=0.0\n1R=0.2 0.1\n2L=1.0\n2R=1.3 0.4\nout=2.0\n\
                     s00=0+0 0+0 0\ns01=0+1 0+1 0\n";
        let chains = "width=16\nchain=0.0+0.2 1.0+1.3 0\nchain=0.0+0.1 1.0+0.4 0\n";
        assert_eq!(
            answer(&format!("fuse 3\n{chains}")).as_deref(),
            Some("price=2\n")
        );
        assert_eq!(
            answer(&format!("read 3\n{sheet}")).as_deref(),
            Some("sum=64\n")
        );
        let length = format!("length={}\n", sheet.len());
        assert_eq!(answer(&format!("write 3\n{sheet}")), Some(length));
        assert_eq!(answer(&format!("fuse 0\n{chains}")), None);
    }

    #[test]
    fn the_digest_adds_the_last_product_and_that_of_the_round() {
        let products = [0, 1, 2].map(|index| sample(index).wrapping_mul(5));
        let folded = |round: usize| products[2].wrapping_add(products[round]);
        let digest = folded(0).wrapping_add(folded(1));
        assert_eq!(
            answer("run 2\nchain=0.0+0.2 0\nsamples=3\n"),
            Some(format!("digest={digest}\n"))
        );
    }
}
