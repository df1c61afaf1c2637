//! Depth: how many adders and two-way multiplexers stand one behind the other.

use crate::adder::MOST_ADDERS;
use crate::block::Block;
use crate::planted::{self, Plant};
use crate::port::Port;
use crate::price::bits;

/// The depth of the sample and of each adder.
type Depths = [u32; MOST_ADDERS + 1];

pub fn depth(block: &Block) -> u32 {
    let mut depths: Depths = [0; MOST_ADDERS + 1];
    for number in 1..=block.adders() {
        let ports = [Port::Left(number), Port::Right(number)];
        let deeper = ports
            .map(|port| port_depth(block, port, &depths))
            .into_iter()
            .max();
        let is_used = block.live_rows().any(|row| row.adder(number).is_some());
        depths[number] = if is_used { 1 + deeper.unwrap_or(0) } else { 0 };
    }
    port_depth(block, Port::Output, &depths)
}

/// The sources of a port are lower than its adder, so their depths are known.
fn port_depth(block: &Block, port: Port, depths: &Depths) -> u32 {
    let inputs = port.inputs(block);
    let inputs = inputs.as_slice();
    let levels = match planted::is(Plant::NoLevels) {
        true => 0,
        false => bits(inputs.len() as i64),
    };
    let sources = inputs.iter().map(|input| depths[usize::from(input.source)]);
    sources.max().map_or(0, |deepest| levels + deepest)
}
