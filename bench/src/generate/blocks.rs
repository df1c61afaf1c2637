//! Blocks whose rows stand at admissible places, without a search.

use crate::adder::MOST_ADDERS;
use crate::block::{Block, CODES};
use crate::chain::Chain;
use crate::fusing::{place_lists, placed, swap_lists};
use crate::generate::chains;
use crate::random::Random;
use crate::row::Row;

/// A block of random adders, width and live codes.
pub fn any(random: &mut Random) -> Block {
    let adders = chains::count(random, MOST_ADDERS);
    let live = random.pick(&[0, 1, 2, 3, 5, 8, 12, 16]);
    let reach = chains::reach(random);
    of(random, adders, live, |random| {
        let count = chains::count(random, adders);
        chains::valid(random, count, reach)
    })
}

/// Sixteen live codes, each with a row of eight adders.
pub fn full(random: &mut Random) -> Block {
    of(random, MOST_ADDERS, CODES, |random| {
        chains::valid(random, MOST_ADDERS, 3)
    })
}

/// A block of so many adders and live codes, with a chain drawn for each.
fn of(
    random: &mut Random,
    adders: usize,
    live: usize,
    mut chain: impl FnMut(&mut Random) -> Chain,
) -> Block {
    let width = random.between(1, 32) as u64;
    let mut block = Block::bare(adders, width).unwrap_or_else(|_| Block::unfounded());
    let mut codes: Vec<usize> = (0..CODES).collect();
    random.shuffle(&mut codes);
    for &code in &codes[..live] {
        let chain = chain(random);
        if let Some(row) = placed_anywhere(random, &chain, adders) {
            // A row over the block's own adders at an idle code is never refused.
            let _ = block.fill(code as u64, row);
        }
    }
    block
}

fn placed_anywhere(random: &mut Random, chain: &Chain, adders: usize) -> Option<Row> {
    let lists = place_lists(chain, adders);
    let swaps: Vec<u32> = swap_lists(chain).collect();
    let list = lists.get(random.below(lists.len().max(1)))?;
    placed(chain, list, random.pick(&swaps)).ok()
}
