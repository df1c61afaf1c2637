//! Fusing a chain at an idle code: every admissible placement is listed, with
//! every choice of swaps, and the whole block is priced for each.

use crate::adder::{Adder, Operand, Sign, MOST_ADDERS};
use crate::block::Block;
use crate::chain::Chain;
use crate::planted::{self, Plant};
use crate::price::{price, PriceList};
use crate::refusal::{Cause, Refusal};
use crate::row::{Row, Slots};

/// Where each adder of a chain stands, from adder 1.
pub type Places = Vec<u8>;

/// Puts the chain at the code, and answers what the block costs then.
pub fn fuse(block: &mut Block, chain: &Chain, code: u64, list: PriceList) -> Result<u64, Refusal> {
    block.idle(code)?;
    if chain.adders().len() > block.adders() {
        return Err(Cause::BlockTooSmall.at(0));
    }
    let (fused, price) = cheapest(block, chain, code, list)?;
    *block = fused;
    Ok(price)
}

/// The first of the cheapest, since placements come in their order.
fn cheapest(
    block: &Block,
    chain: &Chain,
    code: u64,
    list: PriceList,
) -> Result<(Block, u64), Refusal> {
    let mut best: Option<(Block, u64)> = None;
    for places in place_lists(chain, block.adders()) {
        for swaps in swap_lists(chain) {
            let mut fused = block.clone();
            fused.fill(code, placed(chain, &places, swaps)?)?;
            let price = price(&fused, list);
            let is_better = match &best {
                Some((_, least)) if planted::is(Plant::LastOfEquals) => price <= *least,
                Some((_, least)) => price < *least,
                None => true,
            };
            if is_better {
                best = Some((fused, price));
            }
        }
    }
    best.ok_or(Cause::BlockTooSmall.at(0))
}

/// All lists of places, the lower ones first.
pub fn place_lists(chain: &Chain, adders: usize) -> Vec<Places> {
    let mut lists = Vec::new();
    extend(chain, adders, &mut Vec::new(), &mut lists);
    if planted::is(Plant::PlacesFromLast) {
        lists.sort_by_key(|places| places.iter().rev().copied().collect::<Places>());
    }
    lists
}

fn extend(chain: &Chain, adders: usize, places: &mut Places, lists: &mut Vec<Places>) {
    let Some(&adder) = chain.adders().get(places.len()) else {
        lists.push(places.clone());
        return;
    };
    let above = adder
        .operands()
        .map(|operand| place_of(places, operand.source))
        .into_iter()
        .max();
    for place in above.unwrap_or(0) + 1..=adders as u8 {
        if !places.contains(&place) {
            places.push(place);
            extend(chain, adders, places, lists);
            places.pop();
        }
    }
}

fn place_of(places: &[u8], source: u8) -> u8 {
    match source {
        0 => 0,
        source => places[usize::from(source) - 1],
    }
}

/// All choices of swaps that swap no minus adder. Adder 1 has the highest bit,
/// so ascending choices are in the order of placements.
pub fn swap_lists(chain: &Chain) -> impl Iterator<Item = u32> {
    let bit = |adder: &Adder| u32::from(adder.sign == Sign::Minus);
    let minus = chain
        .adders()
        .iter()
        .fold(0, |bits, adder| bits << 1 | bit(adder));
    (0..1 << chain.adders().len()).filter(move |swaps| swaps & minus == 0)
}

/// The row of a placement.
pub fn placed(chain: &Chain, places: &[u8], swaps: u32) -> Result<Row, Refusal> {
    let count = chain.adders().len();
    let moved = |operand: Operand| Operand {
        source: place_of(places, operand.source),
        ..operand
    };
    let mut slots: Slots = [None; MOST_ADDERS];
    for (index, (&adder, &place)) in chain.adders().iter().zip(places).enumerate() {
        let adder = Adder {
            left: moved(adder.left),
            right: moved(adder.right),
            ..adder
        };
        let swap = swaps >> (count - 1 - index) & 1 == 1;
        slots[usize::from(place) - 1] = Some(if swap { adder.swapped() } else { adder });
    }
    Row::new(
        slots,
        Operand::new(place_of(places, count as u8), chain.shift()),
    )
}

#[cfg(test)]
mod tests {
    use super::*;

    fn chain(line: &str) -> Chain {
        Chain::read(line.as_bytes()).expect("a chain")
    }

    fn founded(line: &str) -> Block {
        let mut block = Block::unfounded();
        block.found(&chain(line), 0, 16).expect("a founding");
        block
    }

    #[test]
    fn a_swap_has_to_pay() {
        let mut block = founded("chain=0.1+0.2 0");
        let ten = chain("chain=0.0+0.2 1");
        assert_eq!(fuse(&mut block, &ten, 1, PriceList::Count), Ok(2));
        assert_eq!(
            block.row(1).and_then(|row| row.adder(1)),
            Some(ten.adders()[0])
        );
    }

    #[test]
    fn a_tree_of_seven_has_640_lists_of_places_among_eight() {
        let tree = chain("chain=0.0+0.0 0.0+0.0 1.0+2.0 0.0+0.0 0.0+0.0 4.0+5.0 3.0+6.0 0");
        assert_eq!(place_lists(&tree, 8).len(), 640);
        assert_eq!(swap_lists(&tree).count(), 128);
    }

    #[test]
    fn causes_in_their_order() {
        let mut block = founded("chain=0");
        let larger = chain("chain=0.0+0.2 0");
        let mut fuse = |code| fuse(&mut block, &larger, code, PriceList::Count);
        assert_eq!(fuse(16), Err(Cause::CodeAboveFifteen.at(0)));
        assert_eq!(fuse(0), Err(Cause::CodeLive.at(0)));
        assert_eq!(fuse(1), Err(Cause::BlockTooSmall.at(0)));
    }
}
