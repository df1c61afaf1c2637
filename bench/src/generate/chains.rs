//! Chains and chain lines.

use crate::adder::{Adder, Operand, Sign, Value, LARGEST_VALUE};
use crate::chain::{text, Chain};
use crate::generate::damage;
use crate::random::Random;

/// A chain of so many adders that keeps every rule. Shifts mostly lie below
/// the reach: a small one makes operands meet at the ports of a block.
pub fn valid(random: &mut Random, adders: usize, reach: u8) -> Chain {
    loop {
        if let Some(chain) = attempt(random, adders, reach) {
            return chain;
        }
    }
}

fn attempt(random: &mut Random, count: usize, reach: u8) -> Option<Chain> {
    let mut adders = Vec::new();
    let mut values: Vec<Value> = vec![1];
    let mut unread: Vec<u8> = Vec::new();
    for number in 1..=count {
        let allowed = |adder: &Adder| {
            let left_over = unread
                .iter()
                .filter(|&&source| !adder.reads(source.into()))
                .count();
            left_over <= count - number && adder.value(&values).is_some()
        };
        let adder = (0..40)
            .map(|_| adder(random, &values, &unread, reach))
            .find(allowed)?;
        values.push(adder.value(&values)?);
        unread.retain(|&source| !adder.reads(source.into()));
        unread.push(number as u8);
        adders.push(adder);
    }
    let highest = (0..=30)
        .rev()
        .find(|&shift| values[count] << shift <= LARGEST_VALUE)?;
    let shift = if random.chance(5) {
        highest
    } else {
        shift(random, reach).min(highest)
    };
    Chain::new(adders, shift).ok()
}

fn adder(random: &mut Random, values: &[Value], unread: &[u8], reach: u8) -> Adder {
    let left = operand(random, values.len(), unread, reach);
    let right = operand(random, values.len(), unread, reach);
    let sign = if random.chance(30) {
        Sign::Minus
    } else {
        Sign::Plus
    };
    if random.chance(5) {
        return Adder {
            left: steep(left, values),
            sign: Sign::Minus,
            right: steep(right, values),
        };
    }
    Adder { left, sign, right }
}

/// An operand under the highest shift that its source may have. The operands
/// of a minus adder may lie far above its value, and then a move that leaves
/// every shift in its range can take them out of theirs.
fn steep(operand: Operand, values: &[Value]) -> Operand {
    let fits = |&shift: &u8| values[usize::from(operand.source)] << shift <= LARGEST_VALUE;
    Operand {
        shift: (0..=30).rev().find(fits).unwrap_or(0),
        ..operand
    }
}

fn operand(random: &mut Random, number: usize, unread: &[u8], reach: u8) -> Operand {
    let source = match unread.is_empty() || random.chance(50) {
        true => random.below(number) as u8,
        false => random.pick(unread),
    };
    Operand::new(source, shift(random, reach))
}

fn shift(random: &mut Random, reach: u8) -> u8 {
    match random.below(20) {
        0 => random.below(31) as u8,
        1..=6 => 0,
        _ => random.between(0, reach.into()) as u8,
    }
}

/// A chain whose last adder takes one large operand from another, under an
/// output shift that lets it be moved further up; or any chain where the draw
/// makes none.
pub fn steep_chain(random: &mut Random, adders: usize) -> Chain {
    let chain = valid(random, adders, 2);
    let values = values(chain.adders());
    let made = (0..20).find_map(|_| {
        let mut adders = chain.adders().to_vec();
        let last = adders.last_mut()?;
        let [left, mut right] = last.operands().map(|operand| steep(operand, &values));
        right.shift = right.shift.saturating_sub(random.below(4) as u8);
        let sign = Sign::Minus;
        *last = Adder { left, sign, right };
        Chain::new(adders, random.between(1, 3) as u8).ok()
    });
    made.unwrap_or(chain)
}

/// The value of the sample and of each adder of a chain.
fn values(adders: &[Adder]) -> Vec<Value> {
    let mut values = vec![1];
    for adder in adders {
        values.push(adder.value(&values).unwrap_or(0));
    }
    values
}

/// A reach, small ones more often.
pub fn reach(random: &mut Random) -> u8 {
    random.pick(&[0, 1, 1, 2, 2, 3, 3, 4, 6, 10, 15, 30])
}

/// How many adders: every number, the largest more often.
pub fn count(random: &mut Random, most: usize) -> usize {
    if random.chance(15) {
        most
    } else {
        random.below(most + 1)
    }
}

pub fn valid_line(random: &mut Random) -> Vec<u8> {
    let adders = count(random, 8);
    let reach = reach(random);
    valid(random, adders, reach).to_string().into_bytes()
}

/// A line that has the form and mostly breaks a rule.
pub fn ruled_line(random: &mut Random) -> Vec<u8> {
    let count = count(random, 8);
    let reach = reach(random);
    let chain = valid(random, count, reach);
    let (mut adders, mut shift) = (chain.adders().to_vec(), chain.shift());
    for _ in 0..random.between(1, 3) {
        break_rule(random, &mut adders, &mut shift);
    }
    text(&adders, shift).into_bytes()
}

fn break_rule(random: &mut Random, adders: &mut Vec<Adder>, shift: &mut u8) {
    let added = Adder {
        left: any_operand(random),
        sign: Sign::Plus,
        right: any_operand(random),
    };
    if adders.is_empty() || random.chance(10) {
        *shift = random.between(0, 40) as u8;
        adders.extend((0..random.below(4)).map(|_| added));
        return;
    }
    let at = random.below(adders.len());
    let is_left = random.chance(50);
    let adder = &mut adders[at];
    let operand = if is_left {
        &mut adder.left
    } else {
        &mut adder.right
    };
    match random.below(9) {
        0 => operand.source = random.pick(&[at as u8, at as u8 + 1, at as u8 + 2, 8, 9, 99]),
        1 => operand.shift = random.pick(&[29, 30, 31, 32, 99]),
        2 => operand.shift = random.between(15, 31) as u8,
        3 => operand.source = random.below(at + 1) as u8,
        4 => adder.sign = Sign::Minus,
        5 => adder.right = adder.left,
        6 => {
            adders.remove(at);
        }
        7 => adders.insert(at, added),
        _ => *shift = random.pick(&[0, 20, 29, 30, 31, 99]),
    }
}

fn any_operand(random: &mut Random) -> Operand {
    Operand::new(
        random.pick(&[0, 0, 0, 1, 2, 9]),
        random.pick(&[0, 0, 1, 5, 30, 31]),
    )
}

/// A line with some bytes edited.
pub fn damaged_line(random: &mut Random) -> Vec<u8> {
    let mut line = if random.chance(30) {
        ruled_line(random)
    } else {
        valid_line(random)
    };
    let edits = random.between(1, 2);
    damage::bytes(random, &mut line, edits);
    line.retain(|&byte| byte != b'\n');
    line
}

/// A line about as long as a line may be, or empty, or cut short anywhere.
pub fn line_of_length(random: &mut Random) -> Vec<u8> {
    let mut line = b"chain=".to_vec();
    let length = match random.below(6) {
        0 => random.below(12),
        1 => random.below(120),
        2 => random.between(201, 400),
        _ => random.between(194, 204),
    };
    while line.len() < length {
        let adder = format!("{}+{} ", any_operand(random), any_operand(random));
        line.extend(adder.into_bytes());
    }
    line.truncate(length);
    if random.chance(40) {
        let last = line.len();
        line.truncate(last.saturating_sub(1));
        line.push(random.pick(b"0 .+9"));
    }
    if random.chance(25) {
        damage::bytes(random, &mut line, 1);
    }
    line.retain(|&byte| byte != b'\n');
    line
}

/// Any of the lines above.
pub fn any_line(random: &mut Random) -> Vec<u8> {
    match random.below(10) {
        0..=5 => valid_line(random),
        6 | 7 => ruled_line(random),
        8 => damaged_line(random),
        _ => line_of_length(random),
    }
}

#[cfg(test)]
mod tests {
    use super::*;

    #[test]
    fn chains_of_every_count_are_drawn() {
        let mut random = Random::new(1);
        for adders in 0..=8 {
            for reach in [0, 2, 30] {
                assert_eq!(valid(&mut random, adders, reach).adders().len(), adders);
            }
        }
    }
}
