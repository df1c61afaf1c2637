//! Inputs of `multiples` and `products`.

use crate::generate::{chains, damage};
use crate::random::Random;

pub fn multiples(random: &mut Random) -> Vec<u8> {
    let mut lines = vec![chains::valid_line(random)];
    lines.extend(samples(random));
    damage::joined(random, &lines)
}

/// More bytes than a program reads at once.
pub fn many_multiples(random: &mut Random) -> Vec<u8> {
    let mut lines = vec![chains::valid_line(random)];
    lines.extend((0..8000).map(|_| sample(random)));
    damage::joined(random, &lines)
}

pub fn damaged_multiples(random: &mut Random) -> Vec<u8> {
    let mut lines = vec![chains::any_line(random)];
    lines.extend(samples(random));
    damaged(random, lines)
}

pub fn products(random: &mut Random) -> Vec<u8> {
    let mut lines = head(random);
    lines.extend(samples(random));
    damage::joined(random, &lines)
}

pub fn damaged_products(random: &mut Random) -> Vec<u8> {
    let mut lines = head(random);
    if random.chance(30) {
        lines[0] = chains::any_line(random);
    }
    for line in &mut lines[1..] {
        if random.chance(25) {
            *line = sample(random);
        }
    }
    lines.extend(samples(random));
    damaged(random, lines)
}

/// A chain, a code, one of its adders mostly, and an amount.
fn head(random: &mut Random) -> Vec<Vec<u8>> {
    let (count, reach) = (chains::count(random, 8), chains::reach(random));
    let chain = match random.below(12) {
        0 => chains::steep_chain(random, count),
        _ => chains::valid(random, count, reach),
    };
    let adder = if random.chance(90) {
        random.between(1, count.max(1))
    } else {
        random.below(12)
    };
    let amount = match random.below(10) {
        0 => random
            .pick(&["-31", "-30", "30", "31", "-29", "29"])
            .to_string(),
        1 => (random.below(61) as i64 - 30).to_string(),
        _ => (random.below(9) as i64 - 4).to_string(),
    };
    let code = if random.chance(96) {
        random.below(16)
    } else {
        random.between(16, 40)
    };
    [
        chain.to_string(),
        code.to_string(),
        adder.to_string(),
        amount,
    ]
    .map(String::into_bytes)
    .to_vec()
}

fn samples(random: &mut Random) -> Vec<Vec<u8>> {
    (0..random.below(12)).map(|_| sample(random)).collect()
}

fn sample(random: &mut Random) -> Vec<u8> {
    let sample = match random.below(8) {
        0 => random.pick(&[0, 1, -1, i64::MAX, i64::MIN, i64::MAX - 1, i64::MIN + 1]),
        1 => random.below(1000) as i64 - 500,
        2 => (random.below(40) as i64 - 20) * 255 + random.below(3) as i64 - 1,
        3 => (random.below(40) as i64 - 20) * 257 + random.below(3) as i64 - 1,
        4 => 1_i64
            .wrapping_shl(random.below(64) as u32)
            .wrapping_sub(random.below(2) as i64),
        _ => random.draw() as i64 >> random.below(64),
    };
    sample.to_string().into_bytes()
}

/// Lines with numbers past their limits, edited bytes, and lines dropped.
fn damaged(random: &mut Random, mut lines: Vec<Vec<u8>>) -> Vec<u8> {
    for line in lines
        .iter_mut()
        .skip(1)
        .filter(|_| random.chance(30))
        .collect::<Vec<_>>()
    {
        match random.below(4) {
            0 => *line = past_the_limit(random),
            1 => line.clear(),
            _ => damage::bytes(random, line, 1),
        }
    }
    if random.chance(30) {
        damage::lines(random, &mut lines);
    }
    if random.chance(20) {
        lines.truncate(random.below(5));
    }
    damage::joined(random, &lines)
}

fn past_the_limit(random: &mut Random) -> Vec<u8> {
    let past = match random.below(4) {
        0 => i128::from(i64::MAX) + random.below(9) as i128,
        1 => i128::from(i64::MIN) - random.below(9) as i128,
        2 => i128::from(i64::MAX) * 10 + random.below(99) as i128,
        _ => i128::from(random.draw()) * random.between(1, 99) as i128,
    };
    past.to_string().into_bytes()
}
