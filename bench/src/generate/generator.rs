//! Inputs of the generator.

use crate::adder::MOST_ADDERS;
use crate::chain::Chain;
use crate::generate::{chains, damage};
use crate::random::Random;

/// Few short chains, so that many inputs are fused in little time.
pub fn short(random: &mut Random) -> Vec<u8> {
    let adders = random.below(5);
    let codes = random.between(1, 16);
    let lines = valid_lines(random, adders, codes);
    damage::joined(random, &lines)
}

/// Sixteen chains over up to eight adders.
pub fn long(random: &mut Random) -> Vec<u8> {
    let adders = random.between(5, MOST_ADDERS);
    let lines = valid_lines(random, adders, 16);
    damage::joined(random, &lines)
}

/// Sixteen chains of eight adders each.
pub fn full(random: &mut Random) -> Vec<u8> {
    let mut lines = vec![width(random)];
    let reach = chains::reach(random);
    lines.extend((0..16).map(|_| line(&chains::valid(random, MOST_ADDERS, reach))));
    damage::joined(random, &lines)
}

/// Bytes and lines damaged; some chains break a rule, some are too long for
/// the block, and now and then there are more than sixteen.
pub fn damaged(random: &mut Random) -> Vec<u8> {
    let adders = random.below(4);
    let codes = random.between(1, 18);
    let mut lines = valid_lines(random, adders, codes);
    if random.chance(20) {
        lines[0] = any_width(random);
    }
    for _ in 0..random.below(3) {
        let at = random.below(lines.len());
        match random.below(4) {
            0 if at > 0 => lines[at] = chains::any_line(random),
            1 => damage::bytes(random, &mut lines[at], 1),
            2 => damage::lines(random, &mut lines),
            _ => {}
        }
        if lines.is_empty() {
            break;
        }
    }
    damage::joined(random, &lines)
}

/// About as many bytes as an input may have, and inputs that nearly lack all.
pub fn limits(random: &mut Random) -> Vec<u8> {
    let codes = random.pick(&[1, 2, 15, 16, 17, 18]);
    let mut lines = valid_lines(random, 1, codes);
    if random.chance(50) {
        lines[0] = any_width(random);
    }
    if random.chance(40) {
        lines.truncate(random.below(3));
        return damage::joined(random, &lines);
    }
    let mut text = damage::joined(random, &lines);
    if random.chance(70) {
        let length = random.between(4094, 4098);
        let filler: &[u8] = random.pick(&[b"\n" as &[u8], b"chain=0\n", b"x"]);
        text.extend(
            filler
                .iter()
                .cycle()
                .take(length.saturating_sub(text.len())),
        );
    }
    text
}

fn valid_lines(random: &mut Random, adders: usize, codes: usize) -> Vec<Vec<u8>> {
    let reach = chains::reach(random);
    let mut lines = vec![width(random), line(&chains::valid(random, adders, reach))];
    for _ in 1..codes {
        let count = chains::count(random, adders);
        lines.push(line(&chains::valid(random, count, reach)));
    }
    lines
}

fn line(chain: &Chain) -> Vec<u8> {
    chain.to_string().into_bytes()
}

fn width(random: &mut Random) -> Vec<u8> {
    format!("width={}", random.between(1, 32)).into_bytes()
}

fn any_width(random: &mut Random) -> Vec<u8> {
    let width = random.pick(&[
        "0", "1", "32", "33", "99", "100", "07", "00", "", "16 ", "+1", "1a",
    ]);
    let key = random.pick(&[
        "width=", "width=", "width=", "width=", "Width=", "width", "adders=",
    ]);
    let mut line = format!("{key}{width}").into_bytes();
    if random.chance(20) {
        line.resize(random.between(199, 203), b'0');
    }
    line
}
