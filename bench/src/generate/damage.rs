//! Damage to a text, byte by byte and line by line.

use crate::random::Random;

/// Bytes that belong to some form here, and a few that belong to none.
const BYTES: &[u8] = b"0012345678999.+-= =chainsoutLRwd\t\r\0\xff\xc3";

/// Makes so many edits of single bytes or short stretches.
pub fn bytes(random: &mut Random, text: &mut Vec<u8>, edits: usize) {
    for _ in 0..edits {
        edit(random, text);
    }
}

fn edit(random: &mut Random, text: &mut Vec<u8>) {
    if text.is_empty() {
        text.push(random.pick(BYTES));
        return;
    }
    let at = random.below(text.len());
    match random.below(7) {
        0 | 1 => text[at] = random.pick(BYTES),
        2 => text.insert(at, random.pick(BYTES)),
        3 => {
            text.remove(at);
        }
        4 => {
            let next = (at + 1) % text.len();
            text.swap(at, next);
        }
        5 => {
            let end = (at + random.between(1, 4)).min(text.len());
            let again = text[at..end].to_vec();
            text.splice(at..at, again);
        }
        _ => digit(random, text, at),
    }
}

/// Turns the first digit from a place on into another.
fn digit(random: &mut Random, text: &mut [u8], at: usize) {
    if let Some(byte) = text[at..].iter_mut().find(|byte| byte.is_ascii_digit()) {
        *byte = b'0' + random.below(10) as u8;
    }
}

/// Drops, doubles, swaps or adds a line.
pub fn lines(random: &mut Random, lines: &mut Vec<Vec<u8>>) {
    if lines.is_empty() {
        return;
    }
    let at = random.below(lines.len());
    match random.below(5) {
        0 => {
            lines.remove(at);
        }
        1 => lines.insert(at, lines[at].clone()),
        2 => {
            let other = random.below(lines.len());
            lines.swap(at, other);
        }
        3 => lines.insert(at, Vec::new()),
        _ => lines.truncate(at),
    }
}

/// The lines as one text; the last line feed is left out now and then.
pub fn joined(random: &mut Random, lines: &[Vec<u8>]) -> Vec<u8> {
    let mut text = lines.join(&b'\n');
    if !lines.is_empty() && !random.chance(10) {
        text.push(b'\n');
    }
    text
}
