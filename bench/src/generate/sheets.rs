//! Sheets with their inputs in any order, and sheets that are none.

use crate::block::Block;
use crate::generate::{blocks, damage};
use crate::port::Port;
use crate::random::Random;
use crate::sheet::write_in_order;

/// A sheet of a random block, the inputs of each port shuffled.
pub fn valid(random: &mut Random) -> Vec<u8> {
    let block = blocks::any(random);
    shuffled(random, &block)
}

fn shuffled(random: &mut Random, block: &Block) -> Vec<u8> {
    let mut sheet = Vec::new();
    write_in_order(block, &mut sheet, |port: Port| {
        let mut inputs = port.inputs(block).as_slice().to_vec();
        random.shuffle(&mut inputs);
        inputs
    });
    sheet
}

/// Edits of what the lines say: inputs, entries, codes, limits.
pub fn edited(random: &mut Random) -> Vec<u8> {
    let sheet = valid(random);
    let mut sheet = Sheet::of(&sheet);
    for _ in 0..random.between(1, 2) {
        sheet.edit(random);
    }
    sheet.text()
}

/// Edits of bytes and of whole lines.
pub fn damaged(random: &mut Random) -> Vec<u8> {
    let sheet = valid(random);
    let mut lines: Vec<Vec<u8>> = sheet
        .split(|&byte| byte == b'\n')
        .map(<[u8]>::to_vec)
        .collect();
    lines.pop();
    match random.below(4) {
        0 => damage::lines(random, &mut lines),
        1 if !lines.is_empty() => {
            let at = random.below(lines.len());
            damage::bytes(random, &mut lines[at], 1);
        }
        2 => {
            let mut sheet = sheet;
            let edits = random.between(1, 2);
            damage::bytes(random, &mut sheet, edits);
            return sheet;
        }
        _ => {
            let mut sheet = sheet;
            sheet.truncate(random.below(sheet.len() + 1));
            return sheet;
        }
    }
    damage::joined(random, &lines)
}

/// About 4,096 bytes, most of which are no sheet.
pub fn limits(random: &mut Random) -> Vec<u8> {
    let mut sheet = if random.chance(70) {
        valid(random)
    } else {
        edited(random)
    };
    let length = random.between(4094, 4098).max(sheet.len());
    let filler: &[u8] = random.pick(&[b"\n" as &[u8], b"s15=0\n", b"0.0 ", b"0"]);
    let at = if random.chance(60) {
        sheet.len()
    } else {
        random.below(sheet.len() + 1)
    };
    let filling: Vec<u8> = filler
        .iter()
        .copied()
        .cycle()
        .take(length - sheet.len())
        .collect();
    sheet.splice(at..at, filling);
    sheet
}

/// A sheet behind a line of unit prices, for `price`.
pub fn priced(random: &mut Random, sheet: Vec<u8>) -> Vec<u8> {
    let mut input = units(random);
    if random.chance(98) {
        input.push(b'\n');
        input.extend(sheet);
    }
    input
}

/// Unit prices; some make no list, and some have not the form.
pub fn units(random: &mut Random) -> Vec<u8> {
    let mut line = format!("units={}", four_units(random)).into_bytes();
    if random.chance(4) {
        damage::bytes(random, &mut line, 1);
    }
    line
}

/// Four unit prices with one space between two of them.
pub fn four_units(random: &mut Random) -> String {
    let most = random.pick(&[0, 3, 9, 100, 1000]);
    let [one, other, more, two_way] = [most, most, 30, most].map(|most| random.between(0, most));
    let mut units = [
        one,
        other,
        one.max(other).saturating_add(more).min(1000),
        two_way,
    ];
    if random.chance(6) {
        units[random.below(4)] = random.pick(&[0, 1000, 1001, 999_999_999, 1_000_000_000]);
    }
    units.map(|unit| unit.to_string()).join(" ")
}

/// A sheet taken apart, so that what it says can be edited where it stands.
struct Sheet {
    head: [String; 2],
    /// The key of each port with its inputs.
    ports: Vec<(String, Vec<String>)>,
    /// The key of each code with its entries and its output.
    codes: Vec<(String, Vec<String>)>,
}

impl Sheet {
    fn of(sheet: &[u8]) -> Self {
        let text = String::from_utf8_lossy(sheet).into_owned();
        let mut lines = text.lines().map(str::to_string);
        let head = [lines.next(), lines.next()].map(Option::unwrap_or_default);
        let parts = lines.map(|line| match line.split_once('=') {
            Some((key, rest)) => (
                key.to_string(),
                rest.split_whitespace().map(str::to_string).collect(),
            ),
            None => (line, Vec::new()),
        });
        let (codes, ports) = parts.partition(|(key, _)| key.starts_with('s'));
        Sheet { head, ports, codes }
    }

    fn text(&self) -> Vec<u8> {
        let line = |(key, parts): &(String, Vec<String>)| format!("{key}={}\n", parts.join(" "));
        let head: String = self.head.iter().map(|line| format!("{line}\n")).collect();
        let ports: String = self.ports.iter().map(line).collect();
        let codes: String = self.codes.iter().map(line).collect();
        [head, ports, codes].concat().into_bytes()
    }

    fn edit(&mut self, random: &mut Random) {
        match random.below(12) {
            0 => {
                self.head[0] = format!(
                    "adders={}",
                    random.pick(&["0", "1", "7", "8", "9", "10", "99", "08", "100", ""])
                )
            }
            1 => {
                self.head[1] = format!(
                    "width={}",
                    random.pick(&["0", "1", "32", "33", "99", "016", "-1", ""])
                )
            }
            2..=5 => self.edit_port(random),
            _ => self.edit_code(random),
        }
    }

    fn edit_port(&mut self, random: &mut Random) {
        if self.ports.is_empty() {
            return;
        }
        let at = random.below(self.ports.len());
        let inputs = &mut self.ports[at].1;
        let place = random.below(inputs.len() + 1);
        match random.below(7) {
            0 => inputs.insert(place, input(random, 9)),
            1 if place < inputs.len() => inputs.insert(place, inputs[place].clone()),
            2 if place < inputs.len() => {
                inputs.remove(place);
            }
            3 if place < inputs.len() => inputs[place] = input(random, 9),
            4 if place < inputs.len() => inputs[place] = input(random, at / 2 + 1),
            5 => fill(random, inputs),
            6 => self.ports[at].0 = random.pick(&["1L", "2R", "9L", "out", "s00"]).to_string(),
            _ => {}
        }
    }

    fn edit_code(&mut self, random: &mut Random) {
        if self.codes.is_empty() {
            self.codes.push(("s00".to_string(), vec!["0".to_string()]));
            return;
        }
        let at = random.below(self.codes.len());
        let last = self.codes.len() - 1;
        match random.below(12) {
            0 => self.codes.swap(at, last),
            1 => self.codes.insert(at, self.codes[at].clone()),
            2 => {
                self.codes.remove(at);
            }
            3 => {
                self.codes[at].0 = random
                    .pick(&["s00", "s15", "s16", "s99", "s1", "s007", "s08"])
                    .to_string()
            }
            4 => {
                let mut again = self.codes[at].clone();
                again.0 = format!("s{:02}", last + 1);
                self.codes.push(again);
            }
            _ => edit_entry(random, &mut self.codes[at].1),
        }
    }
}

/// An input whose source is mostly below a bound.
fn input(random: &mut Random, bound: usize) -> String {
    let source = if random.chance(95) {
        random.below(bound)
    } else {
        random.pick(&[8, 9, 99])
    };
    let shift = random.pick(&[0, 1, 2, 3, 5, 10, 20, 28, 29, 30, 31]);
    format!("{source}.{shift}")
}

/// Fills a port up to sixteen inputs, or one more, or one less.
fn fill(random: &mut Random, inputs: &mut Vec<String>) {
    let count = random.between(15, 17);
    let free = (0..31)
        .map(|shift| format!("0.{shift}"))
        .filter(|input| !inputs.contains(input));
    let free: Vec<String> = free.collect();
    inputs.extend(free.into_iter().take(count.saturating_sub(inputs.len())));
}

/// Turns an entry of a code line, or the number at its end.
fn edit_entry(random: &mut Random, entries: &mut [String]) {
    if entries.is_empty() {
        return;
    }
    let at = random.below(entries.len());
    let is_output = at + 1 == entries.len();
    entries[at] = match (random.below(8), is_output) {
        (0, _) => "-".to_string(),
        (1, false) => "0+0".to_string(),
        (2, false) => "0-0".to_string(),
        (3, false) if entries[at].contains('+') => entries[at].replace('+', "-"),
        (3, false) => entries[at].replace('-', "+"),
        (_, true) => random.pick(&[0, 1, 2, 3, 15, 16, 99]).to_string(),
        _ => {
            let [left, right] = [(); 2].map(|()| random.pick(&[0, 0, 1, 1, 2, 3, 4, 15, 16]));
            format!("{left}{}{right}", random.pick(&["+", "-"]))
        }
    };
}
