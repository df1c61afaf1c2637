//! Long scripts of calls.
//!
//! What a script keeps of its block is the adder count and which codes are
//! live, so that most calls say something. It also keeps an account of how
//! many placements its fusings come to: the plain search prices a whole block
//! for each.

use crate::block::{judge_width, CODES};
use crate::fusing::{place_lists, swap_lists};
use crate::generate::{chains, damage, sheets};
use crate::random::Random;
use crate::script::Call;

/// How large a script's blocks are, and how long it is.
pub struct Plan {
    pub least_adders: usize,
    pub most_adders: usize,
    pub least_calls: usize,
    pub most_calls: usize,
    /// How many of a hundred lines are damaged or say what is out of range.
    pub wild: usize,
    /// The most placements that all fusings together come to.
    pub placements: usize,
}

pub const SMALL: Plan = Plan {
    least_adders: 0,
    most_adders: 3,
    least_calls: 300,
    most_calls: 2500,
    wild: 8,
    placements: 200_000,
};
pub const WIDE: Plan = Plan {
    least_adders: 4,
    most_adders: 8,
    least_calls: 150,
    most_calls: 600,
    wild: 8,
    placements: 150_000,
};
pub const LONG: Plan = Plan {
    least_adders: 0,
    most_adders: 2,
    least_calls: 15_000,
    most_calls: 30_000,
    wild: 8,
    placements: 400_000,
};
pub const WILD: Plan = Plan {
    least_adders: 0,
    most_adders: 4,
    least_calls: 0,
    most_calls: 500,
    wild: 60,
    placements: 60_000,
};

struct Script {
    adders: usize,
    live: [bool; CODES],
    reach: u8,
    /// How many placements are left.
    room: usize,
}

pub fn script(random: &mut Random, plan: &Plan) -> Vec<u8> {
    let mut script = Script {
        adders: 0,
        live: [false; CODES],
        reach: chains::reach(random),
        room: plan.placements,
    };
    let mut lines = Vec::new();
    for index in 0..random.between(plan.least_calls, plan.most_calls) {
        let wild = random.chance(plan.wild);
        let mut line = match index == 0 || random.chance(3) {
            true => script.found(random, plan, wild),
            false => script.call(random, wild),
        };
        if wild && random.chance(40) {
            let edits = random.between(1, 2);
            damage::bytes(random, &mut line, edits);
            line.retain(|&byte| byte != b'\n');
        }
        if script.admit(&line) {
            lines.push(line);
        }
    }
    damage::joined(random, &lines)
}

impl Script {
    /// Notes what a line does to the block, and tells whether the account has
    /// room for it.
    fn admit(&mut self, line: &[u8]) -> bool {
        match Call::read(line) {
            Ok(Call::Found { chain, code, width }) if code < 16 && judge_width(width).is_ok() => {
                self.adders = chain.adders().len();
                self.live = [false; CODES];
                self.live[code as usize] = true;
            }
            Ok(Call::Fuse { chain, code, .. }) if code < 16 && !self.live[code as usize] => {
                let placements =
                    place_lists(&chain, self.adders).len() * swap_lists(&chain).count();
                if placements > self.room / 4 {
                    return false;
                }
                self.room -= placements;
                self.live[code as usize] = chain.adders().len() <= self.adders;
            }
            Ok(Call::Retire { code }) if code < 16 => self.live[code as usize] = false,
            _ => {}
        }
        true
    }

    fn call(&mut self, random: &mut Random, wild: bool) -> Vec<u8> {
        match random.below(100) {
            0..=39 => self.fuse(random, wild),
            40..=61 => self.retire(random, wild),
            _ => self.shift(random, wild),
        }
    }

    fn found(&mut self, random: &mut Random, plan: &Plan, wild: bool) -> Vec<u8> {
        self.reach = chains::reach(random);
        if wild {
            let (code, width) = (any_number(random), any_number(random));
            return [
                format!("found {code} {width} ").into_bytes(),
                chains::any_line(random),
            ]
            .concat();
        }
        let adders = random.between(plan.least_adders, plan.most_adders);
        let chain = chains::valid(random, adders, self.reach);
        format!(
            "found {} {} {chain}",
            random.below(CODES),
            random.between(1, 32)
        )
        .into_bytes()
    }

    fn fuse(&mut self, random: &mut Random, wild: bool) -> Vec<u8> {
        let list = if random.chance(40) {
            "count".to_string()
        } else {
            sheets::four_units(random)
        };
        if wild {
            return [
                format!("fuse {} {list} ", any_number(random)).into_bytes(),
                chains::any_line(random),
            ]
            .concat();
        }
        let code = self.code(random, false);
        let count = if random.chance(3) {
            self.adders + 1
        } else {
            chains::count(random, self.adders)
        };
        let chain = match random.below(20) {
            0 => chains::steep_chain(random, count.min(8)),
            _ => chains::valid(random, count.min(8), self.reach),
        };
        format!("fuse {code} {list} {chain}").into_bytes()
    }

    fn retire(&mut self, random: &mut Random, wild: bool) -> Vec<u8> {
        if wild {
            return format!("retire {}", any_number(random)).into_bytes();
        }
        format!("retire {}", self.code(random, true)).into_bytes()
    }

    fn shift(&mut self, random: &mut Random, wild: bool) -> Vec<u8> {
        let code = self.code(random, true);
        let adder = if random.chance(95) {
            random.between(1, self.adders.max(1))
        } else {
            random.below(10)
        };
        let amount = match random.below(12) {
            0 => random.below(61) as i64 - 30,
            1 => random.pick(&[-31, -30, 30, 31]),
            _ => random.below(7) as i64 - 3,
        };
        if wild {
            let amount = any_number(random);
            return format!(
                "move {code} {adder} {}{amount}",
                random.pick(&["", "", "-"])
            )
            .into_bytes();
        }
        format!("move {code} {adder} {amount}").into_bytes()
    }

    /// A live code, or an idle one, nearly always where there is one.
    fn code(&self, random: &mut Random, live: bool) -> usize {
        let codes: Vec<usize> = (0..CODES).filter(|&code| self.live[code] == live).collect();
        if codes.is_empty() || random.chance(5) {
            return random.below(CODES);
        }
        random.pick(&codes)
    }
}

/// A number that a call may take or turn down, or one that is no number here.
fn any_number(random: &mut Random) -> String {
    match random.below(8) {
        0 => random.between(14, 18).to_string(),
        1 => random.between(30, 34).to_string(),
        2 => random
            .pick(&[
                "00",
                "07",
                "",
                "999999999",
                "1000000000",
                "4294967296",
                "-1",
                "+1",
            ])
            .to_string(),
        _ => random.below(16).to_string(),
    }
}
