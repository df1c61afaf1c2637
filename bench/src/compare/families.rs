//! The families of inputs.

use crate::generate::{chains, generator, samples, scripts, sheets};
use crate::programs::Program;
use crate::random::Random;

pub struct Family {
    pub name: &'static str,
    pub program: Program,
    pub draw: Draw,
    /// How many inputs are drawn.
    pub inputs: usize,
}

impl Family {
    /// Each chain line is answered by itself, so each is a case.
    pub fn has_cases_by_line(&self) -> bool {
        matches!(self.program, Program::Constants | Program::HostChains)
    }

    pub fn cases(&self, input: &[u8]) -> usize {
        if self.has_cases_by_line() {
            crate::cursor::lines(input).count()
        } else {
            1
        }
    }
}

/// How many chain lines most inputs of `constants` have.
const LINES: usize = 250;

fn lines(random: &mut Random, count: usize, line: Draw) -> Vec<u8> {
    let mut input = Vec::new();
    for _ in 0..count {
        input.extend(line(random));
        input.push(b'\n');
    }
    if random.chance(20) {
        input.pop();
    }
    input
}

pub fn all() -> Vec<Family> {
    [
        of_chains(),
        of_samples(),
        of_generators(),
        of_sheets(),
        of_prices(),
        of_scripts(),
        of_the_host(),
    ]
    .into_iter()
    .flatten()
    .collect()
}

type Draw = fn(&mut Random) -> Vec<u8>;

fn families<const N: usize>(
    program: Program,
    families: [(&'static str, usize, Draw); N],
) -> Vec<Family> {
    families
        .into_iter()
        .map(|(name, inputs, draw)| Family {
            name,
            program,
            draw,
            inputs,
        })
        .collect()
}

fn of_chains() -> Vec<Family> {
    families(
        Program::Constants,
        [
            ("lines valid", 160, |random| {
                lines(random, LINES, chains::valid_line)
            }),
            ("lines rules", 240, |random| {
                lines(random, LINES, chains::ruled_line)
            }),
            ("lines many", 3, |random| {
                lines(random, 8000, chains::any_line)
            }),
            ("lines damaged", 240, |random| {
                lines(random, LINES, chains::damaged_line)
            }),
            ("lines lengths", 160, |random| {
                lines(random, LINES, chains::line_of_length)
            }),
        ],
    )
}

fn of_samples() -> Vec<Family> {
    let mut multiples = families(
        Program::Multiples,
        [
            ("multiples", 3000, samples::multiples),
            ("multiples many", 3, samples::many_multiples),
            ("multiples damaged", 3000, samples::damaged_multiples),
        ],
    );
    multiples.extend(families(
        Program::Products,
        [
            ("products", 4000, samples::products),
            ("products damaged", 4000, samples::damaged_products),
        ],
    ));
    multiples
}

fn of_generators() -> Vec<Family> {
    families(
        Program::FuseGen,
        [
            ("fusegen short", 4000, generator::short),
            ("fusegen long", 160, generator::long),
            ("fusegen full", 120, generator::full),
            ("fusegen damaged", 5000, generator::damaged),
            ("fusegen limits", 2000, generator::limits),
        ],
    )
}

fn of_sheets() -> Vec<Family> {
    families(
        Program::ReadSheet,
        [
            ("readsheet valid", 4000, sheets::valid),
            ("readsheet edited", 10000, sheets::edited),
            ("readsheet damaged", 5000, sheets::damaged),
            ("readsheet limits", 1000, sheets::limits),
        ],
    )
}

fn of_prices() -> Vec<Family> {
    families(
        Program::Price,
        [
            ("price valid", 4000, |random| priced(random, sheets::valid)),
            ("price edited", 6000, |random| {
                priced(random, sheets::edited)
            }),
            ("price damaged", 4000, |random| {
                priced(random, sheets::damaged)
            }),
            ("price limits", 1000, |random| {
                priced(random, sheets::limits)
            }),
        ],
    )
}

fn of_scripts() -> Vec<Family> {
    families(
        Program::Replay,
        [
            ("replay small", 220, |random| {
                scripts::script(random, &scripts::SMALL)
            }),
            ("replay wide", 240, |random| {
                scripts::script(random, &scripts::WIDE)
            }),
            ("replay long", 4, |random| {
                scripts::script(random, &scripts::LONG)
            }),
            ("replay wild", 1200, |random| {
                scripts::script(random, &scripts::WILD)
            }),
        ],
    )
}

fn of_the_host() -> Vec<Family> {
    let mut host = families(
        Program::HostChains,
        [
            ("host lines", 60, |random| {
                lines(random, LINES, chains::any_line)
            }),
            ("host lengths", 20, |random| {
                lines(random, LINES, chains::line_of_length)
            }),
        ],
    );
    host.extend(families(
        Program::HostSheet,
        [
            ("host valid", 1000, sheets::valid),
            ("host edited", 3000, sheets::edited),
            ("host damaged", 1500, sheets::damaged),
            ("host limits", 300, sheets::limits),
        ],
    ));
    host
}

fn priced(random: &mut Random, sheet: Draw) -> Vec<u8> {
    let sheet = sheet(random);
    sheets::priced(random, sheet)
}
