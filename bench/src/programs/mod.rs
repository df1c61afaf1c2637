//! The seven programs and the host in C, each as a function from its input to its output.

mod chains;
mod scripts;
mod sheets;

use std::fmt;

use crate::refusal::{Cause, Refusal};

/// The codes that the host is asked for: all sixteen, and some above.
pub fn host_codes() -> impl Iterator<Item = usize> {
    (0..=16).chain([99, usize::MAX])
}

#[derive(Clone, Copy, Debug, PartialEq, Eq)]
pub enum Program {
    Constants,
    Multiples,
    Products,
    ReadSheet,
    Price,
    FuseGen,
    Replay,
    /// The example host in C, on chain lines.
    HostChains,
    /// The same on a sheet, at some codes.
    HostSheet,
}

impl Program {
    /// The name of its crate and of its binary; of the host what it is asked for.
    pub fn name(self) -> &'static str {
        match self {
            Program::Constants => "constants",
            Program::Multiples => "multiples",
            Program::Products => "products",
            Program::ReadSheet => "readsheet",
            Program::Price => "price",
            Program::FuseGen => "fusegen",
            Program::Replay => "replay",
            Program::HostChains => "chains",
            Program::HostSheet => "sheet",
        }
    }

    pub fn run(self, input: &[u8]) -> Vec<u8> {
        match self {
            Program::Constants => chains::constants(input),
            Program::Multiples => chains::multiples(input),
            Program::Products => chains::products(input),
            Program::ReadSheet => sheets::read_sheet(input),
            Program::Price => sheets::price(input),
            Program::FuseGen => scripts::fuse_gen(input),
            Program::Replay => scripts::replay(input),
            Program::HostChains => chains::host(input),
            Program::HostSheet => sheets::host(input),
        }
    }

    pub fn is_host(self) -> bool {
        matches!(self, Program::HostChains | Program::HostSheet)
    }
}

/// A refusal with the line of the input that it turns down.
#[derive(Clone, Copy, Debug)]
pub struct Fault {
    pub refusal: Refusal,
    pub line: usize,
}

impl Fault {
    /// A line that the input lacks.
    pub fn missing(line: usize) -> Self {
        Cause::BrokenForm.at(0).on(line)
    }
}

impl Refusal {
    pub fn on(self, line: usize) -> Fault {
        Fault {
            refusal: self,
            line,
        }
    }
}

impl fmt::Display for Fault {
    fn fmt(&self, f: &mut fmt::Formatter) -> fmt::Result {
        writeln!(f, "fault={}", self.refusal.cause.number())?;
        writeln!(f, "line={}", self.line)?;
        writeln!(f, "place={}", self.refusal.place)
    }
}
