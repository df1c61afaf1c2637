//! What the programs answered, so that one sees what the inputs reach.

use crate::compare::calls::Calls;
use crate::programs::Program;

/// Every number of REFUSALS.md that a program can give. 27 and 31 are causes
/// against buffers, which no program hands over.
pub const NUMBERS: [usize; 22] = [
    11, 12, 13, 14, 15, 16, 20, 21, 22, 23, 24, 25, 26, 28, 29, 40, 41, 42, 43, 44, 45, 46,
];

#[derive(Clone, Debug)]
pub struct Tally {
    /// Lines, calls or inputs that were accepted, and those turned down.
    pub done: usize,
    pub turned_down: usize,
    pub unreadable: usize,
    /// How often each number was told.
    pub numbers: [usize; 100],
    /// The numbers that a broken row of a sheet carries.
    pub carried: [usize; 100],
    pub calls: Calls,
}

impl Default for Tally {
    fn default() -> Self {
        Tally {
            done: 0,
            turned_down: 0,
            unreadable: 0,
            numbers: [0; 100],
            carried: [0; 100],
            calls: Calls::default(),
        }
    }
}

impl Tally {
    pub fn of(program: Program, input: &[u8], output: &[u8]) -> Self {
        let mut tally = Tally::default();
        if program == Program::Replay {
            tally.calls = Calls::of(input, output);
        }
        for line in output.split(|&byte| byte == b'\n') {
            if line == b"sheet" {
                break;
            }
            tally.line(program, without_code(program, line));
        }
        tally
    }

    fn line(&mut self, program: Program, line: &[u8]) {
        if let Some(number) = number(line, b"fault=") {
            self.numbers[number] += 1;
            self.turned_down += 1;
        } else if let Some(number) = number(line, b"cause=") {
            self.carried[number] += 1;
        } else if line == b"unreadable" {
            self.unreadable += 1;
            self.turned_down += 1;
        } else if marks(program).iter().any(|mark| line.starts_with(mark)) {
            self.done += 1;
        }
    }

    pub fn add(&mut self, other: &Tally) {
        self.done += other.done;
        self.turned_down += other.turned_down;
        self.unreadable += other.unreadable;
        self.calls.add(&other.calls);
        for number in 0..100 {
            self.numbers[number] += other.numbers[number];
            self.carried[number] += other.carried[number];
        }
    }
}

/// The host says the code before what a sheet gives at it, as `s07 `.
fn without_code(program: Program, line: &[u8]) -> &[u8] {
    match program {
        Program::HostSheet => line.splitn(2, |&byte| byte == b' ').nth(1).unwrap_or(line),
        _ => line,
    }
}

/// How a line of output begins that answers something accepted.
fn marks(program: Program) -> &'static [&'static [u8]] {
    match program {
        Program::Constants => &[b"constant="],
        Program::Multiples => &[b"constant=", b"word="],
        Program::Products => &[b"constant=", b"before="],
        Program::ReadSheet => &[b"depth="],
        Program::Price => &[b"price="],
        Program::FuseGen => &[b"adders="],
        Program::Replay => &[b"ok"],
        Program::HostChains | Program::HostSheet => &[b"constant="],
    }
}

fn number(line: &[u8], key: &[u8]) -> Option<usize> {
    let digits = line.strip_prefix(key)?;
    let number = digits.iter().take_while(|byte| byte.is_ascii_digit());
    let number = number.fold(0, |number, byte| number * 10 + usize::from(byte - b'0'));
    (number < 100).then_some(number)
}
