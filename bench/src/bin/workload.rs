//! Does a piece of work as often as its input says, to be timed from outside.

use std::io::{self, Read};
use std::process::ExitCode;

use reference::workload::perform;

fn main() -> ExitCode {
    let mut input = Vec::new();
    let answer = io::stdin()
        .read_to_end(&mut input)
        .map_err(Into::into)
        .and_then(|_| perform(&input));
    match answer {
        Ok(line) => {
            print!("{line}");
            ExitCode::SUCCESS
        }
        Err(error) => {
            eprintln!("{error}");
            ExitCode::FAILURE
        }
    }
}
