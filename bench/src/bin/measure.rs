//! Times the same work in the programs of the crates and in the reference.

use std::env;
use std::error::Error;
use std::path::PathBuf;
use std::process::ExitCode;
use std::time::Instant;

use reference::measure::{check, seconds_of_one, works, Worker};

const USAGE: &str = "measure [--seed N] [--tries N] [--workload PATH] [CRATES]";

struct Options {
    crates: PathBuf,
    /// The program to be timed, where it is not that of the crates.
    workload: Option<PathBuf>,
    seed: u64,
    tries: usize,
}

impl Options {
    fn read(mut arguments: impl Iterator<Item = String>) -> Result<Self, Box<dyn Error>> {
        let mut options = Options {
            crates: PathBuf::from("../crates"),
            workload: None,
            seed: 1,
            tries: 15,
        };
        while let Some(argument) = arguments.next() {
            let mut value = || arguments.next().ok_or(USAGE);
            match argument.as_str() {
                "--seed" => options.seed = value()?.parse()?,
                "--tries" => options.tries = value()?.parse()?,
                "--workload" => options.workload = Some(PathBuf::from(value()?)),
                folder if !folder.starts_with('-') => options.crates = PathBuf::from(folder),
                _ => return Err(USAGE.into()),
            }
        }
        Ok(options)
    }

    fn workload(&self) -> PathBuf {
        let kept = || self.crates.join("workload").join("out").join("workload");
        self.workload.clone().unwrap_or_else(kept)
    }
}

fn main() -> ExitCode {
    match run() {
        Ok(()) => ExitCode::SUCCESS,
        Err(error) => {
            eprintln!("{error}");
            ExitCode::FAILURE
        }
    }
}

fn run() -> Result<(), Box<dyn Error>> {
    let options = Options::read(env::args().skip(1))?;
    let start = Instant::now();
    let program = Worker::at(&options.workload());
    let reference = Worker::at(&env::current_exe()?.with_file_name("workload"));
    println!(
        "{:<26}{:>14}{:>14}{:>12}",
        "work", "program", "reference", "ratio"
    );
    for work in works(options.seed) {
        check(&work, &program, &reference)?;
        let [program, reference] =
            seconds_of_one(&work, [&program, &reference], options.tries.max(1))?;
        let ratio = format!("{:.2}", reference / program);
        println!(
            "{:<26}{:>14}{:>14}{ratio:>12}",
            work.name,
            shown(program),
            shown(reference)
        );
    }
    println!("the ratio is the reference's time over the program's");
    println!(
        "seed {}, best of {}, {} s",
        options.seed,
        options.tries,
        start.elapsed().as_secs()
    );
    Ok(())
}

/// A time in the unit that suits it.
fn shown(seconds: f64) -> String {
    match seconds {
        seconds if seconds >= 1e-3 => format!("{:.2} ms", seconds * 1e3),
        seconds => format!("{:.2} us", seconds * 1e6),
    }
}
