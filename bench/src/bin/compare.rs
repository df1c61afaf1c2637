//! Compares the programs of a folder of crates with the reference.

use std::env;
use std::error::Error;
use std::fs;
use std::path::{Path, PathBuf};
use std::process::ExitCode;
use std::time::{Duration, Instant};

use reference::compare::driver::{compare, Outcome, Plan};
use reference::compare::families::{self, Family};
use reference::compare::report;
use reference::compare::subject::{Crates, Subject};
use reference::planted::{self, Plant};
use reference::programs::Program;

const USAGE: &str =
    "compare [--seed N] [--percent N] [--seconds N] [--threads N] [--family START] \
                     [--plant NAME|all] [--suffix END] [CRATES]";

struct Options {
    crates: PathBuf,
    suffix: String,
    seed: u64,
    percent: usize,
    seconds: u64,
    threads: usize,
    family: String,
    plants: Vec<Plant>,
}

impl Options {
    fn read(mut arguments: impl Iterator<Item = String>) -> Result<Self, Box<dyn Error>> {
        let mut options = Options {
            crates: PathBuf::from("../crates"),
            suffix: String::new(),
            seed: 1,
            percent: 100,
            seconds: 600,
            threads: 2,
            family: String::new(),
            plants: Vec::new(),
        };
        while let Some(argument) = arguments.next() {
            let mut value = || arguments.next().ok_or(USAGE);
            match argument.as_str() {
                "--suffix" => options.suffix = value()?,
                "--seed" => options.seed = value()?.parse()?,
                "--percent" => options.percent = value()?.parse()?,
                "--seconds" => options.seconds = value()?.parse()?,
                "--threads" => options.threads = value()?.parse()?,
                "--family" => options.family = value()?,
                "--plant" => options.plants = plants(&value()?)?,
                folder if !folder.starts_with('-') => options.crates = PathBuf::from(folder),
                _ => return Err(USAGE.into()),
            }
        }
        Ok(options)
    }

    fn families(&self) -> Vec<Family> {
        families::all()
            .into_iter()
            .filter(|family| family.name.starts_with(&self.family))
            .collect()
    }

    fn plan(&self, stops_at_first: bool) -> Plan {
        let deadline = Instant::now() + Duration::from_secs(self.seconds);
        Plan {
            seed: self.seed,
            percent: self.percent,
            deadline,
            threads: self.threads,
            stops_at_first,
        }
    }
}

fn plants(name: &str) -> Result<Vec<Plant>, Box<dyn Error>> {
    if name == "all" {
        return Ok(Plant::ALL.to_vec());
    }
    let plant = Plant::named(name).ok_or_else(|| format!("no rule is called {name}"))?;
    Ok(vec![plant])
}

fn main() -> ExitCode {
    match run() {
        Ok(true) => ExitCode::SUCCESS,
        Ok(false) => ExitCode::FAILURE,
        Err(error) => {
            eprintln!("{error}");
            ExitCode::from(2)
        }
    }
}

fn run() -> Result<bool, Box<dyn Error>> {
    let options = Options::read(env::args().skip(1))?;
    let crates = Crates::in_folder(&options.crates, &options.suffix);
    let families = options.families();
    if families.is_empty() || options.threads == 0 {
        return Err("nothing would be compared".into());
    }
    if let Some(missing) = families
        .iter()
        .map(|family| crates.binary(family.program))
        .find(|path| !path.exists())
    {
        return Err(format!("there is no {}", missing.display()).into());
    }
    if options.plants.is_empty() {
        return compared(&options, &families, &crates);
    }
    Ok(options
        .plants
        .iter()
        .filter(|&&plant| !is_caught(&options, &families, &crates, plant))
        .count()
        == 0)
}

/// Compares with the reference as it stands, and reports.
fn compared(
    options: &Options,
    families: &[Family],
    crates: &Crates,
) -> Result<bool, Box<dyn Error>> {
    let start = Instant::now();
    let stored = stored(families, crates)?;
    let outcomes = compare(families, crates, &options.plan(false));
    print!("{}", report::table(families, &outcomes));
    let sum = report::sum(&outcomes);
    print!("{}{}", report::refusals(&sum), report::calls(&sum));
    let not_met = report::not_met(&sum);
    let is_whole = options.family.is_empty() && options.percent >= 100;
    if is_whole && !not_met.is_empty() {
        println!("not met, though a whole run should: {not_met:?}");
    }
    for (family, outcome) in families.iter().zip(&outcomes) {
        if let Some(first) = &outcome.first {
            print!("{}", report::difference(&differences(), family, first)?);
        }
    }
    println!(
        "seed {}, {} s, stored inputs that agreed: {stored:?}",
        options.seed,
        start.elapsed().as_secs()
    );
    let is_cut_short = is_cut_short(options, families, &outcomes);
    if is_cut_short {
        println!("time ran out before all inputs were drawn");
    }
    print!("{}", report::last_line(&outcomes));
    let agreed = outcomes
        .iter()
        .all(|outcome| outcome.differed == 0 && outcome.inputs > 0);
    let is_complete = !is_cut_short && (not_met.is_empty() || !is_whole);
    Ok(agreed && stored.0 == stored.1 && is_complete)
}

fn is_cut_short(options: &Options, families: &[Family], outcomes: &[Outcome]) -> bool {
    let drawn = |family: &Family| (family.inputs * options.percent).div_ceil(100);
    families
        .iter()
        .zip(outcomes)
        .any(|(family, outcome)| outcome.inputs < drawn(family))
}

/// How many of the inputs that are kept in the crates agree, and of how many.
fn stored(families: &[Family], crates: &Crates) -> Result<(usize, usize), Box<dyn Error>> {
    let mut programs: Vec<Program> = families.iter().map(|family| family.program).collect();
    programs.dedup();
    let mut agreed = 0;
    for &program in &programs {
        let input = fs::read(crates.stored_input(program))?;
        agreed += usize::from(crates.answer(program, &input)? == program.run(&input));
    }
    Ok((agreed, programs.len()))
}

/// Turns one rule of the reference and compares until something differs, which
/// has to agree where the rule is not turned.
fn is_caught(options: &Options, families: &[Family], crates: &Crates, plant: Plant) -> bool {
    planted::turn(Some(plant));
    let outcomes = compare(families, crates, &options.plan(true));
    planted::turn(None);
    let caught = families
        .iter()
        .zip(&outcomes)
        .find_map(|(family, outcome)| {
            let first = outcome.first.as_ref()?;
            let answer = crates.answer(family.program, &first.input).ok()?;
            let agrees = answer == family.program.run(&first.input);
            agrees.then(|| format!("caught by input {} of {}", first.index, family.name))
        });
    println!(
        "{}: {}",
        plant.name(),
        caught.as_deref().unwrap_or("NOT CAUGHT")
    );
    caught.is_some()
}

fn differences() -> PathBuf {
    Path::new(env!("CARGO_MANIFEST_DIR"))
        .join("target")
        .join("differences")
}
