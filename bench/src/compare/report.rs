//! Printing what came of a comparison.

use std::fs;
use std::io;
use std::path::{Path, PathBuf};

use crate::compare::driver::{Difference, Outcome};
use crate::compare::families::Family;
use crate::compare::tally::{Tally, NUMBERS};

pub fn table(families: &[Family], outcomes: &[Outcome]) -> String {
    let mut text = format!(
        "{:<20}{:>8}{:>9}{:>9}{:>10}{:>11}{:>12}{:>7}\n",
        "family", "inputs", "cases", "agreed", "differed", "accepted", "turned down", "share"
    );
    for (family, outcome) in families.iter().zip(outcomes) {
        let &Tally {
            done, turned_down, ..
        } = &outcome.tally;
        let cases = outcome.agreed + outcome.differed;
        text += &format!(
            "{:<20}{:>8}{:>9}{:>9}{:>10}{:>11}{:>12}{:>6}%\n",
            family.name,
            outcome.inputs,
            cases,
            outcome.agreed,
            outcome.differed,
            done,
            turned_down,
            share(done, turned_down)
        );
    }
    text
}

fn share(part: usize, rest: usize) -> usize {
    100 * part / (part + rest).max(1)
}

/// How often each number was told, and which were not met.
pub fn refusals(sum: &Tally) -> String {
    let line = |number: usize| format!("  {number}: {}", sum.numbers[number]);
    let numbers: Vec<String> = NUMBERS.into_iter().map(line).collect();
    let carried = format!(
        "  45 with 16: {}  45 with 15: {}",
        sum.carried[16], sum.carried[15]
    );
    let rows: Vec<String> = numbers.chunks(8).map(|row| row.concat()).collect();
    format!(
        "refusals met\n{}\n{carried}  unreadable: {}\n",
        rows.join("\n"),
        sum.unreadable
    )
}

pub fn not_met(sum: &Tally) -> Vec<usize> {
    NUMBERS
        .into_iter()
        .filter(|&number| sum.numbers[number] == 0)
        .collect()
}

pub fn sum(outcomes: &[Outcome]) -> Tally {
    let mut sum = Tally::default();
    outcomes.iter().for_each(|outcome| sum.add(&outcome.tally));
    sum
}

/// What the calls of `replay` were answered. A call that was not readable is
/// none of them.
pub fn calls(sum: &Tally) -> String {
    match sum.calls.total() {
        0 => String::new(),
        total => format!("readable calls of replay: {total}\n{}", sum.calls.table()),
    }
}

pub fn last_line(outcomes: &[Outcome]) -> String {
    let agreed: usize = outcomes.iter().map(|outcome| outcome.agreed).sum();
    let differed: usize = outcomes.iter().map(|outcome| outcome.differed).sum();
    let Tally {
        done, turned_down, ..
    } = sum(outcomes);
    let share = share(done, turned_down);
    format!(
        "answers: {done} accepted ({share}%), {turned_down} turned down ({}%)\n\
         {agreed} cases agreed, {differed} differed\n",
        100 - share
    )
}

/// Keeps the input of a difference, and tells where the outputs part.
pub fn difference(folder: &Path, family: &Family, difference: &Difference) -> io::Result<String> {
    fs::create_dir_all(folder)?;
    let name = family.name.replace(' ', "-");
    let path: PathBuf = folder.join(format!("{name}-{}", difference.index));
    fs::write(&path, &difference.input)?;
    let (line, program, reference) = parting(&difference.program, &difference.reference);
    Ok(format!(
        "{} differs, input kept in {}\n  output line {line}\n  program:   {program}\n  reference: {reference}\n",
        family.name,
        path.display()
    ))
}

/// The first line, from 1, at which two outputs differ, and both there.
fn parting(one: &[u8], other: &[u8]) -> (usize, String, String) {
    let lines = |text: &[u8]| -> Vec<String> {
        text.split(|&byte| byte == b'\n')
            .map(|line| String::from_utf8_lossy(line).into_owned())
            .collect()
    };
    let (one, other) = (lines(one), lines(other));
    let at = one
        .iter()
        .zip(&other)
        .take_while(|(one, other)| one == other)
        .count();
    let line = |lines: &[String]| {
        lines
            .get(at)
            .cloned()
            .unwrap_or_else(|| "(no such line)".to_string())
    };
    (at + 1, line(&one), line(&other))
}
