//! Drawing inputs, asking both sides, and noting where they differ.

use std::sync::atomic::{AtomicBool, AtomicUsize, Ordering};
use std::sync::Mutex;
use std::thread;
use std::time::Instant;

use crate::compare::families::Family;
use crate::compare::subject::Subject;
use crate::compare::tally::Tally;
use crate::programs::Program;
use crate::random::Random;

pub struct Plan {
    pub seed: u64,
    /// How many hundredths of each family's inputs are drawn.
    pub percent: usize,
    pub deadline: Instant,
    pub threads: usize,
    pub stops_at_first: bool,
}

/// An input on which the two sides differ.
#[derive(Clone, Debug)]
pub struct Difference {
    /// Which input of its family it is.
    pub index: usize,
    pub input: Vec<u8>,
    pub program: Vec<u8>,
    pub reference: Vec<u8>,
}

/// What came of one family.
#[derive(Default)]
pub struct Outcome {
    pub inputs: usize,
    pub agreed: usize,
    pub differed: usize,
    pub tally: Tally,
    pub first: Option<Difference>,
}

impl Outcome {
    fn add(&mut self, other: Outcome) {
        self.inputs += other.inputs;
        self.agreed += other.agreed;
        self.differed += other.differed;
        self.tally.add(&other.tally);
        let index =
            |first: &Option<Difference>| first.as_ref().map_or(usize::MAX, |first| first.index);
        if index(&other.first) < index(&self.first) {
            self.first = other.first;
        }
    }
}

/// One input of a family.
#[derive(Clone, Copy)]
struct Task {
    family: usize,
    index: usize,
}

/// Compares the families; the answer has an outcome for each.
pub fn compare(families: &[Family], subject: &dyn Subject, plan: &Plan) -> Vec<Outcome> {
    let tasks = tasks(families, plan.percent);
    let next = AtomicUsize::new(0);
    let stop = AtomicBool::new(false);
    let outcomes: Vec<Mutex<Outcome>> = families.iter().map(|_| Mutex::default()).collect();
    thread::scope(|scope| {
        for _ in 0..plan.threads {
            scope.spawn(|| {
                while let Some(&task) = tasks.get(next.fetch_add(1, Ordering::Relaxed)) {
                    if stop.load(Ordering::Relaxed) || Instant::now() > plan.deadline {
                        break;
                    }
                    let outcome = try_one(&families[task.family], subject, plan.seed, task);
                    if outcome.differed > 0 && plan.stops_at_first {
                        stop.store(true, Ordering::Relaxed);
                    }
                    if let Ok(mut sum) = outcomes[task.family].lock() {
                        sum.add(outcome);
                    }
                }
            });
        }
    });
    outcomes
        .into_iter()
        .map(|outcome| outcome.into_inner().unwrap_or_default())
        .collect()
}

/// The inputs of all families, interleaved: where time runs out, it does so at
/// about the same share of each.
fn tasks(families: &[Family], percent: usize) -> Vec<Task> {
    let mut tasks = Vec::new();
    for (family, Family { inputs, .. }) in families.iter().enumerate() {
        let count = (inputs * percent).div_ceil(100);
        tasks.extend((0..count).map(|index| (index as f64 / count as f64, Task { family, index })));
    }
    tasks.sort_by(|one, other| one.0.total_cmp(&other.0));
    tasks.into_iter().map(|(_, task)| task).collect()
}

fn try_one(family: &Family, subject: &dyn Subject, seed: u64, task: Task) -> Outcome {
    let mut random = Random::of_case(seed, hash(family.name), task.index as u64);
    let input = (family.draw)(&mut random);
    let whole = judge(family, subject, task.index, &input, family.cases(&input));
    if whole.differed == 0 || !family.has_cases_by_line() {
        return whole;
    }
    let mut sum = Outcome::default();
    for line in crate::cursor::lines(&input) {
        sum.add(judge(
            family,
            subject,
            task.index,
            &[line, b"\n"].concat(),
            1,
        ));
    }
    if sum.differed == 0 {
        return whole;
    }
    Outcome { inputs: 1, ..sum }
}

fn judge(
    family: &Family,
    subject: &dyn Subject,
    index: usize,
    input: &[u8],
    cases: usize,
) -> Outcome {
    let (program, reference) = both(family.program, subject, input);
    let mut outcome = Outcome {
        inputs: 1,
        tally: Tally::of(family.program, input, &program),
        ..Outcome::default()
    };
    if program == reference {
        outcome.agreed = cases;
    } else {
        outcome.differed = cases;
        outcome.first = Some(Difference {
            index,
            input: input.to_vec(),
            program,
            reference,
        });
    }
    outcome
}

/// What both sides answer; a program that fails answers why.
fn both(program: Program, subject: &dyn Subject, input: &[u8]) -> (Vec<u8>, Vec<u8>) {
    let answer = subject.answer(program, input);
    let answer = answer.unwrap_or_else(|error| format!("no answer: {error}\n").into_bytes());
    (answer, program.run(input))
}

/// A family's number is that of its name, so that adding a family leaves what
/// the others draw (FNV-1a).
fn hash(name: &str) -> u64 {
    name.bytes().fold(0xcbf2_9ce4_8422_2325, |hash, byte| {
        (hash ^ u64::from(byte)).wrapping_mul(0x100_0000_01b3)
    })
}

#[cfg(test)]
mod tests {
    use std::io;
    use std::time::Duration;

    use super::*;
    use crate::compare::families;

    /// Answers as the reference does, but for one number.
    struct Turned {
        number: &'static str,
    }

    impl Subject for Turned {
        fn answer(&self, program: Program, input: &[u8]) -> io::Result<Vec<u8>> {
            let answer = String::from_utf8_lossy(&program.run(input)).into_owned();
            Ok(answer
                .replace(&format!("fault={}\n", self.number), "fault=99\n")
                .into_bytes())
        }
    }

    fn outcomes(number: &'static str) -> Vec<(Family, Outcome)> {
        let deadline = Instant::now() + Duration::from_secs(600);
        let plan = Plan {
            seed: 7,
            percent: 1,
            deadline,
            threads: 1,
            stops_at_first: false,
        };
        let is_quick = |family: &Family| {
            ["lines", "readsheet"]
                .iter()
                .any(|name| family.name.starts_with(name))
        };
        let families: Vec<Family> = families::all().into_iter().filter(is_quick).collect();
        let outcomes = compare(&families, &Turned { number }, &plan);
        families.into_iter().zip(outcomes).collect()
    }

    #[test]
    fn what_answers_alike_agrees() {
        for (family, outcome) in outcomes("none") {
            assert_eq!(
                (outcome.differed, outcome.first.is_some()),
                (0, false),
                "{}",
                family.name
            );
            assert!(outcome.agreed > 0, "{}", family.name);
        }
    }

    #[test]
    fn one_number_turned_is_caught_where_it_is_told() {
        for number in ["13", "46"] {
            let caught = |(_, outcome): &(Family, Outcome)| outcome.differed > 0;
            assert!(outcomes(number).iter().any(caught), "{number}");
        }
    }

    #[test]
    fn a_line_that_differs_is_found_alone() {
        for (family, outcome) in outcomes("16")
            .iter()
            .filter(|(family, _)| family.has_cases_by_line())
        {
            let Some(first) = &outcome.first else {
                continue;
            };
            assert_eq!(family.cases(&first.input), 1);
            assert!(outcome.agreed > outcome.differed);
        }
    }
}
