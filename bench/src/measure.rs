//! Timing the same work in two programs that speak the protocol of
//! `workload`.

use std::error::Error;
use std::fs;
use std::io;
use std::path::{Path, PathBuf};
use std::process::{Child, Command};
use std::thread;
use std::time::{Duration, Instant};

use crate::adder::MOST_ADDERS;
use crate::compare::subject::{run, Run, WHOLE};
use crate::generate::{blocks, chains};
use crate::random::Random;
use crate::sheet;

/// About how long the larger of two counts is let run.
const SPAN: Duration = Duration::from_millis(150);

/// Work with its material, to be done by both programs.
pub struct Work {
    pub name: &'static str,
    verb: &'static str,
    material: Vec<u8>,
    /// The counts at which both have to print the same.
    checked: &'static [u64],
}

impl Work {
    fn input(&self, count: u64) -> Vec<u8> {
        [
            format!("{} {count}\n", self.verb).as_bytes(),
            &self.material,
        ]
        .concat()
    }
}

/// All that is timed, drawn from a seed.
pub fn works(seed: u64) -> Vec<Work> {
    let mut random = Random::new(seed);
    let few: &[u64] = &[1, 2];
    // More rounds than there are samples, so that the place of a round turns.
    let turning: &[u64] = &[1, 2, 5000];
    let work = |name, verb, material, checked| Work {
        name,
        verb,
        material,
        checked,
    };
    let large = sheet::write(&blocks::full(&mut random));
    let small = SMALL_SHEET.as_bytes().to_vec();
    vec![
        work(
            "fuse sixteen random",
            "fuse",
            random_chains(&mut random),
            few,
        ),
        work("fuse ladders and a tree", "fuse", ladders(), few),
        work(
            "run eight adders",
            "run",
            samples(&mut random, MOST_ADDERS),
            turning,
        ),
        work("run three adders", "run", samples(&mut random, 3), turning),
        work("read a large sheet", "read", large.clone(), few),
        work("read a small sheet", "read", small.clone(), few),
        work("write a large sheet", "write", large, few),
        work("write a small sheet", "write", small, few),
    ]
}

const SMALL_SHEET: &str = "adders=2\nwidth=16\n1L=0.0\n1R=0.2 0.1\n2L=1.0\n2R=1.3 0.4\nout=2.0\n\
                           s00=0+0 0+0 0\ns01=0+1 0+1 0\n";

/// Sixteen chains of eight adders.
fn random_chains(random: &mut Random) -> Vec<u8> {
    let mut text = "width=16\n".to_string();
    for _ in 0..16 {
        text += &format!("{}\n", chains::valid(random, MOST_ADDERS, 4));
    }
    text.into_bytes()
}

/// Fifteen chains that have one place for each adder, since each adder reads
/// the one before it, and a tree of seven, which has 640 lists of places.
fn ladders() -> Vec<u8> {
    let mut text = "width=16\n".to_string();
    for ladder in 0..15 {
        text += "chain=";
        for adder in 0..MOST_ADDERS {
            text += &format!("{adder}.0+0.{} ", (ladder + 3 * adder) % 7);
        }
        text += "0\n";
    }
    text += "chain=0.0+0.1 0.2+0.3 1.0+2.1 0.4+0.5 0.0+0.6 4.1+5.0 3.0+6.2 0\n";
    text.into_bytes()
}

fn samples(random: &mut Random, adders: usize) -> Vec<u8> {
    format!("{}\nsamples=4096\n", chains::valid(random, adders, 4)).into_bytes()
}

/// A program that speaks the protocol.
pub struct Worker {
    path: PathBuf,
}

impl Worker {
    pub fn at(path: &Path) -> Self {
        Worker {
            path: path.to_path_buf(),
        }
    }

    fn run(&self, work: &Work, count: u64) -> io::Result<Run<Option<Duration>>> {
        let run = run(
            &mut Command::new(&self.path),
            &work.input(count),
            WHOLE,
            on_core,
        )?;
        if run.status.success() {
            Ok(run)
        } else {
            Err(io::Error::other(format!(
                "{} ended with {} at {}",
                self.path.display(),
                run.status,
                work.name
            )))
        }
    }

    /// The time on a core, or on the wall where the kernel does not tell.
    fn time(&self, work: &Work, count: u64) -> io::Result<Duration> {
        let start = Instant::now();
        let run = self.run(work, count)?;
        Ok(run.asked.unwrap_or_else(|| start.elapsed()))
    }

    /// A count that takes about the span, at least 5.
    fn large_count(&self, work: &Work) -> io::Result<u64> {
        let mut count = 2;
        loop {
            let time = self.time(work, count)?;
            if time > SPAN / 8 {
                let fitting = count as f64 * SPAN.as_secs_f64() / time.as_secs_f64();
                return Ok((fitting as u64).max(5));
            }
            count *= 4;
        }
    }
}

/// How long a process stood on a core, where the kernel tells. Unlike the time
/// on the wall, it leaves out waiting for a core.
///
/// A process is asked once it has ended and is not yet waited for: until then
/// its last turn does not count. Nanoseconds stand first in what Linux tells
/// of a process's turns.
fn on_core(child: &Child) -> Option<Duration> {
    let of_child = |file: &str| fs::read_to_string(format!("/proc/{}/{file}", child.id())).ok();
    for _ in 0..100 {
        if of_child("stat")?.contains(") Z ") {
            break;
        }
        thread::sleep(Duration::from_micros(200));
    }
    let nanoseconds = of_child("schedstat")?
        .split_whitespace()
        .next()?
        .parse()
        .ok()?;
    (nanoseconds > 0).then(|| Duration::from_nanos(nanoseconds))
}

/// Two counts of one work by one program, and the least time of each so far.
///
/// What the larger count takes longer is shared out among the repetitions it
/// has more. Starting the program and reading its material cancel out.
struct Timing<'a> {
    worker: &'a Worker,
    counts: [u64; 2],
    least: [Duration; 2],
}

impl<'a> Timing<'a> {
    fn new(worker: &'a Worker, work: &Work) -> io::Result<Self> {
        let large = worker.large_count(work)?;
        Ok(Timing {
            worker,
            counts: [large / 5, large],
            least: [Duration::MAX; 2],
        })
    }

    fn try_once(&mut self, work: &Work) -> io::Result<()> {
        for (&count, least) in self.counts.iter().zip(&mut self.least) {
            *least = self.worker.time(work, count)?.min(*least);
        }
        Ok(())
    }

    fn seconds_of_one(&self) -> f64 {
        let [small, large] = self.least.map(|time| time.as_secs_f64());
        (large - small) / (self.counts[1] - self.counts[0]) as f64
    }
}

/// Seconds of one repetition, of both. The two take turns, so that what else
/// the machine does meets both alike.
pub fn seconds_of_one(work: &Work, workers: [&Worker; 2], tries: usize) -> io::Result<[f64; 2]> {
    let mut timings = [
        Timing::new(workers[0], work)?,
        Timing::new(workers[1], work)?,
    ];
    for _ in 0..tries {
        timings
            .iter_mut()
            .try_for_each(|timing| timing.try_once(work))?;
    }
    Ok(timings.map(|timing| timing.seconds_of_one()))
}

/// That both print the same, at each count that is checked.
pub fn check(work: &Work, one: &Worker, other: &Worker) -> Result<(), Box<dyn Error>> {
    for &count in work.checked {
        let [one, other] = [one.run(work, count)?.output, other.run(work, count)?.output];
        if one != other {
            let [one, other] =
                [one, other].map(|answer| String::from_utf8_lossy(&answer).trim().to_string());
            return Err(format!("{} {count} times: {one} and {other}", work.name).into());
        }
    }
    Ok(())
}

#[cfg(test)]
mod tests {
    use super::*;
    use crate::workload::perform;

    #[test]
    fn every_work_can_be_done() {
        for work in works(1) {
            assert!(perform(&work.input(1)).is_ok(), "{}", work.name);
        }
    }
}
