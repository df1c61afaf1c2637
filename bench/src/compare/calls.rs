//! What the calls of scripts were answered, call by call: the number of a
//! refusal alone does not tell which call it turned down.

use std::collections::BTreeMap;

use crate::cursor::lines;

/// How often each kind of call got each kind of answer.
#[derive(Clone, Debug, Default)]
pub struct Calls {
    counts: BTreeMap<(String, String), usize>,
}

impl Calls {
    /// Puts each line of a script beside its line of output.
    pub fn of(script: &[u8], output: &[u8]) -> Self {
        let mut calls = Calls::default();
        for (line, answer) in lines(script).zip(lines(output)) {
            let [line, answer] =
                [line, answer].map(|text| String::from_utf8_lossy(text).into_owned());
            if let Some(answer) = answer_to(&line, &answer) {
                let kind = line.split(' ').next().unwrap_or_default();
                *calls.counts.entry((kind.to_string(), answer)).or_default() += 1;
            }
        }
        calls
    }

    pub fn add(&mut self, other: &Calls) {
        for (key, count) in &other.counts {
            *self.counts.entry(key.clone()).or_default() += count;
        }
    }

    pub fn total(&self) -> usize {
        self.counts.values().sum()
    }

    /// A line for each kind of call.
    pub fn table(&self) -> String {
        let mut text = String::new();
        let mut last = "";
        for ((kind, answer), count) in &self.counts {
            if kind != last {
                text += &format!("{}  {kind}:", if last.is_empty() { "" } else { "\n" });
                last = kind;
            }
            text += &format!("  {answer}: {count}");
        }
        text + "\n"
    }
}

/// `ok`, or the number; of a move that a shift stops, also whose shift.
fn answer_to(line: &str, answer: &str) -> Option<String> {
    if answer.starts_with("ok") {
        return Some("ok".to_string());
    }
    let (number, place) = answer.strip_prefix("fault=")?.split_once(" place=")?;
    let adder = line
        .strip_prefix("move ")
        .and_then(|words| words.split(' ').nth(1));
    let whose = match (number, adder) {
        ("13", Some(_)) if place == "0" => " output",
        ("13", Some(adder)) if place == adder => " own",
        ("13", Some(_)) => " reader",
        _ => "",
    };
    Some(format!("{number}{whose}"))
}
