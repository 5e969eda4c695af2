//! What a call file reaches: answers, settling commits, restarts.

use std::collections::BTreeMap;
use std::fmt::Write;

use crate::callfile::{Program, RECORD_BYTES};

#[derive(Clone, Debug, Default, PartialEq, Eq)]
pub struct Count {
    /// How often each answer was given.
    pub answers: BTreeMap<u32, u32>,
    /// How often each settling commit was made, by 10 times row plus side.
    pub settled: BTreeMap<u32, u32>,
    pub restarts: u32,
}

pub fn count(file: &[u8]) -> Count {
    let mut program = Program::new();
    let mut count = Count::default();
    for bytes in file.chunks(RECORD_BYTES) {
        let answer = program.answer(bytes).number();
        *count.answers.entry(answer).or_default() += 1;
    }
    for one in &program.settled {
        *count.settled.entry(one.code()).or_default() += 1;
    }
    count.restarts = program.restarts;
    count
}

impl Count {
    /// Three lines of text.
    pub fn told(&self) -> String {
        let mut out = String::new();
        // Writing to a string cannot fail.
        let _ = writeln!(out, "answers {}", pairs(&self.answers));
        let _ = writeln!(out, "settled {}", pairs(&self.settled));
        let _ = writeln!(out, "restarts {}", self.restarts);
        out
    }
}

fn pairs(map: &BTreeMap<u32, u32>) -> String {
    let told: Vec<String> = map
        .iter()
        .map(|(what, times)| format!("{what}:{times}"))
        .collect();
    told.join(" ")
}
