//! What a comparison has met: cases of each kind, program starts, and how often each number was shown.

use std::collections::BTreeMap;
use std::fmt;

use crate::cases::{Case, Kind};
use crate::oracle::Program;

#[derive(Default)]
pub struct Tally {
    kinds: BTreeMap<&'static str, usize>,
    starts: BTreeMap<&'static str, usize>,
    numbers: BTreeMap<(&'static str, u8), usize>,
}

impl Tally {
    pub fn count(&mut self, kind: Kind, case: &Case) {
        *self.kinds.entry(kind.name()).or_default() += 1;
        *self.starts.entry(case.program.name()).or_default() += 1;
        for number in numbers(case.program, &case.expected) {
            *self.numbers.entry((case.program.name(), number)).or_default() += 1;
        }
    }

    /// The numbers that this program can give and that no case has met.
    pub fn missing(&self, program: Program) -> Vec<u8> {
        let met = |number: &u8| self.numbers.contains_key(&(program.name(), *number));
        program.numbers().iter().copied().filter(|number| !met(number)).collect()
    }
}

/// The numbers that an output gives, each once; 0 stands for an output that is no refusal.
fn numbers(program: Program, output: &[u8]) -> Vec<u8> {
    let text = std::str::from_utf8(output).expect("outputs are plain text");
    let mut all: Vec<u8> = if let Some(number) = text.strip_prefix("0F") {
        vec![u8::from_str_radix(number.trim_end(), 16).expect("two digits")]
    } else if program == Program::Answers {
        text.lines().flat_map(refusals).chain([0]).collect()
    } else {
        vec![0]
    };
    all.sort_unstable();
    all.dedup();
    all
}

/// The refusals in a line of answers: six about an edge, the second with reads, or one about a vertex.
fn refusals(line: &str) -> Vec<u8> {
    let fields = if line.starts_with("06") { 6 } else { 1 };
    let mut rest = &line[5..];
    let mut all = Vec::new();
    for field in 0..fields {
        if let Some(number) = rest.strip_prefix("F0") {
            all.push(u8::from_str_radix(&number[..2], 16).expect("two digits"));
            rest = &rest[4..];
        } else {
            rest = &rest[if field == 1 { 7 } else { 4 }..];
        }
    }
    all
}

impl fmt::Display for Tally {
    fn fmt(&self, out: &mut fmt::Formatter) -> fmt::Result {
        for (name, count) in &self.kinds {
            writeln!(out, "harness: {count} comparisons over {name}")?;
        }
        for (name, count) in &self.starts {
            write!(out, "harness: {count} starts of {name}; numbers met (0: none):")?;
            for ((_, number), count) in self.numbers.iter().filter(|((program, _), _)| program == name) {
                write!(out, " {number}: {count}")?;
            }
            writeln!(out)?;
        }
        Ok(())
    }
}
