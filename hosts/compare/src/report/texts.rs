//! What texts reached.

use second::corpus::{AssemblyCase, AssemblyCoverage};

use super::add_counts;
use crate::assembly::Assembled;

/// The kind of a call's answer, and the names of the answers behind `done`, by number from 29 on.
const ANSWER: &str = "text";
const REFUSALS: [&str; 8] = [
    "refusal 29",
    "refusal 30",
    "refusal 31",
    "refusal 32",
    "refusal 33",
    "refusal 34",
    "refusal 35",
    "refusal 36",
];

/// Counts of answers, of mnemonics in assembled texts, and of kinds of texts.
#[derive(Default)]
pub struct Texts {
    done: u64,
    refusals: [u64; REFUSALS.len()],
    coverage: AssemblyCoverage,
}

impl Texts {
    /// Counts a call and what it left.
    pub fn add(&mut self, case: &AssemblyCase, assembled: &Assembled) {
        match assembled.reply {
            0 => self.done += 1,
            number @ 29..=36 => self.refusals[number as usize - 29] += 1,
            other => panic!("{other} is no reply of an assembler"),
        }
        self.coverage.add(case, assembled.answer());
    }

    /// Adds what other cases reached.
    pub fn join(&mut self, other: &Texts) {
        self.done += other.done;
        self.refusals.iter_mut().zip(other.refusals).for_each(|(sum, more)| *sum += more);
        add_counts(&mut self.coverage.lines, &other.coverage.lines);
    }

    /// Every line with its count. What listings have too is told apart by its kind.
    pub fn lines(&self) -> impl Iterator<Item = (&str, &str, u64)> {
        let refusals = REFUSALS.into_iter().zip(self.refusals);
        let answers = [("done", self.done)].into_iter().chain(refusals);
        let answers = answers.map(|(name, count)| (ANSWER, name, count));
        let kinds = self.coverage.lines.iter().map(|&(kind, name, count)| match kind {
            "line" => ("text line", name, count),
            _ => (kind, name, count),
        });
        answers.chain(kinds)
    }
}
