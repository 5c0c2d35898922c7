//! What texts reach.

use std::collections::HashMap;

use super::AssemblyCase;
use crate::assemble::{Assembled, Refused};
use crate::isa::mnemonics;

/// Counts with their names, in a fixed order.
pub struct AssemblyCoverage {
    /// For each line its kind, its name and how often it was reached: the mnemonics of texts that
    /// were assembled, then the classes of cases.
    pub lines: Vec<(&'static str, &'static str, u64)>,
    /// The place of each kind and name in `lines`.
    places: HashMap<(&'static str, &'static str), usize>,
}

type Answer = Result<Assembled, Refused>;

/// A class: kind, name, and whether a case with this answer is one.
type Class = (&'static str, &'static str, fn(&AssemblyCase, Answer) -> bool);

const ASSEMBLED: &str = "assembled";

const CLASSES: [Class; 34] = [
    (ASSEMBLED, "no line", |_, got| lines(got) == Some(0)),
    (ASSEMBLED, "one line", |_, got| lines(got) == Some(1)),
    (ASSEMBLED, "a few lines", |_, got| lines(got).is_some_and(|many| (2..=12).contains(&many))),
    (ASSEMBLED, "many lines", |_, got| lines(got).is_some_and(|many| many > 12)),
    (ASSEMBLED, "no room to spare", |case, got| end(got) == Some(case.image.len())),
    (ASSEMBLED, "one byte to spare", |case, got| {
        end(got).map(|end| end + 1) == Some(case.image.len())
    }),
    (ASSEMBLED, "at the image's end", |case, got| got.is_ok() && case.start == case.image.len()),
    (ASSEMBLED, "eight open", |case, got| got.is_ok() && deepest(&case.text) == 8),
    (ASSEMBLED, "255 labels", |case, got| got.is_ok() && labels(case) == 255),
    (ASSEMBLED, "256 labels", |case, got| got.is_ok() && labels(case) == 256),
    ("refusal 29", "odd start", |case, got| number(got) == 29 && case.start % 2 == 1),
    ("refusal 29", "past the image", |case, got| number(got) == 29 && case.start % 2 == 0),
    ("refusal 29", "far away", |case, got| number(got) == 29 && case.start > usize::MAX / 4),
    ("refusal 30", "first line", |_, got| number(got) == 30 && line(got) == 1),
    ("refusal 30", "later line", |_, got| number(got) == 30 && line(got) > 1),
    ("refusal 30", "no newline", |case, got| {
        number(got) == 30 && !refused(case, got).ends_with(b"\n")
    }),
    ("refusal 30", "empty line", |case, got| number(got) == 30 && refused(case, got) == b"\n"),
    ("refusal 30", "space", |case, got| number(got) == 30 && refused(case, got).contains(&b' ')),
    ("refusal 30", "two tabs", |case, got| number(got) == 30 && has_two_tabs(refused(case, got))),
    ("refusal 31", "nine open", |case, got| number(got) == 31 && deepest(refused(case, got)) == 9),
    ("refusal 31", "more open", |case, got| number(got) == 31 && deepest(refused(case, got)) > 9),
    ("refusal 32", "first line", |_, got| number(got) == 32 && line(got) == 1),
    ("refusal 32", "later line", |_, got| number(got) == 32 && line(got) > 1),
    ("refusal 32", "of many labels", |case, got| number(got) == 32 && labels(case) > 256),
    ("refusal 33", "of few labels", |case, got| number(got) == 33 && labels(case) < 256),
    ("refusal 33", "of many labels", |case, got| number(got) == 33 && labels(case) > 256),
    ("refusal 34", "of 257 labels", |case, got| number(got) == 34 && labels(case) == 257),
    ("refusal 34", "of more labels", |case, got| number(got) == 34 && labels(case) > 257),
    ("refusal 35", "first line", |_, got| number(got) == 35 && line(got) == 1),
    ("refusal 35", "later line", |_, got| number(got) == 35 && line(got) > 1),
    ("refusal 35", "of a word", |case, got| number(got) == 35 && is_word(refused(case, got))),
    ("refusal 36", "first line", |_, got| number(got) == 36 && line(got) == 1),
    ("refusal 36", "later line", |_, got| number(got) == 36 && line(got) > 1),
    ("refusal 36", "at the image's end", |case, got| {
        number(got) == 36 && case.start == case.image.len()
    }),
];

/// The number of assembled lines.
fn lines(answer: Answer) -> Option<usize> {
    answer.ok().map(|assembled| assembled.lines)
}

/// The address after the last assembled byte, if there is one.
fn end(answer: Answer) -> Option<usize> {
    answer.ok().filter(|assembled| assembled.lines > 0).map(|assembled| assembled.end)
}

/// The number of a refusal; 0 if there is none.
fn number(answer: Answer) -> u32 {
    answer.err().map_or(0, |refused| refused.number)
}

/// The line of a refusal; 0 if there is none.
fn line(answer: Answer) -> usize {
    answer.err().map_or(0, |refused| refused.line)
}

/// The text of the refused line.
fn refused(case: &AssemblyCase, answer: Answer) -> &[u8] {
    let index = line(answer).checked_sub(1);
    index.and_then(|index| each_line(&case.text).nth(index)).unwrap_or_default()
}

fn each_line(text: &[u8]) -> impl Iterator<Item = &[u8]> {
    text.split_inclusive(|&byte| byte == b'\n')
}

/// How many lines begin with a label.
fn labels(case: &AssemblyCase) -> usize {
    each_line(&case.text).filter(|line| line[0] != b'\t').count()
}

/// How many parentheses are open at once, where most are.
fn deepest(text: &[u8]) -> usize {
    let (mut open, mut deepest) = (0_usize, 0);
    for byte in text {
        match byte {
            b'(' => open += 1,
            b')' => open = open.saturating_sub(1),
            _ => {}
        }
        deepest = deepest.max(open);
    }
    deepest
}

fn has_two_tabs(line: &[u8]) -> bool {
    line.windows(2).any(|pair| pair == b"\t\t")
}

/// The mnemonic of a line.
fn mnemonic(line: &[u8]) -> &str {
    let field = line.split(|&byte| byte == b'\t').nth(1);
    field.and_then(|field| str::from_utf8(field).ok()).unwrap_or_default()
}

fn is_word(line: &[u8]) -> bool {
    mnemonic(line) == "word"
}

impl AssemblyCoverage {
    /// Nothing reached yet.
    pub fn new() -> AssemblyCoverage {
        let mnemonics = mnemonics().into_iter().map(|instr| instr.mnemonic());
        let mnemonics = mnemonics.chain(["half", "word"]).map(|name| ("line", name));
        let classes = CLASSES.map(|(kind, name, _)| (kind, name));
        let lines: Vec<_> = mnemonics.chain(classes).map(|(kind, name)| (kind, name, 0)).collect();
        let places = lines.iter().enumerate().map(|(place, line)| ((line.0, line.1), place));
        AssemblyCoverage { places: places.collect(), lines }
    }

    /// Counts a case, its answer, and if it was assembled its lines.
    pub fn add(&mut self, case: &AssemblyCase, answer: Answer) {
        for (kind, name, _) in CLASSES.iter().filter(|(_, _, is_one)| is_one(case, answer)) {
            self.count(kind, name);
        }
        if answer.is_ok() {
            each_line(&case.text).for_each(|line| self.count("line", mnemonic(line)));
        }
    }

    fn count(&mut self, kind: &str, name: &str) {
        let place = self.places.get(&(kind, name));
        let place = *place.unwrap_or_else(|| panic!("there is no {kind}, {name}"));
        self.lines[place].2 += 1;
    }

    /// The lines as text.
    pub fn text(&self) -> String {
        self.lines.iter().map(|(kind, name, count)| format!("{kind}\t{name}\t{count}\n")).collect()
    }
}

impl Default for AssemblyCoverage {
    fn default() -> AssemblyCoverage {
        AssemblyCoverage::new()
    }
}
