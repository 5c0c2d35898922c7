//! What runs reach.

mod marks;

use super::{Case, REPLIES};
use crate::isa::{decode, mnemonics};
use crate::run::Outcome;
use crate::state::{hwdbg, State};
use crate::step::{step, Access, Entry};

use marks::Before;

/// Counts with their names, in a fixed order.
pub struct Coverage {
    /// For each line its kind, its name and how often it was reached: the mnemonics first, then
    /// the replies, then the entries, then what marks come to.
    pub lines: Vec<(&'static str, String, u64)>,
    /// For each first byte of an instruction the line of its mnemonic.
    line_of_byte: [Option<usize>; 256],
}

/// The kinds of entry.
const ENTRIES: [&str; 7] =
    ["swint", "breakpoint", "watchpoint", "timer", "external", "fetch bus error", "data bus error"];

/// How often these cases reach each mnemonic, each reply, each kind of entry and each class of
/// marks.
pub fn coverage(cases: &[Case]) -> Coverage {
    let mut coverage = Coverage::new();
    for case in cases {
        let (outcome, _) = case.run();
        let Case { state, mut memory, mut marks, tape, .. } = case.clone();
        coverage.add(outcome, state, &mut memory, &mut marks, &tape);
    }
    coverage
}

impl Coverage {
    /// Nothing reached yet.
    pub fn new() -> Coverage {
        let mnemonics = mnemonics();
        let named = |kind, names: Vec<String>| names.into_iter().map(move |name| (kind, name, 0));
        let steps = mnemonics.iter().map(|each| each.mnemonic().to_string()).collect();
        let replies = REPLIES.iter().map(|reply| reply.number().to_string()).collect();
        let entries = ENTRIES.map(str::to_string).to_vec();
        let lines = named("step", steps).chain(named("reply", replies));
        let marks = marks::CLASSES.map(str::to_string).to_vec();
        let lines = lines.chain(named("entry", entries)).chain(named("marks", marks)).collect();
        let line_of_byte = std::array::from_fn(|byte| {
            let mnemonic = decode((byte as u16) << 8, 0)?.with_operands([0; 3]);
            mnemonics.iter().position(|&each| each == mnemonic)
        });
        Coverage { lines, line_of_byte }
    }

    /// Counts the reply of a run and makes its completed steps once more, one by one, on what the
    /// run began with.
    pub fn add(
        &mut self,
        outcome: Outcome,
        mut state: State,
        memory: &mut [u8],
        marks: &mut [u8],
        tape: &[u8],
    ) {
        let reply = REPLIES.iter().position(|&reply| reply == outcome.reply);
        self.count(self.first_reply() + reply.expect("every reply is listed"));
        self.count_marks(marks::class_of_run(outcome.reply, memory.len(), marks));
        for &lines in &tape[..outcome.steps as usize] {
            let first_byte = memory.get(state.pc as usize).copied();
            let before = Before::new(&state, memory, marks);
            let step = step(&mut state, memory, marks, lines).expect("it was completed");
            let entry = step.entry.map(entry_name);
            if let Some(entry) = entry.and_then(|name| ENTRIES.iter().position(|&e| e == name)) {
                self.count(self.first_entry() + entry);
            }
            // The other entries take the place of an instruction, or of what it would have done.
            if matches!(entry, None | Some("swint" | "watchpoint")) {
                let line = first_byte.and_then(|byte| self.line_of_byte[usize::from(byte)]);
                self.count(line.expect("an instruction was done"));
                self.count_marks(before.classes(marks));
            }
        }
    }

    fn first_reply(&self) -> usize {
        self.first_entry() - REPLIES.len()
    }

    fn first_entry(&self) -> usize {
        self.first_of_marks() - ENTRIES.len()
    }

    fn first_of_marks(&self) -> usize {
        self.lines.len() - marks::CLASSES.len()
    }

    fn count_marks(&mut self, classes: impl IntoIterator<Item = &'static str>) {
        for name in classes {
            let class = marks::CLASSES.iter().position(|&class| class == name);
            self.count(self.first_of_marks() + class.expect("every class is listed"));
        }
    }

    fn count(&mut self, line: usize) {
        self.lines[line].2 += 1;
    }

    /// The lines as text.
    pub fn text(&self) -> String {
        self.lines.iter().map(|(kind, name, count)| format!("{kind}\t{name}\t{count}\n")).collect()
    }
}

impl Default for Coverage {
    fn default() -> Coverage {
        Coverage::new()
    }
}

/// The kind of an entry.
const fn entry_name(entry: Entry) -> &'static str {
    match entry {
        Entry::Swint(_) => "swint",
        Entry::Debug(hwdbg::BP_HIT) => "breakpoint",
        Entry::Debug(_) => "watchpoint",
        Entry::Timer => "timer",
        Entry::External(_) => "external",
        Entry::BusError(Access::Fetch) => "fetch bus error",
        Entry::BusError(Access::Data) => "data bus error",
    }
}
