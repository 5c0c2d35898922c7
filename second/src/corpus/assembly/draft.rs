//! Drafts of texts: lines, their labels and their addresses, before expressions are written.

use std::collections::HashSet;

use super::expressions::Known;
use super::faults::{Fault, Faults};
use super::places::Content;
use crate::corpus::random::Generator;
use crate::isa::Instr;

/// A text before its expressions are written.
pub(super) struct Draft {
    pub(super) lines: Vec<Sketch>,
    /// The address after the last line.
    pub(super) end: u32,
    /// What expressions use: labels with their values. All are set, if no line is spoilt.
    pub(super) known: Vec<Known>,
    /// Lines before this one have no fault.
    pub(super) first_fault: usize,
}

/// A line before its expression is written.
pub(super) struct Sketch {
    pub(super) label: String,
    pub(super) content: Content,
    pub(super) address: u32,
}

/// How long a draft becomes.
struct Extent {
    lines: usize,
    /// The most labels that it gets, each once.
    labels: usize,
    /// Once in how many lines there is one, until then.
    labelled: u32,
    first_fault: usize,
}

/// Names that a program may take for something else, and others.
const NAMES: [&str; 20] = [
    "a",
    "b",
    "c",
    "x",
    "z",
    "f",
    "x0",
    "e1",
    "r1",
    "r15",
    "sfr0",
    "add",
    "word",
    "half",
    "loop",
    "end",
    "z9",
    "abcdefghijkl",
    "a23456789012",
    "zzzzzzzzzzzz",
];

/// The most labels that are set.
const MOST_LABELS: usize = 256;

impl Generator {
    /// A text from `start` on.
    pub(super) fn draft(&mut self, start: u32, faults: &Faults) -> Draft {
        let Extent { lines, labels, labelled, first_fault } = self.extent();
        let mut draft = Draft { lines: vec![], end: start, known: vec![], first_fault };
        let mut written = HashSet::new();
        for index in 0..lines {
            let faults = if index < first_fault { &Faults::NONE } else { faults };
            let mut label = String::new();
            if !draft.known.is_empty() && self.errs(Fault::Twice, faults) {
                label = draft.known[self.below(draft.known.len() as u32) as usize].name.clone();
            } else if written.len() < labels && self.once_in(labelled) {
                label = self.new_name(&written);
                written.insert(label.clone());
            }
            self.sketch(&mut draft, label);
        }
        // A label that is one too many is a fault too, if an expression uses it.
        if !self.once_in(6) {
            draft.known.truncate(MOST_LABELS);
        }
        draft
    }

    /// Mostly there are few lines; some are so many that a short jump doesn't reach from end to end,
    /// and some have about as many labels as there may be.
    fn extent(&mut self) -> Extent {
        let labels = self.pick(&[255, 256, 256, 257, 257, 258, 259, 260]);
        let (lines, labels, labelled) = match self.below(60) {
            0 | 1 => (0, 0, 1),
            2 => (13 + self.below(90), 256, self.pick(&[1, 2, 20])),
            3 => (500 + self.below(60), 256, self.pick(&[8, 40])),
            4..10 => (labels + self.below(12), labels, 1),
            10..24 => (1, 1, self.pick(&[1, 4])),
            _ => (1 + self.below(12), 12, self.pick(&[1, 2, 2, 4, u32::MAX])),
        };
        let first_fault = match self.below(4) {
            0 => 0,
            1 if lines > 12 => self.below(lines),
            // Among the last, where a table of labels is full.
            _ => lines.saturating_sub(1 + self.below(8)),
        };
        let [lines, labels, first_fault] = [lines, labels, first_fault].map(|n| n as usize);
        Extent { lines, labels, labelled, first_fault }
    }

    /// Adds a line with this label to a draft.
    fn sketch(&mut self, draft: &mut Draft, label: String) {
        let (content, address) = (self.content(), draft.end);
        if !label.is_empty() && !draft.known.iter().any(|known| known.name == label) {
            draft.known.push(Known { name: label.clone(), value: address as i32 });
        }
        draft.end += content.size();
        draft.lines.push(Sketch { label, content, address });
    }

    /// What a line says. Expressions have most of the rules, some ranges are those of one mnemonic,
    /// and SFRs have two, so lines with these come more often.
    fn content(&mut self) -> Content {
        match self.below(20) {
            0 | 1 => Content::Half,
            2..4 => Content::Word,
            4 => Content::Instruction(Instr::Jsfr { sfr: self.below(4) }),
            5 => Content::Instruction(Instr::Mfsfr { rd: self.below(16), sfr: self.below(11) }),
            6 => Content::Instruction(Instr::Ldrpc { rd: self.below(16), uimm8: 0 }),
            7 => Content::Instruction(Instr::Andi { rd: self.below(16), uimm8: 0 }),
            _ => {
                let [first, second] = [(); 2].map(|()| Content::Instruction(self.instruction()));
                if first.place(0).is_some() || self.once_in(3) {
                    first
                } else {
                    second
                }
            }
        }
    }

    /// A name that isn't written yet.
    fn new_name(&mut self, written: &HashSet<String>) -> String {
        loop {
            let name =
                if self.once_in(2) { self.pick(&NAMES).to_string() } else { self.any_name() };
            if !written.contains(&name) {
                return name;
            }
        }
    }

    /// Any name, often one as long as can be.
    pub(super) fn any_name(&mut self) -> String {
        let length = self.pick(&[1, 2, 3, 4, 6, 11, 12]);
        let name = (0..length).map(|place| {
            let many = if place == 0 { 26 } else { 36 };
            char::from(b"abcdefghijklmnopqrstuvwxyz0123456789"[self.below(many) as usize])
        });
        name.collect()
    }
}
