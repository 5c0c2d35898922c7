//! What a watched run remembers: its last steps, the entries it is in, and for each place and each
//! byte the last instruction that wrote it. However long the run is, this has a bounded size.

use std::collections::VecDeque;
use std::rc::Rc;

use manik::Line;

use crate::entries::{Entries, Nested};
use crate::instruction::Instruction;
use crate::place::{self, Places};
use crate::watch::Step;

/// How many steps are remembered.
const LAST: usize = 20;

/// A step that was made.
#[derive(Clone)]
pub struct Past {
    pub number: u64,
    pub line: Line,
    pub instruction: Option<Rc<Instruction>>,
    pub written: Written,
}

/// The contents of what a step wrote, none where they are marked. An instruction writes no more than PSW with TF and CY.
#[derive(Clone, Copy, Default)]
pub struct Written {
    count: usize,
    contents: [(u8, Option<u32>); 3],
}

impl Written {
    fn of(step: &Step) -> Written {
        let mut written = Written::default();
        for (place, content) in step.written.iter().zip(&mut written.contents) {
            *content = (place, place::content(&step.machine.state, place));
            written.count += 1;
        }
        written
    }

    pub fn contents(&self) -> &[(u8, Option<u32>)] {
        &self.contents[..self.count]
    }
}

/// The last instruction that wrote something.
#[derive(Clone)]
pub struct Origin {
    pub step: u64,
    pub instruction: Rc<Instruction>,
    /// Its data address.
    pub address: Option<u32>,
    /// What it was made from and was marked.
    pub marked: Places,
}

/// What is told of a moment: the steps up to it, and the entries that have not returned.
#[derive(Clone, Default)]
pub struct Moment {
    pub steps: Vec<Past>,
    pub entries: Entries,
}

pub struct History {
    last: VecDeque<Past>,
    entries: Entries,
    places: [Option<Origin>; place::COUNT],
    bytes: Vec<Option<Origin>>,
}

impl History {
    pub fn new(memory: usize) -> History {
        History {
            last: VecDeque::with_capacity(LAST),
            entries: Entries::default(),
            places: std::array::from_fn(|_| None),
            bytes: vec![None; memory],
        }
    }

    pub fn step(&mut self, step: &Step) {
        self.remember(step);
        self.enter(step);
        if let Some(instruction) = step.instruction {
            self.write(step, instruction);
        }
    }

    fn remember(&mut self, step: &Step) {
        if self.last.len() == LAST {
            self.last.pop_front();
        }
        self.last.push_back(Past {
            number: step.number,
            line: step.line,
            instruction: step.instruction.cloned(),
            written: Written::of(step),
        });
    }

    fn enter(&mut self, step: &Step) {
        if step.instruction.is_some_and(|instruction| instruction.effect.returns) {
            self.entries.leave();
        }
        if let Some(entry) = step.line.entry {
            self.entries.enter(Nested { step: step.number, from: step.line.pc, entry });
        }
    }

    fn write(&mut self, step: &Step, instruction: &Rc<Instruction>) {
        let origin = || Origin {
            step: step.number,
            instruction: Rc::clone(instruction),
            address: step.line.address,
            marked: instruction.effect.reads.and(step.marked),
        };
        for place in step.written.iter() {
            self.places[usize::from(place)] = Some(origin());
        }
        for at in step.stored().into_iter().flatten() {
            self.bytes[at] = Some(origin());
        }
    }

    /// The last instruction that wrote a place.
    pub fn place(&self, place: u8) -> Option<&Origin> {
        self.places[usize::from(place)].as_ref()
    }

    /// The last instruction that wrote a byte.
    pub fn byte(&self, at: usize) -> Option<&Origin> {
        self.bytes.get(at)?.as_ref()
    }

    pub fn moment(&self) -> Moment {
        Moment { steps: self.last.iter().cloned().collect(), entries: self.entries.clone() }
    }
}
