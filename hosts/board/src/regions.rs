//! The fate of a named region of marked bytes: stores into it, and marks that it lost.
//!
//! Whether a marked content is another one than before is not asked: the answer would tell of the
//! key. A region whose contents stay is one that no store reaches.

use std::ops::Range;
use std::rc::Rc;

use crate::instruction::Instruction;
use crate::machine::Machine;
use crate::watch::Step;

/// An instruction that reached the region.
#[derive(Clone)]
pub struct Reached {
    pub step: u64,
    pub instruction: Rc<Instruction>,
    /// The data address.
    pub address: u32,
}

pub struct Region {
    pub name: String,
    pub range: Range<usize>,
    /// The first store into it.
    pub stored: Option<Reached>,
    /// The first store that took a mark away.
    pub lost: Option<Reached>,
}

impl Region {
    pub fn new(name: String, range: Range<usize>) -> Region {
        Region { name, range, stored: None, lost: None }
    }

    /// Whether this step is the first that reaches it.
    pub fn step(&mut self, step: &Step) -> bool {
        let Some(stored) = step.stored() else { return false };
        let common = self.range.start.max(stored.start)..self.range.end.min(stored.end);
        let (Some(instruction), Some(address)) = (step.instruction, step.line.address) else {
            return false;
        };
        if common.is_empty() {
            return false;
        }
        let reached =
            || Reached { step: step.number, instruction: Rc::clone(instruction), address };
        let length = common.len();
        if self.lost.is_none() && step.machine.marks.count(common) < length {
            self.lost = Some(reached());
        }
        let is_first = self.stored.is_none();
        if is_first {
            self.stored = Some(reached());
        }
        is_first
    }

    /// How many of its bytes are marked.
    pub fn marked(&self, machine: &Machine) -> usize {
        machine.marks.count(self.range.clone())
    }
}
