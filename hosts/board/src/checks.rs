//! The checks of a call, and what becomes of the named regions.

use std::rc::Rc;

use manik::Reply;

use crate::instruction::Instruction;
use crate::machine::Machine;
use crate::place;
use crate::regions::{Reached, Region};
use crate::watch::Step;

/// What is asked of a run.
#[derive(Clone, Debug, PartialEq)]
pub enum Ask {
    Expect(Reply),
    /// The region with this place among the named ones keeps contents and marks.
    Keep(usize),
    /// r0 is never below this, from the step on that sets it.
    Floor(u32),
    /// The program counter comes to this address.
    Reach(u32),
    Never(u32),
}

/// A check with the option by which it was asked for, and the first step that decided it.
pub struct Check {
    pub option: String,
    pub ask: Ask,
    pub event: Option<Event>,
}

/// The step that decided a check.
#[derive(Clone)]
pub struct Event {
    pub step: u64,
    /// Whether it is what the step left, not the step itself: the start, after step 0, or the end.
    pub is_after: bool,
    /// The program counter before the step.
    pub pc: u32,
    pub instruction: Option<Rc<Instruction>>,
    /// The data address of a store, or r0, which is none if it is marked.
    pub value: Option<u32>,
}

pub struct Checks {
    pub checks: Vec<Check>,
    pub regions: Vec<Region>,
}

impl Checks {
    pub fn new(asked: Vec<(String, Ask)>, regions: Vec<Region>, start: &Machine) -> Checks {
        let is_set = is_set(start);
        let checks = asked.into_iter().map(|(option, ask)| {
            let event = match ask {
                Ask::Floor(floor) if is_set => {
                    below(start, floor).map(|value| left(0, start, value))
                }
                _ => None,
            };
            Check { option, ask, event }
        });
        Checks { checks: checks.collect(), regions }
    }

    /// Whether every step has to be seen.
    pub fn need_watching(&self) -> bool {
        let needs = |check: &Check| !matches!(check.ask, Ask::Expect(_));
        !self.regions.is_empty() || self.checks.iter().any(needs)
    }

    /// Looks at a step. Whether a check fails by it that had held before.
    pub fn step(&mut self, step: &Step) -> bool {
        for region in &mut self.regions {
            region.step(step);
        }
        let mut failed = false;
        for check in self.checks.iter_mut().filter(|check| check.event.is_none()) {
            let event = match check.ask {
                Ask::Keep(n) => self.regions[n].stored.as_ref().map(Event::from),
                Ask::Floor(floor) if step.written.has(0) => {
                    below(step.machine, floor).map(|value| event(step, value))
                }
                Ask::Reach(address) | Ask::Never(address) => at(step, address),
                _ => None,
            };
            failed |= event.is_some() && !matches!(check.ask, Ask::Reach(_));
            check.event = event;
        }
        failed
    }

    /// The end of the run: the program counter that it came to counts too.
    pub fn end(&mut self, steps: u64, end: &Machine) {
        let pc = end.state.pc;
        for check in self.checks.iter_mut().filter(|check| check.event.is_none()) {
            if matches!(check.ask, Ask::Reach(address) | Ask::Never(address) if address == pc) {
                check.event = Some(left(steps, end, None));
            }
        }
    }
}

/// A machine whose r0 is a stack pointer already. Before it is set, it is none.
pub fn is_set(machine: &Machine) -> bool {
    let r0 = machine.state.registers[0];
    r0.marked || r0.value != 0
}

impl Check {
    pub fn holds(&self, reply: Reply) -> bool {
        match self.ask {
            Ask::Expect(expected) => reply == expected,
            Ask::Reach(_) => self.event.is_some(),
            Ask::Keep(_) | Ask::Floor(_) | Ask::Never(_) => self.event.is_none(),
        }
    }
}

impl From<&Reached> for Event {
    fn from(reached: &Reached) -> Event {
        let instruction = Rc::clone(&reached.instruction);
        let (step, pc) = (reached.step, instruction.address);
        let value = Some(reached.address);
        Event { step, is_after: false, pc, instruction: Some(instruction), value }
    }
}

fn event(step: &Step, value: Option<u32>) -> Event {
    let instruction = step.instruction.cloned();
    Event { step: step.number, is_after: false, pc: step.line.pc, instruction, value }
}

/// What so many steps left.
fn left(step: u64, machine: &Machine, value: Option<u32>) -> Event {
    Event { step, is_after: true, pc: machine.state.pc, instruction: None, value }
}

/// r0 if it is below the floor, or if it is marked, which nobody may compare; its value is then none.
fn below(machine: &Machine, floor: u32) -> Option<Option<u32>> {
    let value = place::content(&machine.state, 0);
    value.is_none_or(|value| value < floor).then_some(value)
}

fn at(step: &Step, address: u32) -> Option<Event> {
    (step.line.pc == address).then(|| event(step, None))
}
