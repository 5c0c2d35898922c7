//! A run step by step: what each step shows and writes goes to the watchers.

use std::ops::Range;
use std::rc::Rc;

use manik::{Entry, Line, Outcome, Reply};

use crate::checks::Checks;
use crate::effect::Access;
use crate::history::{History, Moment};
use crate::instruction::{Instruction, Listing};
use crate::machine::Machine;
use crate::place::{self, Places};
use crate::plot::Plot;
use crate::trace::Trace;

/// A completed step.
pub struct Step<'a> {
    /// Counted from 1.
    pub number: u64,
    pub line: Line,
    /// What was decoded; none where an entry came before that.
    pub instruction: Option<&'a Rc<Instruction>>,
    /// What it wrote.
    pub written: Places,
    /// What was marked before it.
    pub marked: Places,
    /// The machine after it.
    pub machine: &'a Machine,
}

impl Step<'_> {
    /// The bytes that it stored to.
    pub fn stored(&self) -> Option<Range<usize>> {
        let address = self.line.address? as usize;
        match self.instruction?.effect.access? {
            Access::Store(width) if self.line.entry != Some(Entry::DataError) => {
                Some(address..address + width)
            }
            _ => None,
        }
    }
}

/// All that looks at the steps.
pub struct Watchers {
    pub listing: Listing,
    pub history: History,
    pub checks: Checks,
    pub plot: Option<Plot>,
    pub trace: Option<Trace>,
    /// The moment at which a check failed first.
    pub failed: Option<Moment>,
}

impl Watchers {
    fn step(&mut self, step: &Step) -> Result<(), String> {
        self.history.step(step);
        if self.checks.step(step) && self.failed.is_none() {
            self.failed = Some(self.history.moment());
        }
        if let Some(plot) = &mut self.plot {
            plot.step(step);
        }
        match &mut self.trace {
            Some(trace) => trace.step(step),
            None => Ok(()),
        }
    }
}

/// Makes a step for each byte of the tape, until one stops; `done` ones were made before.
pub fn watch(
    machine: &mut Machine,
    tape: &[u8],
    done: u64,
    watchers: &mut Watchers,
) -> Result<Outcome, String> {
    let mut outcome = Outcome { reply: Reply::BudgetUsed, steps: 0, cycles: machine.state.cycles };
    for lines in tape.iter() {
        let Machine { state, memory, marks } = &*machine;
        let shown = manik::show(state, memory, marks.bits(), *lines);
        let shown = shown.map_err(|error| error.to_string())?;
        let marked = place::marked(state);
        let (instruction, written) = match shown {
            Some(line) => decoded(machine, line, &mut watchers.listing),
            None => (None, Places::NONE),
        };
        let made = machine.run(std::slice::from_ref(lines))?;
        let Some(line) = shown.filter(|_| made.steps == 1) else {
            return stopped(shown, made, outcome);
        };
        outcome = Outcome { steps: outcome.steps + 1, ..made };
        let number = done + outcome.steps;
        let instruction = instruction.as_ref();
        watchers.step(&Step { number, line, instruction, written, marked, machine })?;
    }
    Ok(outcome)
}

/// The instruction of a step, and what it writes. An interrupt, a breakpoint or a fetch outside
/// memory comes before it.
fn decoded(
    machine: &Machine,
    line: Line,
    listing: &mut Listing,
) -> (Option<Rc<Instruction>>, Places) {
    const BREAKPOINT: Entry = Entry::Debug(1);
    match line.entry {
        Some(Entry::Timer | Entry::External(_) | Entry::FetchError | BREAKPOINT) => {
            return (None, Places::NONE);
        }
        _ => (),
    }
    let instruction = listing.at(&machine.memory, line.pc).cloned();
    let written = match &instruction {
        Some(instruction) if line.entry != Some(Entry::DataError) => {
            instruction.effect.written(&machine.state)
        }
        _ => Places::NONE,
    };
    (instruction, written)
}

/// The outcome of a run whose next step was not made.
fn stopped(shown: Option<Line>, made: Outcome, before: Outcome) -> Result<Outcome, String> {
    if shown.is_some() || made.steps != 0 {
        return Err("the library shows another step than it makes".into());
    }
    Ok(Outcome { steps: before.steps, ..made })
}
