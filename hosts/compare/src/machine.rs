//! The inputs of a run, and what a run leaves.

use manik::Error;
use second::marks::is_marked;
use second::record;
use second::run::{run_observed, Outcome};
use second::state::{psw, State};
use second::step::Step;

use crate::random::Random;

/// The inputs of a run, with the state as a record, which may be out of shape.
#[derive(Clone, Debug, PartialEq)]
pub struct Input {
    pub record: Vec<u8>,
    pub memory: Vec<u8>,
    /// A bit for each byte of memory, or of another length.
    pub marks: Vec<u8>,
    pub tape: Vec<u8>,
    pub budget: u64,
}

/// The whole result of a run. Reply 0 says that the record is out of shape.
#[derive(Clone, Debug, PartialEq)]
pub struct End {
    pub reply: u32,
    pub steps: u64,
    pub record: Vec<u8>,
    pub memory: Vec<u8>,
    pub marks: Vec<u8>,
}

/// The run by the static library.
pub fn by_library(input: &Input) -> End {
    let Input { mut record, mut memory, mut marks, tape, budget } = input.clone();
    let answer = manik::run_record(&mut record, &mut memory, &mut marks, &tape, budget);
    let (reply, steps) = match answer {
        Ok(outcome) => (outcome.reply.number(), outcome.steps),
        Err(Error::RecordOutOfShape) => (0, 0),
        Err(Error::UnknownReply { number, steps }) => (number, steps),
    };
    End { reply, steps, record, memory, marks }
}

/// A run by the second program.
pub struct Observed {
    pub end: End,
    /// None if the record is out of shape.
    pub outcome: Option<Outcome>,
    /// What each completed step shows.
    pub trace: Vec<Step>,
}

/// The run by the second program.
pub fn by_second(input: &Input) -> Observed {
    let Input { mut record, mut memory, mut marks, tape, budget } = input.clone();
    let mut trace = Vec::new();
    let mut outcome = None;
    if let Some(mut state) = record::read(&record) {
        let show = |step| trace.push(step);
        outcome = Some(run_observed(&mut state, &mut memory, &mut marks, &tape, budget, show));
        record = record::write(&state).to_vec();
    }
    let (reply, steps) = outcome.map_or((0, 0), |outcome| (outcome.reply.number(), outcome.steps));
    Observed { end: End { reply, steps, record, memory, marks }, outcome, trace }
}

/// The same input with other contents wherever there is a mark: in registers, TF, CY and memory.
pub fn scrambled(input: &Input, random: &mut Random) -> Input {
    let mut other = input.clone();
    if let Some(mut state) = record::read(&input.record) {
        change_marked(&mut state, || random.word());
        other.record = record::write(&state).to_vec();
    }
    marked_bytes(&mut other.memory, &input.marks).for_each(|byte| *byte = random.word() as u8);
    other
}

/// The end with all marked contents blotted out: ends that differ in these alone become equal.
pub fn blotted(mut end: End) -> End {
    if let Some(mut state) = record::read(&end.record) {
        change_marked(&mut state, || 0);
        end.record = record::write(&state).to_vec();
    }
    marked_bytes(&mut end.memory, &end.marks).for_each(|byte| *byte = 0);
    end
}

/// Changes the marked registers and, of PSW, the marked ones of TF and CY.
fn change_marked(state: &mut State, mut other: impl FnMut() -> u32) {
    for register in state.registers.iter_mut().filter(|register| register.marked) {
        register.value = other();
    }
    for (flag, marked) in [(psw::TF, state.tf_marked), (psw::CY, state.cy_marked)] {
        if marked {
            state.psw = state.psw & !flag | other() & flag;
        }
    }
}

fn marked_bytes<'m>(memory: &'m mut [u8], marks: &'m [u8]) -> impl Iterator<Item = &'m mut u8> {
    let bytes = memory.iter_mut().enumerate();
    bytes.filter(|&(address, _)| is_marked(marks, address)).map(|(_, byte)| byte)
}
