//! The machine of a run: state, memory and marks, and the one place that has the library make steps.

use manik::{Outcome, State};

use crate::marks::Marks;

#[derive(Clone)]
pub struct Machine {
    pub state: State,
    pub memory: Vec<u8>,
    pub marks: Marks,
}

impl Machine {
    /// Makes a step for each byte of the tape, until one stops.
    pub fn run(&mut self, tape: &[u8]) -> Result<Outcome, String> {
        let budget = tape.len() as u64;
        let Machine { state, memory, marks } = self;
        manik::run(state, memory, marks.bits_mut(), tape, budget).map_err(|error| error.to_string())
    }
}
