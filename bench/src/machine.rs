//! The two programs on an image.

use second::record;
use second::state::State;

use crate::images::Image;

/// The steps of one call; its tape has as many bytes.
pub const CALL: usize = 1_000_000;

/// The name of what is called for a single step again and again: the recipe of build 32.
pub const SINGLE: &str = "single-step calls";

/// How many of these are measured together.
pub const SINGLE_CALLS: usize = 10_000;

/// What a program has made of an image so far.
pub trait Machine {
    /// Makes so many steps. All complete: an image runs for ever.
    fn run(&mut self, tape: &[u8]);

    /// Makes as many steps, by a call for each.
    fn run_singly(&mut self, tape: &[u8]) {
        tape.chunks(1).for_each(|lines| self.run(lines));
    }

    /// State, memory and marks.
    fn contents(&self) -> (Vec<u8>, &[u8], &[u8]);
}

/// The static library with a state record.
pub struct Library {
    record: Vec<u8>,
    memory: Vec<u8>,
    marks: Vec<u8>,
}

/// The second program.
pub struct Second {
    state: State,
    memory: Vec<u8>,
    marks: Vec<u8>,
}

impl Library {
    pub fn new(image: &Image) -> Library {
        let (memory, marks) = (image.memory.clone(), image.marks.clone());
        Library { record: record::write(&image.state).to_vec(), memory, marks }
    }
}

impl Second {
    pub fn new(image: &Image) -> Second {
        let (memory, marks) = (image.memory.clone(), image.marks.clone());
        Second { state: image.state.clone(), memory, marks }
    }
}

impl Machine for Library {
    fn run(&mut self, tape: &[u8]) {
        let Library { record, memory, marks } = self;
        let budget = tape.len() as u64;
        let outcome = manik::run_record(record, memory, marks, tape, budget);
        let outcome = outcome.map(|outcome| (outcome.reply, outcome.steps));
        assert_eq!(outcome, Ok((manik::Reply::BudgetUsed, budget)));
    }

    fn contents(&self) -> (Vec<u8>, &[u8], &[u8]) {
        (self.record.clone(), &self.memory, &self.marks)
    }
}

impl Machine for Second {
    fn run(&mut self, tape: &[u8]) {
        let Second { state, memory, marks } = self;
        let budget = tape.len() as u64;
        let outcome = second::run::run(state, memory, marks, tape, budget);
        assert_eq!((outcome.reply.number(), outcome.steps), (10, budget));
    }

    fn contents(&self) -> (Vec<u8>, &[u8], &[u8]) {
        (record::write(&self.state).to_vec(), &self.memory, &self.marks)
    }
}

#[cfg(test)]
mod tests {
    use super::*;
    use crate::images::{recipe, SIZES};

    /// A call for each step leaves what one call for all leaves, whatever the size.
    #[test]
    fn single_calls_make_the_same_steps() {
        for image in SIZES.map(recipe) {
            let tape = image.tape(1_000);
            let (mut library, mut second) = (Library::new(&image), Second::new(&image));
            let (mut singly, mut once) = (Library::new(&image), Second::new(&image));
            library.run(&tape);
            singly.run_singly(&tape);
            second.run_singly(&tape);
            once.run(&tape);
            assert_eq!(library.contents(), singly.contents());
            assert_eq!(second.contents(), once.contents());
            assert_eq!(library.contents(), second.contents());
        }
    }
}
