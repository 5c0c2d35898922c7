//! A run under a budget (document 01, "Replies of a run").

use crate::marks;
use crate::reply::Reply;
use crate::state::State;
use crate::step::{step, Step};

/// The greatest length of memory.
pub const LONGEST_MEMORY: usize = 65_536;

/// The greatest tape byte: six lines.
const HIGHEST_TAPE_BYTE: u8 = 63;

/// What a run returns beside what it changes.
#[derive(Clone, Copy, Debug, PartialEq, Eq, Hash)]
pub struct Outcome {
    pub reply: Reply,
    /// The number of completed steps.
    pub steps: u64,
    /// The cycle count of the state: "the result repeats it" (document 02, ticket 6).
    pub cycles: u32,
}

/// What the refusals see of a lent memory and its mark slice. The bytes themselves aren't here, so a
/// call can't look them over: what it costs before the first step is the same in any memory.
#[derive(Clone, Copy, Debug, PartialEq, Eq, Hash)]
pub struct Lent {
    pub memory_length: usize,
    pub marks_length: usize,
    /// The last byte of the mark slice, 0 if there is none.
    pub last_marks: u8,
}

impl Lent {
    pub fn of(memory: &[u8], marks: &[u8]) -> Lent {
        Lent {
            memory_length: memory.len(),
            marks_length: marks.len(),
            last_marks: marks.last().copied().unwrap_or(0),
        }
    }
}

/// Runs over the lent memory and marks, at most `budget` steps, one tape byte for each. The marks are
/// bits, as `marks` has them.
pub fn run(
    state: &mut State,
    memory: &mut [u8],
    marks: &mut [u8],
    tape: &[u8],
    budget: u64,
) -> Outcome {
    run_observed(state, memory, marks, tape, budget, |_| ())
}

/// As `run`, and shows each completed step.
pub fn run_observed(
    state: &mut State,
    memory: &mut [u8],
    marks: &mut [u8],
    tape: &[u8],
    budget: u64,
    mut observe: impl FnMut(Step),
) -> Outcome {
    let tape = match accepted_tape(state, Lent::of(memory, marks), tape, budget) {
        Ok(tape) => tape,
        Err(reply) => return Outcome { reply, steps: 0, cycles: state.cycles },
    };
    for (steps, &lines) in tape.iter().enumerate() {
        match step(state, memory, marks, lines) {
            Ok(step) => observe(step),
            Err(reply) => return Outcome { reply, steps: steps as u64, cycles: state.cycles },
        }
    }
    Outcome { reply: Reply::BudgetUsed, steps: budget, cycles: state.cycles }
}

/// The first `budget` bytes of the tape, or the first refusal.
pub fn accepted_tape<'t>(
    state: &State,
    lent: Lent,
    tape: &'t [u8],
    budget: u64,
) -> Result<&'t [u8], Reply> {
    let length = lent.memory_length;
    if length == 0 || length > LONGEST_MEMORY || !length.is_multiple_of(4) {
        return Err(Reply::MemoryLength);
    }
    if lent.marks_length != marks::room(length) {
        return Err(Reply::MarkLength);
    }
    if marks::any_past_end(lent.last_marks, length) {
        return Err(Reply::MarkPastEnd);
    }
    if !state.in_form() {
        return Err(Reply::StateForm);
    }
    let within_budget = usize::try_from(budget).ok().and_then(|budget| tape.get(..budget));
    let tape = within_budget.ok_or(Reply::TapeLength)?;
    if highest(tape) > HIGHEST_TAPE_BYTE {
        return Err(Reply::TapeByte);
    }
    Ok(tape)
}

/// The highest byte, 0 if there is none.
fn highest(bytes: &[u8]) -> u8 {
    bytes.iter().copied().fold(0, u8::max)
}
