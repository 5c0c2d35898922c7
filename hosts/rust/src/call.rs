//! The call of the static library, and all that is unsafe about it.

use crate::reply::{Error, Outcome, Reply};
use crate::state::cycles;

extern "C" {
    /// As `include/manik.h` documents it.
    fn manik_run(
        state: *mut u8,
        state_len: usize,
        memory: *mut u8,
        memory_len: usize,
        marks: *mut u8,
        marks_len: usize,
        tape: *const u8,
        tape_len: usize,
        budget: u64,
        steps: *mut u64,
    ) -> u32;
}

/// As `run`, with the state as the library's record.
///
/// A record of another length, with a mark or flag byte above 1, or with a byte that isn't zero
/// where zero stands, is out of shape; then nothing changes.
pub fn run_record(
    record: &mut [u8],
    memory: &mut [u8],
    marks: &mut [u8],
    tape: &[u8],
    budget: u64,
) -> Result<Outcome, Error> {
    let (number, steps) = call(record, memory, marks, tape, budget);
    match (Reply::from_number(number), cycles(record)) {
        (Some(reply), Some(cycles)) => Ok(Outcome { reply, steps, cycles }),
        (None, _) if (number, steps) == (0, 0) => Err(Error::RecordOutOfShape),
        _ => Err(Error::UnknownReply { number, steps }),
    }
}

/// The reply's number and the completed steps, as the library gives them.
fn call(
    record: &mut [u8],
    memory: &mut [u8],
    marks: &mut [u8],
    tape: &[u8],
    budget: u64,
) -> (u32, u64) {
    // The library writes it whatever it replies; this value would show if it didn't.
    let mut steps = u64::MAX;
    // SAFETY: each pointer comes with its length from a slice, so it isn't null, even if the slice
    // is empty, and its bytes are initialized and live for the call. The mutable slices and
    // `steps` are borrowed for this call alone, so nothing overlaps them. The library keeps no
    // pointer, and it stays within the slices by its proof.
    let number = unsafe {
        manik_run(
            record.as_mut_ptr(),
            record.len(),
            memory.as_mut_ptr(),
            memory.len(),
            marks.as_mut_ptr(),
            marks.len(),
            tape.as_ptr(),
            tape.len(),
            budget,
            &mut steps,
        )
    };
    (number, steps)
}
