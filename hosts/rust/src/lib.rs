//! A safe wrapper over the static library of the proved MANIK model.
//!
//! Document 01 gives the rules of a run, and document 02 those of a listing and of the assembler;
//! `docs/STATEMENTS.md` says what is proved of the library.
//!
//! ```
//! let mut state = manik::State::fresh();
//! // movi r1,16; add r1,r1; a jump to itself.
//! let mut memory = [0x71, 0x10, 0x21, 0x11, 0xf4, 0x00, 0, 0];
//! // A bit for each byte of memory: none is marked.
//! let mut marks = [0; manik::marks::room(8)];
//! let outcome = manik::run(&mut state, &mut memory, &mut marks, &[0; 3], 3)?;
//! assert_eq!((outcome.reply, outcome.steps), (manik::Reply::BudgetUsed, 3));
//! assert_eq!((state.pc, state.registers[1].value), (4, 32));
//! // Two cycles of the first two, and two of the jump.
//! assert_eq!((outcome.cycles, state.cycles), (4, 4));
//! # Ok::<(), manik::Error>(())
//! ```

#[cfg(not(all(target_arch = "x86_64", target_os = "linux")))]
compile_error!("the static library is x86-64 code for Linux: build with `tools/host cargo`");

mod assemble;
mod call;
mod list;
pub mod marks;
mod reply;
mod show;
mod shown;
mod state;

pub use assemble::{assemble, AssembleError, AssembleRefusal, Assembled};
pub use call::run_record;
pub use list::{list, ListError, LISTING_ROOM};
pub use reply::{Error, Outcome, Reply};
pub use show::{show, show_record, Entry, Line, ShowError};
pub use state::{Register, State, RECORD_LENGTH};

/// Runs over the lent memory and marks, at most `budget` steps, one tape byte for each.
///
/// The marks are bits, as [`marks`] has them: `marks::room(memory.len())` bytes.
///
/// State, memory and marks are changed as document 01 says: not at all by a refusal, else by the
/// completed steps. An error says that the library isn't the one this package was written for;
/// `state` is then as given.
pub fn run(
    state: &mut State,
    memory: &mut [u8],
    marks: &mut [u8],
    tape: &[u8],
    budget: u64,
) -> Result<Outcome, Error> {
    let mut record = state.to_record();
    let outcome = run_record(&mut record, memory, marks, tape, budget)?;
    *state = State::from_record(&record).ok_or(Error::RecordOutOfShape)?;
    Ok(outcome)
}
